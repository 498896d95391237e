//! Each refusal number 1 to 16 in its reasons, its places and its ties. A `!` stands where the refusal is.

mod helpers;
use helpers::*;
use reference::spot::Spot;
use reference::translate::translate;

fn all_refused(number: u32, texts: &[&str]) {
    for text in texts {
        assert_refused(number, text);
    }
}

fn all_accepted(texts: &[&str]) {
    for text in texts {
        assert_eq!(verdict(text.as_bytes()), (0, 0), "{text}");
    }
}

#[test]
fn refusal_1_source_too_long() {
    let long = |front: &str, back: &str| {
        let blanks = 32_769 - front.len() - back.len();
        front.to_string() + &" ".repeat(blanks) + back
    };
    for (front, back) in [
        ("BEGIN END @", ""),
        ("", "BEGIN END @"),
        ("BEGIN", "END @"),
        ("?", ""),
        ("", "COMMENT"),
        ("99999999999", ""),
        ("END END", "@"),
        ("BEGIN RE := R1; END @", ""),
        ("BEGIN COMMENT", "; END @"),
        ("", ""),
    ] {
        let text = long(front, back);
        assert_eq!(verdict(text.as_bytes()), (1, 32_768), "{front} ... {back}");
        let fits = text.replacen("  ", " ", 1);
        assert_ne!(verdict(fits.as_bytes()).0, 1, "{front} ... {back}");
    }
    assert_eq!(verdict(&[b'@'; 100_000]), (1, 32_768));
    assert_eq!(verdict(&[b'\n'; 32_768]), (4, 32_768));
}

#[test]
fn refusal_2_byte_in_no_token() {
    all_refused(
        2,
        &[
            "!?",
            "BEGIN R1 !& R2; END @",
            "BEGIN R1 := R2!/R3; END @",
            "BEGIN R1 := !^R2; END @",
            "BEGIN IF R1 !^ = R2 THEN NULL; END @",
            "BEGIN R1 := !_; END @",
            "BEGIN R1 := !_A; END @",
            "BEGIN R1 := !#; END @",
            "BEGIN R1 := 5!.0; END @",
            "BEGIN INTEGER A!a; END @",
            "BEGIN END !% @",
            "BEGIN !\t END @",
            "BEGIN !\0END @",
            "BEGIN !é END @",
            "BEGIN !COMMENT",
            "BEGIN !COMMENT no end of it @",
            "BEGIN COMMENT one; !COMMENT two END @",
            "BEGIN END COMMENT @ ; !COMMENT @",
            "!\"A\" @",
            "BEGIN !$ 99999999999 END @",
            "END !? COMMENT",
        ],
    );
    all_accepted(&["BEGIN COMMENT any byte: ? & \t\r _ # ^ @ é; END @", "BEGIN COMMENT;END@?", "BEGIN\nEND\n@\t"]);
}

#[test]
fn refusal_3_number_out_of_range() {
    all_refused(
        3,
        &[
            "BEGIN R1 := !2147483648; END @",
            "BEGIN R1 := !_2147483649; END @",
            "BEGIN R1 := !#100000000; END @",
            "BEGIN R1 := !4294967296; END @",
            "BEGIN R1 := !18446744073709551616; END @",
            "BEGIN R1 := !_18446744073709551616; END @",
            "BEGIN R1 := !#10000000000000000; END @",
            "BEGIN R1 := !99999999999999999999999999999999999999; END @",
            "BEGIN R1 := !00000000002147483648; END @",
            "BEGIN INTEGER A(!2147483648); END @",
            "END !3000000000 @",
            "!3000000000 ? @",
            "BEGIN R1 := 1 + !3000000000 + 4000000000; END @",
        ],
    );
    all_accepted(&[
        "BEGIN R1 := 2147483647 + _2147483648 + #FFFFFFFF + _0 + #0; END @",
        "BEGIN R1 := 0002147483647 + _0002147483648 + #000FFFFFFFF; END @ 2147483648",
        "BEGIN COMMENT 99999999999; END @",
    ]);
}

#[test]
fn refusal_4_program() {
    all_refused(
        4,
        &[
            "!",
            "  \n !",
            "!@",
            "!END @",
            "BEGIN!",
            "BEGIN !@",
            "BEGIN END !",
            "BEGIN END !; @",
            "BEGIN END !END @",
            "BEGIN !; END @",
            "BEGIN NULL !END @",
            "BEGIN NULL; END!",
            "BEGIN COMMENT @;!",
            "BEGIN R1 !R2; END @",
            "BEGIN R1 := !; END @",
            "BEGIN R1 := R2 !R3; END @",
            "BEGIN R1 !+ R2; END @",
            "BEGIN R1 := R2 + !; END @",
            "BEGIN R1 := R2 + !ABS R3; END @",
            "BEGIN R1 := NEG !NEG R2; END @",
            "BEGIN R1 := NEG!",
            "BEGIN R1 := !- R2; END @",
            "BEGIN R1 := !(R2); END @",
            "BEGIN !5 := R1; END @",
            "BEGIN A(!) := R1; END @",
            "BEGIN A(R1!+ 4) := R1; END @",
            "BEGIN A(R1!, 4) := R3; END @",
            "BEGIN GOTO !5; END @",
            "BEGIN GOTO !BEGIN END; END @",
            "BEGIN IF !THEN NULL; END @",
            "BEGIN IF !5 = R1 THEN NULL; END @",
            "BEGIN IF R1 !THEN NULL; END @",
            "BEGIN IF R1 = !THEN NULL; END @",
            "BEGIN IF R1 = R2 !DO NULL; END @",
            "BEGIN IF = !R1 THEN NULL; END @",
            "BEGIN IF OVERFLOW != THEN NULL; END @",
            "BEGIN IF = THEN !; END @",
            "BEGIN IF = THEN NULL !THEN NULL; END @",
            "BEGIN IF = THEN NULL; !ELSE NULL; END @",
            "BEGIN IF = THEN NULL ELSE NULL !ELSE NULL; END @",
            "BEGIN IF = THEN IF = THEN NULL ELSE NULL !ELSE NULL; END @",
            "BEGIN IF = THEN FOR R1 := 1 STEP 1 UNTIL 2 DO NULL !ELSE NULL; END @",
            "BEGIN IF = THEN L!: NULL; END @",
            "BEGIN WHILE = !THEN NULL; END @",
            "BEGIN WHILE R1 < 5 DO L!: NULL; END @",
            "BEGIN FOR R1 !STEP 1 UNTIL 2 DO NULL; END @",
            "BEGIN FOR R1 := 1 !UNTIL 2 DO NULL; END @",
            "BEGIN FOR R1 := 1 STEP !R2 UNTIL 2 DO NULL; END @",
            "BEGIN FOR R1 := 1 STEP 1 UNTIL 2 !+ 1 DO NULL; END @",
            "BEGIN FOR R1 := 1 STEP 1 UNTIL !NEG 2 DO NULL; END @",
            "BEGIN NULL; !INTEGER A; END @",
            "BEGIN INTEGER !; END @",
            "BEGIN INTEGER A,!; END @",
            "BEGIN INTEGER A !B; END @",
            "BEGIN INTEGER A(!R1); END @",
            "BEGIN INTEGER A(1!, 2); END @",
            "BEGIN INTEGER !INTEGER A; END @",
            "BEGIN INTEGER !SHORT A; END @",
            "BEGIN SHORT !A; END @",
            "BEGIN SHORT INTEGER !REGISTER A(1); END @",
            "BEGIN ARRAY !2 INTEGER A; END @",
            "BEGIN ARRAY (!R2) INTEGER A; END @",
            "BEGIN ARRAY (2) !A; END @",
            "BEGIN ARRAY (2) !PROCEDURE P(R1); NULL; END @",
            "BEGIN !REGISTER A(1); END @",
            "BEGIN INTEGER REGISTER A!; END @",
            "BEGIN INTEGER REGISTER A(1), B!, C(2); END @",
            "BEGIN PROCEDURE P!; NULL; END @",
            "BEGIN PROCEDURE P(!5); NULL; END @",
            "BEGIN PROCEDURE P(R5) !NULL; END @",
            "BEGIN PROCEDURE P(R5); !END @",
            "BEGIN PROCEDURE P(R5); !; END @",
            "BEGIN PROCEDURE P(R5); !INTEGER A; END @",
            "BEGIN SEGMENT !PROCEDURE P(R5); NULL; END @",
            "BEGIN SEGMENT !RC; END @",
            "BEGIN SEGMENT BASE !12; END @",
            "BEGIN SEGMENT BASE RC!, RB; END @",
            "BEGIN !BASE RC; END @",
            "BEGIN L: !: END @",
            "BEGIN BEGIN END !END @",
        ],
    );
    // A use with arguments goes on in any row; the `:=` behind one that is no target does not.
    all_refused(4, &["BEGIN A(R1)(R2) !:= R3; END @", "BEGIN A(4)(R1)(R2) !:= R3; END @"]);
    all_accepted(&[
        "BEGIN L: END @",
        "BEGIN L: M: NULL; N: END @",
        "BEGIN BEGIN END; END @",
        "BEGIN R1:=NEG ABS 1; END@",
    ]);
}

#[test]
fn refusal_5_nesting() {
    let nested = |count: usize, opening: &str, rest: &str| opening.repeat(count) + rest;
    let refused = |count: usize, opening: &str, rest: &str| assert_refused(5, &nested(count, opening, rest));
    refused(64, "BEGIN ", "!BEGIN");
    refused(64, "BEGIN ", "!IF");
    refused(64, "BEGIN ", "!WHILE");
    refused(64, "BEGIN ", "!FOR");
    refused(64, "BEGIN ", "!PROCEDURE");
    refused(32, "BEGIN IF R1 = R2 THEN ", "!BEGIN END");
    refused(32, "BEGIN PROCEDURE P(R1); ", "!WHILE = DO NULL; END @");
    // The IF is closed before the BEGIN after it, so that one is inside 63.
    refused(63, "BEGIN ", "IF = THEN NULL; BEGIN !BEGIN");
    refused(63, "BEGIN ", "IF = THEN NULL ELSE !BEGIN");
    // A token with which no program goes on is 4, whatever is open.
    assert_refused(4, &nested(64, "BEGIN ", "R1 := !BEGIN"));
    assert_refused(4, &nested(64, "BEGIN ", "!THEN BEGIN"));
    assert_refused(4, &nested(64, "BEGIN ", "NULL; !PROCEDURE"));
    // The smallest place: 5 before a later 4, but not before an earlier one.
    refused(64, "BEGIN ", "!BEGIN THEN");
    assert_refused(4, &nested(63, "BEGIN ", "!THEN BEGIN BEGIN"));
    assert_refused(4, &nested(64, "BEGIN ", "!@"));
    // 5 is of the grammar, before 6 to 13.
    refused(64, "BEGIN RE := X; ", "!BEGIN");
}

#[test]
fn refusal_6_not_found() {
    all_refused(
        6,
        &[
            "BEGIN !X := R1; END @",
            "BEGIN R1 := !X; END @",
            "BEGIN R1 := R2 + !X; END @",
            "BEGIN !P; END @",
            "BEGIN IF !X = R1 THEN NULL; END @",
            "BEGIN IF R1 = !X THEN NULL; END @",
            "BEGIN WHILE !X = R1 DO NULL; END @",
            "BEGIN ARRAY (2) INTEGER A; R1 := A(!X); END @",
            "BEGIN ARRAY (2) INTEGER A; A(4)(!X) := R1; END @",
            "BEGIN FOR !X := 1 STEP 1 UNTIL 2 DO NULL; END @",
            "BEGIN FOR R1 := 1 STEP 1 UNTIL !X DO NULL; END @",
            "BEGIN PROCEDURE P(!X); NULL; END @",
            "BEGIN SEGMENT BASE !X; END @",
            "BEGIN GOTO !L; END @",
            "BEGIN BEGIN L: END; GOTO !L; END @",
            "BEGIN L: BEGIN PROCEDURE P(R5); GOTO !L; END; END @",
            "BEGIN PROCEDURE P(R5); BEGIN L: END; GOTO !L; END @",
            "BEGIN BEGIN INTEGER A; END; R1 := !A; END @",
            "BEGIN PROCEDURE P(R5); BEGIN INTEGER A; END; R1 := !A; END @",
            "BEGIN PROCEDURE P(R5); !Q; PROCEDURE Q(R6); P; END @",
            "BEGIN R1 := !RG; END @",
            "BEGIN R1 := !R10; END @",
            "BEGIN R1 := !R; END @",
            "BEGIN INTEGER ABCDEFGHIJ; R1 := !ABCDEFGHI; END @",
            "BEGIN L: R1 := !L; END @",
            "BEGIN R1 := R1 SHLL !X; END @",
            "BEGIN !X(R0) := RE; END @",
        ],
    );
    all_accepted(&[
        "BEGIN INTEGER ABCDEFGHIJK; R1 := ABCDEFGHIJL; END @",
        "BEGIN GOTO L; BEGIN GOTO L; BEGIN GOTO L; END; END; L: END @",
        "BEGIN GOTO ABCDEFGHIJ1; ABCDEFGHIJ2: END @",
    ]);
}

#[test]
fn refusal_7_declared_twice() {
    all_refused(
        7,
        &[
            "BEGIN INTEGER A, !A; END @",
            "BEGIN INTEGER A; SHORT INTEGER !A; END @",
            "BEGIN INTEGER REGISTER A(1), !A(2); END @",
            "BEGIN INTEGER A; INTEGER REGISTER !A(99); END @",
            "BEGIN PROCEDURE A(R5); NULL; INTEGER !A; END @",
            "BEGIN INTEGER A; PROCEDURE !A(X); NULL; END @",
            "BEGIN INTEGER R1, !R1; END @",
            "BEGIN INTEGER A; ARRAY (2048) INTEGER !A; END @",
            "BEGIN L: !L: END @",
            "BEGIN L: NULL; BEGIN L: END; !L: END @",
            "BEGIN ABCDEFGHIJ1: !ABCDEFGHIJ2: END @",
            "BEGIN BEGIN INTEGER A; END; BEGIN INTEGER A, B, !A; END; END @",
            "BEGIN PROCEDURE P(R5); BEGIN INTEGER P; END; INTEGER !P; END @",
            "BEGIN L: !L: GOTO M; END @",
        ],
    );
    all_accepted(&[
        "BEGIN INTEGER A; BEGIN INTEGER A; BEGIN INTEGER A; END; END; BEGIN INTEGER A; END; END @",
        "BEGIN L: BEGIN L: END; BEGIN L: END; END @",
        "BEGIN INTEGER L; L: END @",
        "BEGIN PROCEDURE P(R5); BEGIN PROCEDURE P(R6); NULL; END; END @",
    ]);
    let many = (0..256).map(|number| format!("N{number}")).collect::<Vec<_>>().join(", ");
    assert_refused(7, &format!("BEGIN INTEGER {many}, !N7; END @"));
}

#[test]
fn refusal_8_kind() {
    let declared = "BEGIN INTEGER I; SHORT INTEGER S; ARRAY (2) INTEGER A; PROCEDURE P(R5); NULL; ";
    for statement in [
        "!P := R1",
        "R1 := !P",
        "R1 := !P(4)",
        "R1 := !P(R1)",
        "R1 := R1 + !P",
        "R3 := R1 * !P",
        "R1 := R1 SHLL !P",
        "!I",
        "!A",
        "!R1",
        "!S",
        "IF !I = R1 THEN NULL",
        "IF !P = R1 THEN NULL",
        "IF R1 = !P THEN NULL",
        "WHILE !A = R1 DO NULL",
        "FOR !S := R1 STEP 1 UNTIL 2 DO NULL",
        "FOR !P := R1 STEP 1 UNTIL 2 DO NULL",
        "FOR !A(4) := R1 STEP 1 UNTIL 2 DO NULL",
        "FOR !R1(4) := R1 STEP 1 UNTIL 2 DO NULL",
        "FOR R1 := 1 STEP 1 UNTIL !P DO NULL",
        "R1 := A(!I)",
        "R1 := A(!P)",
        "R1 := A(0)(!A)",
        "R1 := !R2(4)",
        "!R1(R2) := R2",
        "R1 := !I(0)",
        "!S(R1) := R1",
        "R1 := R1 AND !S",
        "R1 := R1 OR !S",
        "R1 := R1 XOR !S",
        "R1 := R1 ++ !S",
        "R1 := R1 -- !S",
        "R1 := R1 SHLL !I",
        "R1 := R1 SHRA !A(3)",
        "R1 := R1 SHRL !R2(4)",
        "I := !5",
        "I := !I",
        "I := !NEG R1",
        "I := !NEG ABS R1",
        "S := !A(0)",
        "S := !P",
        "A(4) := R1 !SHLL 99",
        "A := R1 !+ 1 + X",
        "A(4) := !R1(4)",
        "I := !#FFFF",
    ] {
        assert_refused(8, &format!("{declared}{statement}; END @"));
    }
    all_refused(
        8,
        &[
            "BEGIN INTEGER I; PROCEDURE P(!I); NULL; END @",
            "BEGIN INTEGER I; SEGMENT BASE !I; END @",
            "BEGIN PROCEDURE P(R5); NULL; SEGMENT BASE !P; END @",
            "BEGIN INTEGER R1; FOR !R1 := 1 STEP 1 UNTIL 2 DO NULL; END @",
        ],
    );
    for statement in [
        "R1 := ABS S",
        "R1 := NEG I",
        "R1 := A",
        "A := R1",
        "S := R1",
        "R1 := S + S - S * S",
        "R1 := R1 + A(4)(R1)",
        "IF R1 = S THEN NULL",
        "P",
        "R1 := R1 SHLL R2",
        "A(R1) := R0",
    ] {
        assert_eq!(verdict(format!("{declared}{statement}; END @").as_bytes()), (0, 0), "{statement}");
    }
}

#[test]
fn refusal_9_register_number() {
    all_refused(
        9,
        &[
            "BEGIN INTEGER REGISTER A(!16); END @",
            "BEGIN INTEGER REGISTER A(!_1); END @",
            "BEGIN LOGICAL REGISTER A(0), B(15), C(!2147483647); END @",
            "BEGIN INTEGER REGISTER A(!#FFFFFFFF); END @",
            "BEGIN INTEGER REGISTER A(!#80000000); END @",
            "BEGIN SEGMENT BASE !R0; END @",
            "BEGIN PROCEDURE P(!R0); NULL; END @",
            "BEGIN INTEGER REGISTER Z(0); PROCEDURE P(!Z); NULL; END @",
            "BEGIN ARRAY (2) INTEGER A; R1 := A(!R0); END @",
            "BEGIN ARRAY (2) INTEGER A; A(4)(!R0) := R1; END @",
            "BEGIN ARRAY (2) INTEGER A; IF R1 = A(!R0) THEN NULL; END @",
            "BEGIN ARRAY (2) INTEGER A; FOR R1 := 1 STEP 1 UNTIL A(!R0) DO NULL; END @",
            "BEGIN R1 := R1 SHLL !R0; END @",
            "BEGIN R1 := R1 SHRA !R0 SHLA R0; END @",
            "BEGIN R2 := R3 !* R4; END @",
            "BEGIN R2 := R3 !* 5; END @",
            "BEGIN R0 := R3 !* R1; END @",
            "BEGIN INTEGER I; R2 := R3 !* I; END @",
            "BEGIN ARRAY (2) LOGICAL A; R2 := R3 !* A(4)(R0); END @",
            "BEGIN INTEGER REGISTER X(8); X := R3 + R1 !* R1; END @",
        ],
    );
    all_accepted(&[
        "BEGIN SHORT INTEGER S; R2 := R3 * S; R0 := R0 * S; END @",
        "BEGIN R3 := R2 * R0; R1 := R0 * R0; R0 := R0 + R0; IF R0 = R0 THEN NULL; END @",
        "BEGIN INTEGER REGISTER A(0), B(15), C(#F); END @",
    ]);
}

#[test]
fn refusal_10_protected() {
    all_refused(
        10,
        &[
            "BEGIN !RE := R1; END @",
            "BEGIN !RF := R1; END @",
            "BEGIN INTEGER REGISTER X(15); !X := R1; END @",
            "BEGIN FOR !RE := 1 STEP 1 UNTIL 2 DO NULL; END @",
            "BEGIN !RF := RF * RF; END @",
            "BEGIN SEGMENT BASE !RE; END @",
            "BEGIN SEGMENT BASE !RF; END @",
            "BEGIN SEGMENT BASE RC; !RC := R1; END @",
            "BEGIN SEGMENT BASE RC; BEGIN SEGMENT BASE !RC; END; END @",
            "BEGIN SEGMENT BASE RC; RD := R1 !* R2; END @",
            "BEGIN SEGMENT BASE RC; PROCEDURE P(R5); !RC := R1; END @",
            "BEGIN PROCEDURE P(R5); !R5 := R1; END @",
            "BEGIN PROCEDURE P(R5); BEGIN PROCEDURE Q(R6); !R5 := R1; END; END @",
            "BEGIN PROCEDURE P(R4); R5 := R1 !* 3; END @",
            "BEGIN PROCEDURE P(R5); BEGIN PROCEDURE Q(R6); !P; END; END @",
            "BEGIN PROCEDURE P(R5); R7 := 1; PROCEDURE Q(R7); !P; END @",
            "BEGIN PROCEDURE P(R5); NULL; PROCEDURE Q(R5); !P; END @",
            "BEGIN PROCEDURE P(R5); R7 := 1; PROCEDURE Q(R6); P; PROCEDURE S(R7); !Q; END @",
            "BEGIN PROCEDURE P(R5); NULL; PROCEDURE Q(R6); P; PROCEDURE S(R5); !Q; END @",
            "BEGIN PROCEDURE P(R5); R7 := R1 * R1; PROCEDURE Q(R6); !P; END @",
            "BEGIN PROCEDURE P(R5); BEGIN SEGMENT BASE RC; END; SEGMENT BASE RC; !P; END @",
            "BEGIN PROCEDURE P(R5); FOR R7 := 1 STEP 1 UNTIL 2 DO NULL; PROCEDURE Q(R7); !P; END @",
            "BEGIN PROCEDURE P(R5); BEGIN PROCEDURE N(R7); NULL; N; END; PROCEDURE Q(R7); !P; END @",
            "BEGIN PROCEDURE P(RE); NULL; !P; END @",
        ],
    );
    all_accepted(&[
        "BEGIN SHORT INTEGER S; PROCEDURE P(R4); R5 := R1 * S; END @",
        "BEGIN PROCEDURE P(R5); R7 := 1; PROCEDURE Q(R6); P; Q; END @",
        "BEGIN BEGIN SEGMENT BASE RC; END; RC := 1; END @",
        "BEGIN PROCEDURE P(R5); NULL; R5 := R1; P; END @",
        "BEGIN PROCEDURE P(R5); R6 := 1; PROCEDURE Q(R6); R5 := 1; END @",
        "BEGIN R1 := RE + RF; END @",
    ]);
}

#[test]
fn refusal_11_value() {
    all_refused(
        11,
        &[
            "BEGIN INTEGER A(1)(!2); END @",
            "BEGIN SHORT INTEGER A(!65536); END @",
            "BEGIN SHORT INTEGER A(!_32769); END @",
            "BEGIN SHORT INTEGER A(!#FFFF7FFF); END @",
            "BEGIN SHORT INTEGER A(1)(!2); END @",
            "BEGIN ARRAY (2) INTEGER A(1)(2)(!3)(4); END @",
            "BEGIN ARRAY (2) SHORT INTEGER A(1)(!99999)(3); END @",
            "BEGIN ARRAY (!0) INTEGER A; END @",
            "BEGIN ARRAY (!2049) INTEGER A; END @",
            "BEGIN ARRAY (!_1) SHORT INTEGER A, A; END @",
            "BEGIN ARRAY (!#80000001) INTEGER A; END @",
            "BEGIN ARRAY (2) INTEGER A; R1 := A(!8); END @",
            "BEGIN ARRAY (2) INTEGER A; R1 := A(!2); END @",
            "BEGIN ARRAY (2) INTEGER A; R1 := A(!_4); END @",
            "BEGIN ARRAY (2) INTEGER A; A(!1) := R1; END @",
            "BEGIN ARRAY (2) INTEGER A; A(!8)(R1) := R1; END @",
            "BEGIN ARRAY (2) SHORT INTEGER A; R1 := A(!4); END @",
            "BEGIN ARRAY (2) SHORT INTEGER A; R1 := A(!1); END @",
            "BEGIN ARRAY (2) INTEGER A; IF R1 = A(!8) THEN NULL; END @",
            "BEGIN ARRAY (2) INTEGER A; FOR R1 := 1 STEP 1 UNTIL A(!8) DO NULL; END @",
            "BEGIN R1 := R1 SHLL !64; END @",
            "BEGIN R1 := R1 SHRL !_1; END @",
            "BEGIN R1 := R1 SHLA !#FFFFFFFF; END @",
            "BEGIN R1 := R1 SHRA !#40; END @",
        ],
    );
    all_accepted(&[
        "BEGIN SHORT INTEGER A(65535), B(_32768), C(#FFFF8000); INTEGER D(#FFFFFFFF); END @",
        "BEGIN ARRAY (1) INTEGER A(7); R1 := A(_0); END @",
        "BEGIN ARRAY (3) SHORT INTEGER A(1)(2); R1 := A(4); END @",
        "BEGIN ARRAY (2) INTEGER A; R1 := A(#4); END @",
        "BEGIN R1 := R1 SHLL 0 SHRL 63 SHLA #3F SHRA _0; END @",
        "BEGIN SEGMENT BASE RC; ARRAY (1024) INTEGER A; R1 := A(4092); END @",
    ]);
}

#[test]
fn refusal_12_room() {
    all_refused(
        12,
        &[
            "BEGIN ARRAY (1021) INTEGER !A; END @",
            "BEGIN ARRAY (1020) INTEGER A; SHORT INTEGER !B(99999); END @",
            "BEGIN ARRAY (1019) INTEGER A; SHORT INTEGER B; ARRAY (1) INTEGER !C; END @",
            "BEGIN ARRAY (2039) SHORT INTEGER A; INTEGER !B; END @",
            "BEGIN SEGMENT BASE RC; ARRAY (1025) INTEGER !A; END @",
            "BEGIN SEGMENT BASE RC; ARRAY (1024) INTEGER A; BEGIN SHORT INTEGER !B; END; END @",
            "BEGIN BEGIN ARRAY (600) INTEGER A; END; BEGIN ARRAY (600) INTEGER !A; END; END @",
            "BEGIN PROCEDURE P(R5); BEGIN ARRAY (1020) INTEGER A; END; INTEGER !A; END @",
            "BEGIN SEGMENT BASE RA; SEGMENT BASE RB; SEGMENT BASE !RC; END @",
            "BEGIN PROCEDURE P(R5); BEGIN SEGMENT BASE RB; END; SEGMENT BASE RB; BEGIN SEGMENT BASE !RC; END; END @",
            "BEGIN PROCEDURE P(R5); BEGIN SEGMENT BASE RC; ARRAY (1024) INTEGER A; END; \
            ARRAY (1020) INTEGER A; INTEGER !B; END @",
        ],
    );
    all_accepted(&[
        "BEGIN ARRAY (1020) INTEGER A; SEGMENT BASE RB; ARRAY (2048) SHORT INTEGER B; SEGMENT BASE RC; \
            ARRAY (1024) INTEGER C; END @",
        "BEGIN ARRAY (1019) INTEGER A; SHORT INTEGER B, C; END @",
    ]);
}

#[test]
fn refusal_13_too_many_names() {
    let cells = |from: usize, to: usize| (from..to).map(|number| format!("INTEGER N{number}; ")).collect::<String>();
    let labels = |from: usize, to: usize| (from..to).map(|number| format!("L{number}: ")).collect::<String>();
    for last in
        ["INTEGER !X", "INTEGER REGISTER !X(16)", "PROCEDURE !X(R0); NULL", "INTEGER X9, !X", "SHORT INTEGER !X(99999)"]
    {
        let before = if last.contains("X9") { 255 } else { 256 };
        assert_refused(13, &format!("BEGIN {}{last}; END @", cells(0, before)));
    }
    assert_refused(13, &format!("BEGIN BEGIN {}END; BEGIN INTEGER !X; END; END @", cells(0, 256)));
    assert_refused(13, &format!("BEGIN PROCEDURE P(R5); BEGIN {}END; INTEGER !X; END @", cells(0, 255)));
    assert_refused(13, &format!("BEGIN {}!X: END @", labels(0, 256)));
    assert_refused(13, &format!("BEGIN BEGIN {}END; BEGIN !L0: L1: END; END @", labels(0, 256)));
    assert_refused(13, &format!("BEGIN PROCEDURE P(R5); BEGIN {}END; !X: END @", labels(0, 256)));
    // A GOTO finds the label that is one too many; the 13 lies at the label.
    assert_refused(13, &format!("BEGIN GOTO X; {}!X: END @", labels(0, 256)));
    assert_eq!(verdict(format!("BEGIN {}{}END @", cells(0, 256), labels(0, 256)).as_bytes()), (0, 0));
    assert_eq!(verdict(format!("BEGIN {}SEGMENT BASE RC; END @", cells(0, 256)).as_bytes()), (0, 0));
    // 12 at the same place is smaller.
    let arrays = format!("BEGIN ARRAY (3) INTEGER A; {}ARRAY (800) INTEGER !X; END @", cells(0, 255));
    assert_refused(12, &arrays);
}

/// A program of `count` additions of a register, 2 bytes each, and `shifts`, 4 bytes each.
fn program_of(additions: usize, shifts: usize) -> String {
    format!("BEGIN R1:=R1{}{}; END @", "+R1".repeat(additions), " SHLL 1".repeat(shifts))
}

#[test]
fn refusal_14_program_too_long() {
    assert_eq!(verdict(program_of(2046, 0).as_bytes()), (0, 0));
    assert_eq!(segment(&answer(program_of(2046, 0).as_bytes()).object, 0).len(), 4096);
    assert_eq!(verdict(program_of(2047, 0).as_bytes()), (14, 0));
    assert_eq!(verdict(program_of(2044, 1).as_bytes()), (0, 0));
    assert_eq!(verdict(program_of(2045, 1).as_bytes()), (14, 0));
    assert_eq!(verdict(program_of(0, 1023).as_bytes()), (0, 0));
    assert_eq!(verdict(program_of(0, 1024).as_bytes()), (14, 0));
    assert_eq!(verdict(program_of(10_000, 0).as_bytes()), (14, 0));
    let gotos = |count: usize| format!("BEGIN L: {} END @", "GOTO L; ".repeat(count));
    assert_eq!(verdict(gotos(1023).as_bytes()), (0, 0));
    assert_eq!(verdict(gotos(1024).as_bytes()), (14, 0));
    // Groups in order: a refusal of 6 to 13 comes before, 15 after.
    assert_refused(6, &program_of(3000, 0).replace("; END", "; !X; END"));
    let both = program_of(3000, 0).replace("BEGIN ", "BEGIN ARRAY (1020) INTEGER A; ").replace("; END", "+7; END");
    assert_eq!(verdict(both.as_bytes()), (14, 0));
}

#[test]
fn refusal_15_literals_too_many() {
    let with_cells = |count: usize, statements: &str| format!("BEGIN ARRAY ({count}) INTEGER A; {statements} END @");
    assert_eq!(verdict(with_cells(1019, "R1 := 5;").as_bytes()), (0, 0));
    assert_eq!(verdict(with_cells(1020, "R1 := 5;").as_bytes()), (15, 0));
    assert_eq!(verdict(with_cells(1019, "R1 := 5 + 5 - #5;").as_bytes()), (0, 0));
    assert_eq!(verdict(with_cells(1019, "R1 := 5 + 6;").as_bytes()), (15, 0));
    assert_eq!(verdict(with_cells(1020, "IF R1 = 7 THEN NULL;").as_bytes()), (15, 0));
    assert_eq!(verdict(with_cells(1020, "FOR R1 := R2 STEP 1 UNTIL R3 DO NULL;").as_bytes()), (15, 0));
    assert_eq!(verdict(with_cells(1018, "FOR R1 := 1 STEP 1 UNTIL 2 DO NULL;").as_bytes()), (0, 0));
    assert_eq!(verdict(with_cells(1018, "FOR R1 := 3 STEP 1 UNTIL 2 DO NULL;").as_bytes()), (15, 0));
    // A short cell before the literals costs its 2 bytes and the gap.
    assert_eq!(verdict(b"BEGIN ARRAY (2039) SHORT INTEGER A; R1 := 5; END @"), (15, 0));
    assert_eq!(verdict(b"BEGIN ARRAY (2038) SHORT INTEGER A; R1 := 5; END @"), (0, 0));
    assert_eq!(verdict(b"BEGIN ARRAY (2037) SHORT INTEGER A; R1 := 5 + 6; END @"), (15, 0));
    // Cells of other segments take no room from the literals.
    assert_eq!(verdict(b"BEGIN SEGMENT BASE RC; ARRAY (1024) INTEGER A; R1 := 5; END @"), (0, 0));
    // 1020 literals alone fill segment 1, with 1021 the program has still room.
    let numbers =
        |count: usize| format!("BEGIN R1:=1{}; END @", (2..=count).map(|n| format!("+{n}")).collect::<String>());
    assert_eq!(verdict(numbers(1020).as_bytes()), (0, 0));
    assert_eq!(verdict(numbers(1021).as_bytes()), (15, 0));
    assert_eq!(verdict(numbers(1024).as_bytes()), (14, 0));
}

#[test]
fn refusal_16_buffer_too_short() {
    let one = b"BEGIN INTEGER A(5); R1 := A + 3; A := R1; END @";
    for (room, number, place) in [(138, 0, 0), (139, 0, 0), (137, 16, 138), (1, 16, 138), (0, 16, 138)] {
        let answer = translate(one, Some(room));
        assert_eq!((answer.number, answer.spot), (number, Spot::without_line(place)), "room {room}");
        assert_eq!(answer.object.len(), if number == 0 { 138 } else { 0 }, "room {room}");
    }
    // The shortest object text has 9 + 15 + 17 + 43 + 3 bytes.
    assert_eq!((translate(b"BEGIN END @", Some(87)).number, translate(b"BEGIN END @", Some(86)).spot.place), (0, 87));
    // All other refusals come before.
    assert_eq!(translate(b"BEGIN RE := R1; END @", Some(0)).number, 10);
    assert_eq!(translate(program_of(2047, 0).as_bytes(), Some(0)).number, 14);
    assert_eq!(translate(b"BEGIN ARRAY (1020) INTEGER A; R1 := 5; END @", Some(0)).number, 15);
}

#[test]
fn the_groups_come_in_order() {
    // Each text breaks rules of two groups, the later group at the smaller place.
    assert_refused(2, "END BEGIN !?");
    assert_refused(3, "BEGIN X; RE := 1; !9999999999 @");
    assert_refused(4, "BEGIN X; RE := 1; !@");
    assert_refused(10, "BEGIN ARRAY (1020) INTEGER A; R1 := 5; !RE := R1; END @");
    // Inside the group the smallest place, then the smaller number.
    assert_refused(12, "BEGIN ARRAY (1021) INTEGER !A(1); X; END @");
    assert_refused(6, "BEGIN GOTO !L; X := RE; END @");
    assert_refused(8, "BEGIN R1 := R1 SHLL !R0(4); END @");
    assert_refused(9, "BEGIN R2 := R1 !* R3 + X; END @");
    assert_refused(7, "BEGIN ARRAY (1020) INTEGER A; INTEGER !A; END @");
}
