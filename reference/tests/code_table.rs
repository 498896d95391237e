//! Every line of the code table, every mask, every construct, every form of an address: text and bytes by hand.

mod helpers;
use helpers::*;

/// Cells at 16 (I, integer), 20 (L, logical), 24 (A, four integers), 40 (S, short), 42 (H, four short), and in segment 2
/// on register 12: J at 0, T at 4, K (two integers) at 8. The base declaration's load comes first.
fn with_cells(statements: &str, code: &str) {
    let declarations = "INTEGER I; LOGICAL L; ARRAY (4) INTEGER A; SHORT INTEGER S; ARRAY (4) SHORT INTEGER H; \
        SEGMENT BASE RC; INTEGER J; SHORT INTEGER T; ARRAY (2) LOGICAL K;";
    assert_code(&format!("BEGIN {declarations} {statements} END @"), &format!("58C0E008 {code}"));
}

/// The first literal lies at 52, behind the 50 bytes of cells.
#[test]
fn every_operator_with_every_operand() {
    let rows: [(&str, &str, &str, &str); 8] = [
        ("+", "1A", "5A", "4A"),
        ("-", "1B", "5B", "4B"),
        ("*", "1C", "5C", "4C"),
        ("++", "1E", "5E", ""),
        ("--", "1F", "5F", ""),
        ("AND", "14", "54", ""),
        ("OR", "16", "56", ""),
        ("XOR", "17", "57", ""),
    ];
    for (operator, register, integer, short) in rows {
        // 1C and 5C name the register below the target, 4C the target.
        let (named, whole) = if operator == "*" { ("6", "7") } else { ("7", "7") };
        with_cells(&format!("R7 := R3 {operator} R9;"), &format!("1873 {register}{named}9"));
        with_cells(&format!("R7 := R3 {operator} 5;"), &format!("1873 {integer}{named}0E034"));
        with_cells(&format!("R7 := R3 {operator} I;"), &format!("1873 {integer}{named}0E010"));
        with_cells(&format!("R7 := R3 {operator} L;"), &format!("1873 {integer}{named}0E014"));
        with_cells(&format!("R7 := R3 {operator} A(8);"), &format!("1873 {integer}{named}0E020"));
        with_cells(&format!("R7 := R3 {operator} A(R2);"), &format!("1873 {integer}{named}2E018"));
        with_cells(&format!("R7 := R3 {operator} J;"), &format!("1873 {integer}{named}0C000"));
        if !short.is_empty() {
            with_cells(&format!("R7 := R3 {operator} S;"), &format!("1873 {short}{whole}0E028"));
            with_cells(&format!("R7 := R3 {operator} H(2)(RB);"), &format!("1873 {short}{whole}BE02C"));
            with_cells(&format!("R7 := R3 {operator} T;"), &format!("1873 {short}{whole}0C004"));
        }
    }
}

#[test]
fn load_store_and_compare() {
    with_cells("R7 := R9;", "1879");
    with_cells("R7 := 5;", "5870E034");
    with_cells("R7 := I;", "5870E010");
    with_cells("R7 := L;", "5870E014");
    with_cells("R7 := S;", "4870E028");
    with_cells("R7 := K(4)(R1);", "5871C00C");
    with_cells("I := R7;", "5070E010");
    with_cells("L := R7;", "5070E014");
    with_cells("S := R7;", "4070E028");
    with_cells("A(12)(R1) := R7;", "5071E024");
    with_cells("H(R1) := R7;", "4071E02A");
    with_cells("K := R0;", "5000C008");
    with_cells("IF R7 = R9 THEN NULL;", "1979 4770F00A");
    with_cells("IF R7 = 5 THEN NULL;", "5970E034 4770F00C");
    with_cells("IF R7 = L THEN NULL;", "5970E014 4770F00C");
    with_cells("IF R7 = S THEN NULL;", "4970E028 4770F00C");
    with_cells("IF R7 = H(6)(R1) THEN NULL;", "4971E030 4770F00C");
}

#[test]
fn the_16_registers_by_their_names() {
    for (number, digit) in "0123456789ABCDEF".chars().enumerate() {
        assert_code(&format!("BEGIN R1 := R{digit}; END @"), &format!("181{digit}"));
        assert_code(
            &format!("BEGIN INTEGER REGISTER X({number}); IF X = X THEN NULL; END @"),
            &format!("19{digit}{digit} 4770F006"),
        );
        if digit < 'E' {
            assert_code(&format!("BEGIN R{digit} := R1; END @"), &format!("18{digit}1"));
        }
    }
}

#[test]
fn shifts() {
    for (operator, opcode) in [("SHLL", "89"), ("SHRL", "88"), ("SHLA", "8B"), ("SHRA", "8A")] {
        for (number, digits) in [("0", "00"), ("1", "01"), ("31", "1F"), ("32", "20"), ("63", "3F"), ("#2A", "2A")] {
            assert_code(&format!("BEGIN R7 := R7 {operator} {number}; END @"), &format!("1877 {opcode}7000{digits}"));
        }
        assert_code(&format!("BEGIN R7 := R3 {operator} R9; END @"), &format!("1873 {opcode}709000"));
        assert_code(&format!("BEGIN R0 := R0 {operator} RF; END @"), &format!("1800 {opcode}00F000"));
    }
}

#[test]
fn abs_and_neg() {
    for (sign, opcode) in [("ABS", "10"), ("NEG", "13"), ("NEG ABS", "11")] {
        with_cells(&format!("R7 := {sign} R9;"), &format!("{opcode}79"));
        with_cells(&format!("R7 := {sign} R7;"), &format!("{opcode}77"));
        with_cells(&format!("R7 := {sign} 5;"), &format!("5870E034 {opcode}77"));
        with_cells(&format!("R7 := {sign} I;"), &format!("5870E010 {opcode}77"));
        with_cells(&format!("R7 := {sign} H(2)(R1);"), &format!("4871E02C {opcode}77"));
        with_cells(&format!("R7 := {sign} R9 + R1 * 5;"), &format!("{opcode}79 1A71 5C60E034"));
    }
}

#[test]
fn masks_when_a_condition_is_false() {
    let masks = [("=", "7"), ("^=", "9"), ("<", "B"), ("<=", "3"), (">=", "5"), (">", "D")];
    for (relation, mask) in masks {
        assert_code(&format!("BEGIN IF {relation} THEN R1 := R2; END @"), &format!("47{mask}0F006 1812"));
        assert_code(&format!("BEGIN WHILE {relation} DO R1 := R2; END @"), &format!("47{mask}0F00A 1812 47F0F000"));
        assert_code(&format!("BEGIN IF R3 {relation} R4 THEN R1 := R2; END @"), &format!("1934 47{mask}0F008 1812"));
        assert_code(
            &format!("BEGIN WHILE R3 {relation} 9 DO R1 := R2; END @"),
            &format!("5930E010 47{mask}0F00E 1812 47F0F000"),
        );
    }
    assert_code("BEGIN IF OVERFLOW THEN R1 := R2; END @", "47E0F006 1812");
    assert_code("BEGIN WHILE OVERFLOW DO R1 := R2; END @", "47E0F00A 1812 47F0F000");
}

#[test]
fn if_with_else() {
    assert_code(
        "BEGIN IF R1 < R2 THEN R3 := R4 ELSE R5 := R6; R7 := R8; END @",
        "1912 47B0F00C 1834 47F0F00E 1856 1878",
    );
    assert_code("BEGIN IF = THEN NULL ELSE NULL; END @", "4770F008 47F0F008");
    assert_code(
        "BEGIN IF = THEN R1 := R1 ELSE IF < THEN R2 := R2 ELSE R3 := R3; END @",
        "4770F00A 1811 47F0F016 47B0F014 1822 47F0F016 1833",
    );
    assert_code(
        "BEGIN IF = THEN BEGIN IF < THEN R1 := R1; END ELSE WHILE > DO R2 := R2; END @",
        "4770F00E 47B0F00A 1811 47F0F018 47D0F018 1822 47F0F00E",
    );
}

#[test]
fn for_statements() {
    assert_code(
        "BEGIN FOR R1 := 10 STEP _1 UNTIL 0 DO R2 := R2 + R1; END @",
        "5810E010 5910E014 4740F018 1822 1A21 5A10E018 47F0F004",
    );
    assert_code(
        "BEGIN FOR R1 := R2 + R3 SHLL 2 STEP 4 UNTIL R4 DO NULL; END @",
        "1812 1A13 89100002 1914 4720F016 5A10E010 47F0F008",
    );
    with_cells("FOR R1 := 0 STEP 1 UNTIL I DO NULL;", "5810E034 5910E010 4720F018 5A10E038 47F0F008");
    with_cells("FOR R1 := 0 STEP 1 UNTIL H(2)(R3) DO NULL;", "5810E034 4913E02C 4720F018 5A10E038 47F0F008");
    assert_code(
        "BEGIN FOR R1 := 0 STEP 1 UNTIL 9 DO FOR R2 := 0 STEP 1 UNTIL R1 DO NULL; END @",
        "5810E010 5910E014 4720F026 5820E010 1921 4720F01E 5A20E018 47F0F010 5A10E018 47F0F004",
    );
}

#[test]
fn goto_and_labels() {
    assert_code("BEGIN L: R1 := R1; GOTO L; END @", "1811 47F0F000");
    assert_code("BEGIN GOTO M; L: R1 := R1; M: GOTO L; END @", "47F0F006 1811 47F0F004");
    assert_code("BEGIN BEGIN GOTO L; END; R1 := R1; L: R2 := R2; END @", "47F0F006 1811 1822");
    assert_code(
        "BEGIN L: BEGIN L: GOTO L; END; BEGIN GOTO L; END; R1 := R1; BEGIN GOTO L; L: END; GOTO L; END @",
        "47F0F000 47F0F000 1811 47F0F00E 47F0F000",
    );
    assert_code(
        "BEGIN R9 := R9; L: BEGIN PROCEDURE P(R5); BEGIN GOTO L; R1 := R1; L: END; GOTO L; END; END @",
        "1899 47F0F00E 47F0F00C 1811 07F5 47F0F002",
    );
}

#[test]
fn procedures_and_calls() {
    assert_code("BEGIN PROCEDURE P(R5); NULL; END @", "47F0F006 07F5");
    assert_code(
        "BEGIN PROCEDURE P(R5); R1 := R1; PROCEDURE Q(R6); BEGIN P; P; END; Q; P; END @",
        "47F0F008 1811 07F5 47F0F016 4550F004 4550F004 07F6 4560F00C 4550F004",
    );
    assert_code(
        "BEGIN PROCEDURE P(R5); BEGIN PROCEDURE Q(R6); R1 := R1; Q; END; P; END @",
        "47F0F012 47F0F00C 1811 07F6 4560F008 07F5 4550F004",
    );
    // An inner P hides the outer one from its declaration on.
    assert_code(
        "BEGIN PROCEDURE P(R5); R1 := R1; BEGIN PROCEDURE Q(R7); P; PROCEDURE P(R6); R2 := R2; P; Q; END; P; END @",
        "47F0F008 1811 07F5 47F0F012 4550F004 07F7 47F0F01A 1822 07F6 4560F016 4570F00C 4550F004",
    );
    assert_code(
        "BEGIN PROCEDURE P(RD); IF = THEN NULL; IF = THEN P ELSE P; END @",
        "47F0F00A 4770F008 07FD 4770F016 45D0F004 47F0F01A 45D0F004",
    );
}

#[test]
fn bases_and_segments() {
    let text = "BEGIN INTEGER A(1); SEGMENT BASE RB; INTEGER B(2); BEGIN INTEGER C(3); SEGMENT BASE RC; \
        SHORT INTEGER D(4); INTEGER E(5); R1 := A + B + C + D + E; END; BEGIN INTEGER F(6); R1 := F; END; END @";
    assert_code(text, "58B0E008 58C0E00C 5810E010 5A10B000 5A10B004 4A10C000 5A10C004 5810B008");
    let object = answer(text.as_bytes()).object;
    assert_eq!(segment(&object, 1), bytes("00000000 00000000 00000000 00000000 00000001"));
    assert_eq!(segment(&object, 2), bytes("00000002 00000003 00000006"));
    assert_eq!(segment(&object, 3), bytes("0004 0000 00000005"));
    let text = String::from_utf8(object).expect("hexadecimal");
    let heads: Vec<&str> = text.lines().filter(|line| !line.starts_with("00")).collect();
    assert_eq!(heads, ["01000022", "0201001400100014", "0202000C0000000C", "0203000800000008", "FF"]);
}

#[test]
fn cells_values_and_literals() {
    let text =
        "BEGIN SHORT INTEGER S(_2); ARRAY (3) INTEGER A(1)(#80000000); ARRAY (3) SHORT INTEGER H(65535)(_32768); \
        R1 := 7 + 8 + _1 + 7 + #FFFFFFFF; END @";
    assert_code(text, "5810E028 5A10E02C 5A10E030 5A10E028 5A10E030");
    let zeros = "00000000 00000000 00000000 00000000";
    assert_eq!(
        segment(&answer(text.as_bytes()).object, 1),
        bytes(&format!("{zeros} FFFE 0000 00000001 80000000 00000000 FFFF 8000 0000 0000 00000007 00000008 FFFFFFFF")),
    );
}

#[test]
fn displacements_take_three_digits() {
    assert_code("BEGIN ARRAY (1000) INTEGER A; R1 := A(3996) + 9; END @", "5810EFAC 5A10EFB0");
    let skips = "R1 := R1; ".repeat(1000);
    let text = format!("BEGIN GOTO L; {skips} L: END @");
    assert_code(&text, &format!("47F0F7D4 {}", "1811".repeat(1000)));
}

#[test]
fn blocks_and_null_leave_no_code() {
    assert_code("BEGIN NULL; BEGIN END; BEGIN NULL; BEGIN INTEGER A; END; END; END @", "");
    assert_code("BEGIN INTEGER REGISTER X(7); BEGIN INTEGER X; X := R1; END; X := R1; END @", "5010E010 1871");
}

#[test]
fn comments_and_spacing_leave_no_trace() {
    assert_code("COMMENT a @ b;BEGIN R1:=COMMENT;R2 COMMENT x;+R3;COMMENT;END@ junk", "1812 1A13");
    assert_code("\n\nBEGIN\nR1\n:=\nR2\n;\nEND\n@", "1812");
}
