//! The nine cases, the limits and the slips of document 01.

mod helpers;
use helpers::*;

#[test]
fn case_1_byte_by_byte() {
    let object = answer(b"BEGIN INTEGER A(5); R1 := A + 3; A := R1; END @").object;
    let wanted = b"0100000E\n\
        000000000E5810E0105A10E0145010E0100A00\n\
        0201001800100014\n\
        000100001000000000000000000000000000000000\n\
        00010010080000000500000003\n\
        FF\n";
    assert_eq!(object, wanted);
    assert_eq!(object.len(), 138);
}

#[test]
fn cases_2_to_9() {
    assert_code("BEGIN END @", "");
    assert_refused(10, "BEGIN !RE := R1; END @");
    assert_code("BEGIN IF R1 < R2 THEN R3 := R1; END @", "1912 47B0F008 1831");
    assert_code("BEGIN WHILE OVERFLOW DO NULL; END @", "47E0F008 47F0F000");
    assert_code("BEGIN PROCEDURE P(R5); R0 := R0 + R1; P; END @", "47F0F00A 1800 1A01 07F5 4550F004");
    let case_7 = "BEGIN SEGMENT BASE RC; SHORT INTEGER S(_1); R2 := S; END @";
    assert_code(case_7, "58C0E008 4820C000");
    assert_eq!(segment(&answer(case_7.as_bytes()).object, 2), bytes("FFFF"));
    assert_code("BEGIN FOR R1 := 0 STEP 1 UNTIL 9 DO NULL; END @", "5810E010 5910E014 4720F014 5A10E018 47F0F004");
    assert_refused(4, "!");
}

#[test]
fn short_cells_to_the_end_of_segment_1() {
    let of_count = |count| format!("BEGIN ARRAY ({count}) SHORT INTEGER !H; END @");
    let full = of_count(2040).replace('!', "");
    assert_eq!(verdict(full.as_bytes()), (0, 0));
    assert_eq!(segment(&answer(full.as_bytes()).object, 1).len(), 4096);
    assert_refused(12, &of_count(2041));
    assert_refused(12, "BEGIN ARRAY (2040) SHORT INTEGER H; SHORT INTEGER !S; END @");
    assert_refused(12, "BEGIN ARRAY (10) SHORT INTEGER A, B; ARRAY (2020) SHORT INTEGER C; SHORT INTEGER !D; END @");
}

#[test]
fn shift_63_and_64() {
    assert_code("BEGIN R1 := R1 SHLL 63; END @", "1811 8910003F");
    assert_refused(11, "BEGIN R1 := R1 SHLL !64; END @");
}

#[test]
fn nesting_64_and_65() {
    let blocks = |depth: usize| "BEGIN ".repeat(depth) + &"END; ".repeat(depth - 1) + "END @";
    assert_eq!(verdict(blocks(64).as_bytes()), (0, 0));
    assert_eq!(verdict(blocks(65).as_bytes()), (5, 64 * 6));

    let loops = |depth: usize| "BEGIN ".to_string() + &"WHILE = DO ".repeat(depth - 1) + "NULL; END @";
    assert_eq!(verdict(loops(64).as_bytes()), (0, 0));
    assert_eq!(verdict(loops(65).as_bytes()), (5, 6 + 63 * 11));

    let chained = |depth: usize| "BEGIN ".to_string() + &"IF = THEN NULL ELSE ".repeat(depth - 1) + "NULL; END @";
    assert_eq!(verdict(chained(64).as_bytes()), (0, 0));
    assert_eq!(verdict(chained(65).as_bytes()), (5, 6 + 63 * 20));

    let counts =
        |depth: usize| "BEGIN ".to_string() + &"FOR R1 := 1 STEP 1 UNTIL 2 DO ".repeat(depth - 1) + "NULL; END @";
    assert_eq!(verdict(counts(64).as_bytes()), (0, 0));
    assert_eq!(verdict(counts(65).as_bytes()), (5, 6 + 63 * 30));

    // 32 blocks with 31 procedures between them are 63 constructs, a statement in the last block's body the 64th.
    let procedures =
        |last: &str| "BEGIN PROCEDURE P(R5); ".repeat(31) + "BEGIN " + last + " END; " + &"END; ".repeat(30) + "END @";
    assert_eq!(verdict(procedures("IF = THEN NULL;").as_bytes()), (0, 0));
    assert_eq!(verdict(procedures("IF = THEN BEGIN END;").as_bytes()), (5, 31 * 23 + 6 + 10));
    assert_eq!(verdict(procedures("PROCEDURE P(R5); NULL;").as_bytes()), (0, 0));
    assert_eq!(verdict(procedures("PROCEDURE P(R5); IF = THEN NULL;").as_bytes()), (5, 31 * 23 + 6 + 17));
}

#[test]
fn slip_the_mask_of_less_leaves_no_state_3() {
    assert_code("BEGIN IF < THEN NULL; END @", "47B0F004");
}

#[test]
fn slip_a_goto_is_bound_to_the_inner_later_label() {
    assert_code("BEGIN L: BEGIN GOTO L; R1 := R2; L: R3 := R4; END; END @", "47F0F006 1812 1834");
}

#[test]
fn slip_a_sibling_may_not_load_the_callers_base() {
    let marked = "BEGIN PROCEDURE S(R5); BEGIN SEGMENT BASE RC; END; \
        PROCEDURE P(R6); BEGIN SEGMENT BASE RC; !S; END; END @";
    assert_refused(10, marked);
    let outside = marked.replace("!S; ", "").replace("END; END @", "END; S; END @");
    assert_eq!(verdict(outside.as_bytes()), (0, 0));
}
