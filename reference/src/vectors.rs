//! Stored texts with their answers and object texts, for others to be held against.

use crate::case_points::LONG_CASE_POINTS;
use crate::gen;
use crate::line_points::long_line_points;
use crate::points::points;
use crate::random::Random;
use crate::spot::Spot;
use crate::translate::{translate, Answer};

const SEED: u64 = 360;

/// The room that stands for an unlimited one; no object text is as long.
pub const UNLIMITED: usize = 1_000_000;

/// How many generated texts are kept of each answer, 0 to 16.
const WANTED: [usize; 17] = [800, 8, 250, 150, 400, 60, 250, 150, 250, 200, 250, 200, 150, 60, 30, 120, 200];

/// A generated text longer than this, or an object text twice as long, is kept only where `LARGE` allows it.
const SMALL: usize = 1_000;

/// How many generated texts of each answer may be large.
const LARGE: [usize; 17] = [16, 8, 2, 2, 4, 4, 2, 4, 2, 2, 2, 2, 2, 45, 30, 2, 4];

pub struct Case {
    pub text: Vec<u8>,
    pub room: usize,
    pub answer: Answer,
}

/// A text with its answer in so much room.
pub fn case(text: Vec<u8>, room: usize) -> Case {
    let answer = translate(&text, Some(room));
    Case { text, room, answer }
}

/// Document 01's cases, limits and slips, the points decided, the same in many lines, then generated texts.
pub fn cases() -> Vec<Case> {
    let mut cases: Vec<Case> = papers_texts().into_iter().map(|text| case(text.into_bytes(), UNLIMITED)).collect();
    cases.extend(points().map(|point| case(point.text.to_vec(), UNLIMITED)));
    cases.extend(long_line_points().into_iter().map(|point| case(point.text, point.room.unwrap_or(UNLIMITED))));
    let long = |parts: &[(&str, usize)]| parts.iter().map(|(part, times)| part.repeat(*times)).collect::<String>();
    cases.extend(LONG_CASE_POINTS.iter().map(|(_, parts, ..)| case(long(parts).into_bytes(), UNLIMITED)));
    cases.extend(points().map(|point| case(point.in_lines(), UNLIMITED)));
    cases.extend(behind_many_lines().map(|text| case(text, UNLIMITED)));
    cases.extend([138, 137, 0].map(|room| case(CASE_1.into(), room)));
    generated(&mut cases);
    cases
}

/// A point of each refusal that reports a line, where there is one, behind a thousand lines and behind a comment of five hundred.
fn behind_many_lines() -> impl Iterator<Item = Vec<u8>> {
    let fronts = ["\n".repeat(1000), format!("COMMENT{};", "\nLINE".repeat(500))];
    let refused = (2..=13).filter_map(|number| points().find(|point| point.number == number));
    refused.flat_map(move |point| fronts.clone().map(|front| [front.as_bytes(), point.text].concat()))
}

const CASE_1: &str = "BEGIN INTEGER A(5); R1 := A + 3; A := R1; END @";

fn papers_texts() -> Vec<String> {
    let nested = |depth: usize| "BEGIN ".repeat(depth) + &"END; ".repeat(depth - 1) + "END @";
    let with_shorts = |count: usize| format!("BEGIN ARRAY ({count}) SHORT INTEGER H; END @");
    let cases = [
        CASE_1,
        "BEGIN END @",
        "BEGIN RE := R1; END @",
        "BEGIN IF R1 < R2 THEN R3 := R1; END @",
        "BEGIN WHILE OVERFLOW DO NULL; END @",
        "BEGIN PROCEDURE P(R5); R0 := R0 + R1; P; END @",
        "BEGIN SEGMENT BASE RC; SHORT INTEGER S(_1); R2 := S; END @",
        "BEGIN FOR R1 := 0 STEP 1 UNTIL 9 DO NULL; END @",
        "",
    ];
    let limits = [
        with_shorts(2040),
        with_shorts(2041),
        "BEGIN R1 := R1 SHLL 63; END @".to_string(),
        "BEGIN R1 := R1 SHLL 64; END @".to_string(),
        nested(64),
        nested(65),
    ];
    let slips = [
        "BEGIN IF < THEN R1 := R2; END @",
        "BEGIN WHILE R1 < 5 DO R1 := R1 + 1; END @",
        "BEGIN L: BEGIN GOTO L; R1 := R2; L: R3 := R4; END; END @",
        "BEGIN PROCEDURE S(R5); BEGIN SEGMENT BASE RC; END; PROCEDURE P(R6); BEGIN SEGMENT BASE RC; S; END; END @",
    ];
    let owned = |texts: &[&str]| texts.iter().map(|text| text.to_string()).collect::<Vec<_>>();
    [owned(&cases), limits.to_vec(), owned(&slips)].concat()
}

/// Adds the generated texts of the seed in order, as long as their answer is still wanted.
fn generated(cases: &mut Vec<Case>) {
    let (mut wanted, mut large) = (WANTED, LARGE);
    let mut number = 0;
    while wanted.iter().any(|&count| count > 0) {
        let text = gen::case(SEED, number);
        let room = some_room(&text, number);
        number += 1;
        let case = case(text, room);
        let class = case.answer.number as usize;
        let is_large = case.text.len() > SMALL || case.answer.object.len() > 2 * SMALL;
        if wanted[class] == 0 || (is_large && large[class] == 0) {
            continue;
        }
        wanted[class] -= 1;
        large[class] -= usize::from(is_large);
        cases.push(case);
    }
}

/// Mostly unlimited; else the length needed, one less, or less.
fn some_room(text: &[u8], number: u64) -> usize {
    let mut random = Random::new(SEED + 1, number);
    if random.chance(3, 5) {
        return UNLIMITED;
    }
    let needed = translate(text, None).object.len();
    match random.below(4) {
        0..=1 => needed,
        2 => needed.saturating_sub(1),
        _ => random.below(needed),
    }
}

/// "for each case a line `textlength room number place line column length` in decimal, the text, a newline, the object text,
/// a newline"
pub fn records(cases: &[Case]) -> Vec<u8> {
    let mut records = Vec::new();
    for Case { text, room, answer } in cases {
        let Answer { number, spot: Spot { place, line, column }, object } = answer;
        let (text_length, length) = (text.len(), object.len());
        records.extend(format!("{text_length} {room} {number} {place} {line} {column} {length}\n").into_bytes());
        records.extend(text);
        records.push(b'\n');
        records.extend(object);
        records.push(b'\n');
    }
    records
}

pub fn manifest(cases: &[Case]) -> String {
    let mut counts = [0; 17];
    cases.iter().for_each(|case| counts[case.answer.number as usize] += 1);
    let rows: String = counts.iter().enumerate().map(|(number, count)| format!("| {number} | {count} |\n")).collect();
    format!(
        "# Stored texts

`texts` holds {} source texts with the answers of `reference/`, {} bytes in all: document 01's nine cases, its limits and
slips, the texts of docs/DECISIONS.md, the same in many lines, then generated texts from seed {SEED}, of each answer as
many as are wanted.

Each is a line `textlength room number place line column length` in decimal with single blanks between, the text, a newline, the
`length` bytes of the object text, a newline; the end of the file ends them. A room of {UNLIMITED} stands for an unlimited
one.

Made by `reference vectors DIR` (built in `reference/` by `cargo build --release --offline`), which makes it again byte
for byte.

| answer | texts |
|---|---|
{rows}",
        cases.len(),
        records(cases).len()
    )
}
