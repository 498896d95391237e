//! Stored runs: cases with their answers, for others to be held against.

use crate::assemble::{data, four, text, two};
use crate::byte_points::BYTE_RUNS;
use crate::case_points::CASE_RUNS;
use crate::caseruns;
use crate::genrun;
use crate::hercules;
use crate::random::Random;
use crate::runcase::{answer_line, Case};
use crate::runner::STORAGE_NEEDED;
use crate::translate::translate;
use std::io::{self, Write};
use std::path::Path;

const SEED: u64 = 1966;
/// Generated cases, those with a longer object text left out.
const GENERATED: usize = 3_600;
const LONGEST: usize = 1_200;
/// Generated programs that come to a CASE, from a third of the values near its edges.
const PROGRAMS: u64 = 12;
/// Generated cases with longer object texts.
const LONG: usize = 20;

/// Writes `runs` and `hercules-runs` into the directory; the answer is the text of their manifest.
pub fn write(dir: &str) -> io::Result<String> {
    let dir = Path::new(dir);
    std::fs::create_dir_all(dir)?;
    let cases = cases();
    let mut runs = Vec::new();
    let mut counts = Counts::default();
    for case in &cases {
        let (answer, storage) = case.run();
        counts.note(answer.number, answer.stop);
        case.write(&mut runs)?;
        writeln!(runs, "{}", answer_line(&answer, &storage))?;
    }
    let emulated = hercules::stored_runs()?;
    std::fs::write(dir.join("runs"), &runs)?;
    std::fs::write(dir.join("hercules-runs"), &emulated)?;
    Ok(manifest(cases.len(), &counts, runs.len(), emulated.len()))
}

#[derive(Default)]
struct Counts {
    refusals: [usize; 20],
    stops: [usize; 5],
}

impl Counts {
    fn note(&mut self, number: u32, stop: u32) {
        self.refusals[number as usize] += 1;
        if number == 0 {
            self.stops[stop as usize] += 1;
        }
    }
}

fn manifest(cases: usize, counts: &Counts, runs: usize, emulated: usize) -> String {
    let [budget, end, forbidden, misaligned, instruction] = counts.stops;
    let [.., text, code, storage] = counts.refusals;
    format!(
        "runs: {cases} runs, {runs} bytes; refusals 17: {text}, 18: {code}, 19: {storage}; \
         stops 0: {budget}, 1: {end}, 2: {forbidden}, 3: {misaligned}, 4: {instruction}.\n\
         hercules-runs: {} single instructions, {emulated} bytes; the answers are Hercules' (outside/hercules/check compares them).\n\
         Each run is a case of `runbatch` (a line `length budget cc storage-length r0 … r15`, the object text, a newline)\n\
         and the line that answers it (`number place line column stop counter cc count r0 … r15 hash`).\n\
         runs are the papers' cases 1, 6 and 8, the edges of storage and budget around them, the runs that are decided, programs with CASE,\n\
         and generated ones from seed {SEED}.\n\
         Made again by `reference runvectors DIR`.\n",
        hercules::stored()
    )
}

fn cases() -> Vec<Case> {
    let mut cases = papers_cases();
    let decided = BYTE_RUNS.iter().chain(CASE_RUNS);
    cases.extend(decided.flat_map(|run| [0, 1, 2, 10_000].map(|budget| run.case(budget))));
    cases.extend(programs_with_case());
    let short = genrun::cases(SEED).filter(|case| case.object.len() <= LONGEST).take(GENERATED);
    cases.extend(short);
    let long = genrun::cases(SEED).filter(|case| case.object.len() > LONGEST).take(LONG);
    cases.extend(long);
    cases
}

/// Programs that come to a CASE, from the values near its edges.
fn programs_with_case() -> impl Iterator<Item = Case> {
    (0..PROGRAMS).flat_map(|number| {
        let mut random = Random::new(SEED + 1, number);
        let program = caseruns::program(&mut random);
        let object = translate(&program.text, None).object;
        let near = caseruns::near(program.count).into_iter().filter(|value| value % 3 == number as u32 % 3);
        near.map(|value| program.case(object.clone(), value, &mut random)).collect::<Vec<_>>()
    })
}

/// Document 01's cases 1, 6 and 8 at every budget up to their end, with each code, over storage of several lengths.
fn papers_cases() -> Vec<Case> {
    let mut cases = Vec::new();
    for (object, instructions) in [(case_1(), 3), (case_6(), 5), (case_8(), 43)] {
        let mut add = |budget, cc, storage_length, regs| {
            cases.push(Case { object: object.clone(), budget, cc, storage_length, regs });
        };
        let counting: [u32; 16] = std::array::from_fn(|i| i as u32);
        for budget in 0..=instructions + 2 {
            add(budget, 0, STORAGE_NEEDED, counting);
        }
        for cc in 1..=4 {
            add(u32::MAX, cc, STORAGE_NEEDED, [u32::MAX; 16]);
        }
        for storage_length in [0, STORAGE_NEEDED - 1, STORAGE_NEEDED + 1, 2 * STORAGE_NEEDED] {
            add(1000, 3, storage_length, [0x8000_0000; 16]);
        }
    }
    cases
}

/// `BEGIN INTEGER A(5); R1 := A + 3; A := R1; END @`
pub fn case_1() -> Vec<u8> {
    let program =
        [four(0x58, 1, 0, 14, 16), four(0x5A, 1, 0, 14, 20), four(0x50, 1, 0, 14, 16), two(0x0A, 0, 0)].concat();
    text(&program, &[words(&[5, 3], 20)])
}

/// `BEGIN PROCEDURE P(R5); R0 := R0 + R1; P; END @`
pub fn case_6() -> Vec<u8> {
    let body = [two(0x18, 0, 0), two(0x1A, 0, 1), two(0x07, 15, 5)].concat();
    let program = [four(0x47, 15, 0, 15, 10), body, four(0x45, 5, 0, 15, 4), two(0x0A, 0, 0)].concat();
    text(&program, &[words(&[], 16)])
}

/// `BEGIN FOR R1 := 0 STEP 1 UNTIL 9 DO NULL; END @`
pub fn case_8() -> Vec<u8> {
    let program = [
        four(0x58, 1, 0, 14, 16),
        four(0x59, 1, 0, 14, 20),
        four(0x47, 2, 0, 15, 20),
        four(0x5A, 1, 0, 14, 24),
        four(0x47, 15, 0, 15, 4),
        two(0x0A, 0, 0),
    ]
    .concat();
    text(&program, &[words(&[0, 9, 1], 16)])
}

/// Segment 1: the table, these words, writable from 16 to `to`.
fn words(words: &[u32], to: usize) -> crate::objread::DataSegment {
    let mut bytes = vec![0; 16];
    bytes.extend(words.iter().flat_map(|word| word.to_be_bytes()));
    data(bytes, 16, to)
}
