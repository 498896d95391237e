//! Programs with CASE, from every value of the case register near 0, the count, 2^30, 2^31 and 2^32, translated and run by the proved side and by the reference in one
//! process: the answer to each text and its object text, then the line that answers each run, and every byte of storage.
#![no_main]

mod proved_runner;
mod proved_translator;
mod tally;

use proved_runner::proved_line;
use proved_translator::{proved_translation, Told, ROOM};
use reference::caseruns::{chosen, near, program, Program};
use reference::random::Random;
use reference::runcase::{answer_line, Case, STORAGE_BEFORE};
use reference::translate::translate;
use tally::{numbers, Tally};

/// The proved runner's line, and all of storage after.
fn proved_run(case: &Case) -> (String, Vec<u8>) {
    let mut text = Vec::new();
    case.write(&mut text).expect("a vector takes all");
    let mut storage = vec![STORAGE_BEFORE; case.storage_length];
    (proved_line(&text, &mut storage), storage)
}

/// The reference's, and the stop.
fn reference_run(case: &Case) -> (String, Vec<u8>, u32) {
    let (answer, storage) = case.run();
    (answer_line(&answer, &storage) + "\n", storage, answer.stop)
}

/// Its runs, where both sides translate it alike; how many took a statement, and how many none.
fn runs(number: u64, program: &Program, random: &mut Random, buffer: &mut [u8], tally: &mut Tally) -> (u64, u64) {
    let answer = translate(&program.text, Some(ROOM));
    let expected = Told::from(&answer);
    let told = proved_translation(&program.text, buffer);
    if told != expected || buffer[..expected.length] != answer.object {
        tally.differs(format!("text {number}: {told:?}, reference {expected:?}"));
        return (0, 0);
    }
    let (mut took, mut none) = (0, 0);
    for value in near(program.count) {
        let case = program.case(answer.object.clone(), value, random);
        let proved = Case { object: buffer[..told.length].to_vec(), ..case.clone() };
        let (line, storage) = proved_run(&proved);
        let (expected, reference_storage, stop) = reference_run(&case);
        if line != expected || storage != reference_storage {
            tally.differs(format!("text {number} from {value:08X} differs:\n  {expected}  {line}"));
        }
        tally.answered(format!("stop {stop}"));
        match chosen(value, program.count) {
            Some(_) => took += 1,
            None => none += 1,
        }
    }
    (took, none)
}

/// Without a runtime of Rust's around it, which the emulator does not carry.
#[no_mangle]
pub extern "C" fn main(_count: i32, _words: *const *const u8) -> i32 {
    let (seed, count) = (numbers()[0], numbers()[1]);
    let mut buffer = vec![0; ROOM];
    let (mut tally, mut took, mut none) = (Tally::default(), 0, 0);
    for number in 0..count {
        let mut random = Random::new(seed, number);
        let program = program(&mut random);
        let (statements, passed_over) = runs(number, &program, &mut random, &mut buffer, &mut tally);
        took += statements;
        none += passed_over;
    }
    let runs = took + none;
    tally.report(format!(
        "{count} programs with CASE of seed {seed}, {runs} runs: {took} took a statement, {none} took none"
    ))
}
