//! Random runs through the proved runner and the reference in one process: the line that answers, and every byte of storage.
#![no_main]

mod proved_runner;
mod tally;

use proved_runner::proved_line;
use reference::genrun;
use reference::runcase::{answer_line, STORAGE_BEFORE};
use reference::runner::RunAnswer;
use tally::{numbers, Tally};

fn answer_name(answer: &RunAnswer) -> String {
    if answer.number == 0 {
        format!("stop {}", answer.stop)
    } else {
        format!("refusal {}", answer.number)
    }
}

/// Without a runtime of Rust's around it, which the emulator does not carry.
#[no_mangle]
pub extern "C" fn main(_count: i32, _words: *const *const u8) -> i32 {
    let (seed, count) = (numbers()[0], numbers()[1]);
    let (mut tally, mut instructions) = (Tally::default(), 0u64);
    let (mut text, mut storage) = (Vec::new(), Vec::new());
    for (index, case) in genrun::cases(seed).take(count as usize).enumerate() {
        text.clear();
        case.write(&mut text).expect("a vector takes all");
        storage.clear();
        storage.resize(case.storage_length, STORAGE_BEFORE);
        let line = proved_line(&text, &mut storage);
        let (answer, reference_storage) = case.run();
        let expected = answer_line(&answer, &reference_storage) + "\n";
        if line != expected || storage != reference_storage {
            tally.differs(format!("case {index} differs:\n  {expected}  {line}"));
        }
        instructions += answer.count as u64;
        tally.answered(answer_name(&answer));
    }
    tally.report(format!("{count} runs of seed {seed}, {instructions} instructions"))
}
