//! The proved runner and the reference in one process, in turn on the same loops: million instructions a second, medians, ratio.
//!
//! `time ROUNDS BUDGET` measures; `once SIDE LOOP BUDGET` carries out one run, for a count of the processor's instructions from outside.
#![no_main]

mod measure;
#[path = "../tests/live/proved_runner.rs"]
mod proved_runner;

use measure::in_turn;
use proved_runner::proved_line;
use reference::runcase::{answer_line, Case, STORAGE_BEFORE};
use reference::runner::{self, STORAGE_NEEDED};
use reference::runspeed::{counting_loop, mixed_loop};

const LOOPS: [&str; 2] = ["A/C/BC", "mix"];

/// The text of a loop's case with this budget.
fn case_text(name: &str, budget: u32) -> Vec<u8> {
    let case = if name == LOOPS[0] { counting_loop() } else { mixed_loop() };
    let mut text = Vec::new();
    Case { budget, ..case }.write(&mut text).expect("a vector takes all");
    text
}

/// From a case's text to the line that answers it.
fn reference_line(mut text: &[u8], storage: &mut [u8]) -> String {
    let case = Case::read(&mut text).expect("as written").expect("a case");
    storage.fill(STORAGE_BEFORE);
    let answer = runner::run(&case.object, case.regs, case.cc, case.budget, storage);
    answer_line(&answer, storage) + "\n"
}

fn time(rounds: usize, budget: u32) {
    for name in LOOPS {
        let text = case_text(name, budget);
        let (mut ours, mut theirs) = (vec![0; STORAGE_NEEDED], vec![0; STORAGE_NEEDED]);
        let filled = |line: String| {
            assert_eq!(line.split(' ').nth(7), Some(budget.to_string().as_str()), "the loop has to fill its budget");
            line
        };
        let medians =
            in_turn(rounds, 1, || filled(proved_line(&text, &mut ours)), || filled(reference_line(&text, &mut theirs)));
        let speeds = medians.speeds(budget as usize, "million instructions");
        println!("{name}: {speeds} (medians of {rounds} runs of {budget} each, in turn)");
    }
}

/// Without a runtime of Rust's around it, which the emulator does not carry.
#[no_mangle]
pub extern "C" fn main(_count: i32, _words: *const *const u8) -> i32 {
    let words: Vec<String> = std::env::args().skip(1).collect();
    let number = |i: usize| words[i].parse::<u32>().expect("a number");
    if words[0] == "time" {
        time(number(1) as usize, number(2));
    } else {
        let side = if words[1] == "proved" { proved_line } else { reference_line };
        print!("{}", side(&case_text(&words[2], number(3)), &mut vec![0; STORAGE_NEEDED]));
    }
    0
}
