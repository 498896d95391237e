//! Accepted texts, translated by the proved translator and run by the proved runner, each state watched: `generated|hunted|cases SEED COUNT`.
#![no_main]

mod proved_runner;
mod proved_translator;

use proved_runner::proved_line;
use proved_translator::{proved_translation, ROOM};
use reference::runcase::{Case, STORAGE_BEFORE};
use reference::runner::RunAnswer;
use reference::spot::Spot;
use reference::watch::Seen;
use reference::watching::{campaign, Texts};

/// The answer in a line of the proved runner, `number place line column stop counter cc count r0 … r15 hash`.
fn answer(line: &str) -> RunAnswer {
    let fields: Vec<u64> = line.split(' ').take(24).map(|word| word.parse().expect("a number")).collect();
    RunAnswer {
        number: fields[0] as u32,
        spot: Spot { place: fields[1] as usize, line: fields[2] as usize, column: fields[3] as usize },
        stop: fields[4] as u32,
        counter: fields[5] as u32,
        cc: fields[6],
        count: fields[7] as u32,
        regs: std::array::from_fn(|register| fields[8 + register] as u32),
    }
}

/// Without a runtime of Rust's around it, which the emulator does not carry.
#[no_mangle]
pub extern "C" fn main(_count: i32, _words: *const *const u8) -> i32 {
    let words: Vec<String> = std::env::args().skip(1).collect();
    let texts = Texts::named(&words[0]).expect("generated, hunted or cases");
    let (seed, count) = (words[1].parse().expect("a number"), words[2].parse().expect("a number"));
    let (mut buffer, mut text) = (vec![0; ROOM], Vec::new());
    let mut translate = |source: &[u8]| {
        let told = proved_translation(source, &mut buffer);
        (told.number, buffer[..told.length].to_vec())
    };
    let mut run = |case: &Case| {
        text.clear();
        case.write(&mut text).expect("a vector takes all");
        let mut storage = vec![STORAGE_BEFORE; case.storage_length];
        let line = proved_line(&text, &mut storage);
        Seen { answer: answer(&line), storage }
    };
    let tally = campaign(texts, seed, count, &mut translate, &mut run);
    print!("seed {seed}: {}", tally.report());
    i32::from(!tally.cries.is_empty())
}
