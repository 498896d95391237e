//! The proved token reader and grammar and the reference's in one process, in turn on the same texts: MB/s, medians, ratio; and the time for a byte as texts
//! grow. `ROUNDS BYTES`: so many rounds, in each of which a text is read until so many bytes are.
#![no_main]

mod measure;
#[path = "../tests/live/proved_texts.rs"]
mod proved_texts;

use measure::in_turn;
use proved_texts::{proved_grammar, reference_tokens, tautgaff_read_tokens, verdict, Lists, Verdict};
use reference::gen;
use reference::grammar;
use reference::random::Random;
use reference::spot::Spot;

const ORDINARY: [usize; 3] = [1_000, 8_000, 32_000];
const GROWING: [usize; 3] = [8_192, 16_384, 32_768];

/// The unit again and again between the start and the end, up to a length.
fn filled(start: &str, unit: &str, end: &str, length: usize) -> Vec<u8> {
    let times = (length - start.len() - end.len()) / unit.len();
    (start.to_string() + &unit.repeat(times) + end).into_bytes()
}

/// Programs that grow in one way each.
fn growing(length: usize) -> Vec<(&'static str, Vec<u8>)> {
    let blocks = "BEGIN ".repeat(63) + &"END;".repeat(63);
    let loops = "WHILE > DO ".repeat(63) + "NULL;";
    vec![
        ("blanks", filled("BEGIN", " ", "END@", length)),
        ("names", filled("BEGIN INTEGER A", ",ABCDEFGHIJ", ";END@", length)),
        ("one comment", filled("BEGIN COMMENT", " WHY", ";END@", length)),
        ("64 deep", filled("BEGIN ", &(blocks + &loops), "END@", length)),
    ]
}

/// Refusals 1 to 5, or 0.
fn reference_grammar(text: &[u8]) -> Verdict {
    verdict(&reference_tokens(text).and_then(|tokens| grammar::program(&tokens)))
}

/// Without a runtime of Rust's around it, which the emulator does not carry.
#[no_mangle]
pub extern "C" fn main(_count: i32, _words: *const *const u8) -> i32 {
    let numbers: Vec<usize> = std::env::args().skip(1).map(|word| word.parse().expect("a number")).collect();
    let (rounds, bytes) = (numbers[0], numbers[1]);
    let mut lists = Lists::new();
    let mut tokens = |text: &[u8]| {
        in_turn(
            rounds,
            bytes / text.len() + 1,
            || lists.read(tautgaff_read_tokens, text, text.len() + 1).1,
            || reference_tokens(text).map_or(0, |tokens| tokens.len()),
        )
    };
    let grammar =
        |text: &[u8]| in_turn(rounds, bytes / text.len() + 1, || proved_grammar(text), || reference_grammar(text));
    for length in ORDINARY {
        let text = gen::sized_text(&mut Random::new(7, length as u64), length);
        assert_eq!(proved_grammar(&text), (0, Spot::NONE));
        println!("ordinary text of {} bytes, tokens: {}", text.len(), tokens(&text).speeds(text.len(), "MB"));
        println!("ordinary text of {} bytes, tokens and grammar: {}", text.len(), grammar(&text).speeds(text.len(), "MB"));
    }
    for length in GROWING {
        for (name, text) in growing(length) {
            assert_eq!(proved_grammar(&text), (0, Spot::NONE));
            let medians = grammar(&text);
            let byte = |seconds: f64| seconds / text.len() as f64 * 1e9;
            println!(
                "{name}, {} bytes: proved {:.1}, reference {:.1} ns for a byte, ratio {:.2}",
                text.len(),
                byte(medians.proved),
                byte(medians.reference),
                medians.ratio
            );
        }
    }
    0
}
