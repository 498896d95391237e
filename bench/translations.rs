//! The proved translator and the reference in one process, in turn on the same texts: MB/s, medians, ratio; and the time as texts and their names grow.
//! `ROUNDS BYTES`: so many rounds, in each of which a text is translated until so many bytes are.
#![no_main]

mod measure;
#[path = "../tests/live/proved_translator.rs"]
mod proved_translator;

use measure::in_turn;
use proved_translator::{proved_translation, Told, ROOM};
use reference::gen;
use reference::random::Random;
use reference::translate::translate;

const ORDINARY: [usize; 3] = [1_000, 8_000, 32_000];
const GROWING: [usize; 3] = [8_192, 16_384, 32_768];
const NAMES: [usize; 3] = [64, 128, 256];

/// How many names the growing texts have, and how many statements the texts with more and more names.
const FIXED_NAMES: usize = 16;
const FIXED_STATEMENTS: usize = 1_000;

fn name(number: usize) -> String {
    format!("NAME{number:03}")
}

/// So many names of registers, declared and then used in turn: each statement uses two, and takes two bytes of the program.
fn with_names(names: usize, statements: usize) -> String {
    let declared: Vec<String> = (0..names).map(|number| format!("{}({})", name(number), number % 9)).collect();
    let used = |number: usize| name(number * 7 % names);
    let statements: String =
        (0..statements).map(|number| format!("{}:={};NULL;\n", used(2 * number), used(2 * number + 1))).collect();
    format!("BEGIN INTEGER REGISTER {};{statements}END@", declared.join(","))
}

/// As many statements as a length has room for.
fn with_length(length: usize) -> String {
    let statement = with_names(FIXED_NAMES, 1).len() - with_names(FIXED_NAMES, 0).len();
    with_names(FIXED_NAMES, (length - with_names(FIXED_NAMES, 0).len()) / statement)
}

fn reference_translation(text: &[u8], buffer: &mut [u8]) -> Told {
    let answer = translate(text, Some(buffer.len()));
    buffer[..answer.object.len()].copy_from_slice(&answer.object);
    Told::from(&answer)
}

/// Without a runtime of Rust's around it, which the emulator does not carry.
#[no_mangle]
pub extern "C" fn main(_count: i32, _words: *const *const u8) -> i32 {
    let numbers: Vec<usize> = std::env::args().skip(1).map(|word| word.parse().expect("a number")).collect();
    let (rounds, bytes) = (numbers[0], numbers[1]);
    let (mut ours, mut theirs) = (vec![0; ROOM], vec![0; ROOM]);
    let mut measured = |text: &[u8]| {
        let medians = in_turn(
            rounds,
            bytes / text.len() + 1,
            || proved_translation(text, &mut ours),
            || reference_translation(text, &mut theirs),
        );
        assert_eq!(proved_translation(text, &mut ours).number, 0, "an accepted text");
        assert_eq!(ours, theirs);
        medians
    };
    for length in ORDINARY {
        let text = gen::sized_text(&mut Random::new(7, length as u64), length);
        println!("ordinary text of {} bytes: {}", text.len(), measured(&text).speeds(text.len(), "MB"));
    }
    let micro = |seconds: f64| seconds * 1e6;
    for length in GROWING {
        let text = with_length(length);
        let medians = measured(text.as_bytes());
        println!(
            "{FIXED_NAMES} names, {} bytes: proved {:.0}, reference {:.0} microseconds, ratio {:.2}",
            text.len(),
            micro(medians.proved),
            micro(medians.reference),
            medians.ratio
        );
    }
    for names in NAMES {
        let text = with_names(names, FIXED_STATEMENTS);
        let medians = measured(text.as_bytes());
        println!(
            "{names} names in {} uses, {} bytes: proved {:.0}, reference {:.0} microseconds, ratio {:.2}",
            2 * FIXED_STATEMENTS,
            text.len(),
            micro(medians.proved),
            micro(medians.reference),
            medians.ratio
        );
    }
    0
}
