//! The instructions of the programs that the proved translator makes of generated texts, `SEED COUNT`: a line `bytes, name` for each.
#![no_main]

mod proved_translator;

use proved_translator::{proved_translation, ROOM};
use reference::codetable;
use reference::gen::right_text;
use reference::random::Random;

/// Without a runtime of Rust's around it, which the emulator does not carry.
#[no_mangle]
pub extern "C" fn main(_count: i32, _words: *const *const u8) -> i32 {
    let words: Vec<u64> = std::env::args().skip(1).map(|word| word.parse().expect("a number")).collect();
    let mut buffer = vec![0; ROOM];
    for number in 0..words[1] {
        let told = proved_translation(&right_text(&mut Random::new(words[0], number)), &mut buffer);
        assert_eq!(told.number, 0, "an accepted text");
        print!("{}", codetable::named(&buffer[..told.length]));
    }
    0
}
