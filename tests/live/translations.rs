//! Random and mutated texts through the proved translator and the reference in one process, each in several rooms: number, place, line, column and length, and
//! every byte of the buffer.
#![no_main]

mod proved_translator;
mod tally;

use proved_translator::{proved_translation, Told, ROOM};
use reference::gen;
use reference::translate::{translate, Answer};
use tally::{numbers, Tally};

/// Every byte of the buffer before a translation.
const BEFORE: [u8; ROOM] = [165; ROOM];

/// The reference's answer in so much of the buffer, and what the proved translator does otherwise.
fn both(text: &[u8], room: usize, buffer: &mut [u8]) -> (Answer, Option<String>) {
    let answer = translate(text, Some(room));
    let expected = Told::from(&answer);
    let length = expected.length;
    buffer.copy_from_slice(&BEFORE);
    let said = proved_translation(text, &mut buffer[..room]);
    let difference = if said != expected {
        Some(format!("room {room}: {said:?}, reference {expected:?}"))
    } else if buffer[..length] != answer.object || buffer[length..] != BEFORE[length..] {
        Some(format!("room {room}: other bytes"))
    } else {
        None
    };
    (answer, difference)
}

/// Besides a large room: the exact length, one below and far below; for a text that is refused, any room.
fn further_rooms(answer: &Answer, number: usize) -> Vec<usize> {
    let needed = answer.object.len();
    if answer.number == 0 {
        vec![needed, needed - 1, number % needed]
    } else {
        vec![number % ROOM]
    }
}

/// Without a runtime of Rust's around it, which the emulator does not carry.
#[no_mangle]
pub extern "C" fn main(_count: i32, _words: *const *const u8) -> i32 {
    let (seed, count) = (numbers()[0], numbers()[1]);
    let mut buffer = BEFORE.to_vec();
    let (mut tally, mut bytes, mut translations) = (Tally::default(), 0, 0);
    for number in 0..count {
        let text = gen::case(seed, number);
        bytes += text.len();
        let (answer, difference) = both(&text, ROOM, &mut buffer);
        let mut differences = vec![difference];
        tally.answered(format!("answer {:2}", answer.number));
        for room in further_rooms(&answer, number as usize) {
            let (in_room, difference) = both(&text, room, &mut buffer);
            differences.push(difference);
            if in_room.number == 16 {
                tally.answered("answer 16".to_string());
            }
        }
        translations += differences.len();
        for difference in differences.into_iter().flatten() {
            tally.differs(format!("text {number}, {difference}"));
        }
    }
    tally.report(format!("{count} texts of seed {seed}, {bytes} bytes, {translations} translations"))
}
