//! The proved translator on threads with little stack: every generated text and some that take the most, each against the reference's answer. A thread whose
//! stack does not reach ends the whole program.
#![no_main]

mod proved_translator;
mod tally;

use proved_translator::{proved_translation, Told, ROOM};
use reference::gen;
use reference::token::TEXT_LIMIT;
use reference::translate::translate;
use std::thread;
use tally::{numbers, Tally};

/// Texts up to so many bytes, and the stack of a thread that translates them, in bytes.
const STACKS: [(usize, usize); 3] = [(1024, SHORT_STACK), (8192, MIDDLING_STACK), (TEXT_LIMIT, LONG_STACK)];
const SHORT_STACK: usize = 128 << 10;
const MIDDLING_STACK: usize = 448 << 10;
const LONG_STACK: usize = 1600 << 10;

/// The front before as many copies of the middle as leave room for the back.
fn filled(front: &str, middle: &str, back: &str, length: usize) -> Vec<u8> {
    let copies = (length - front.len() - back.len()) / middle.len();
    [front, &middle.repeat(copies), back].concat().into_bytes()
}

/// Texts of at most so many bytes that have many tokens, labels, base declarations, literals, open constructs or arguments.
fn heavy(length: usize) -> Vec<Vec<u8>> {
    let open = "BEGIN ".repeat(64);
    let close = ["END;".repeat(63), "END@".to_string()].concat();
    vec![
        filled("BEGIN ", " ", "END@", length),
        filled("BEGIN ", "A:", "END@", length),
        filled("BEGIN ", ";", "END@", length),
        filled("BEGIN ", "BASE R1;", "END@", length),
        filled("BEGIN ", "R1:=R1+7;", "END@", length),
        filled("BEGIN ", "INTEGER A(2);", "END@", length),
        filled(&open, "R1:=7;", &close, length),
        filled("BEGIN ", "IF R1=7 THEN ", "R1:=7 END@", length),
        filled("BEGIN SET", "(1)", ";END@", length),
    ]
}

/// The proved translator's answer and what it writes, on a thread with this stack.
fn on_thread(text: &[u8], stack: usize) -> (Told, Vec<u8>) {
    let text = text.to_vec();
    let work = move || {
        let mut buffer = vec![0; ROOM];
        let told = proved_translation(&text, &mut buffer);
        buffer.truncate(told.length);
        (told, buffer)
    };
    thread::Builder::new().stack_size(stack).spawn(work).expect("a thread").join().expect("an answer")
}

/// Without a runtime of Rust's around it, which the emulator does not carry.
#[no_mangle]
pub extern "C" fn main(_count: i32, _words: *const *const u8) -> i32 {
    let (seed, count) = (numbers()[0], numbers()[1]);
    let mut texts: Vec<Vec<u8>> = (0..count).map(|number| gen::case(seed, number)).collect();
    for (length, _) in STACKS {
        texts.extend(heavy(length));
    }
    let mut tally = Tally::default();
    for (number, text) in texts.iter().enumerate() {
        let stack = STACKS.iter().find(|(length, _)| text.len() <= *length).map_or(SHORT_STACK, |(_, stack)| *stack);
        let answer = translate(text, Some(ROOM));
        let told = Told::from(&answer);
        tally.answered(format!("on {} KB", stack >> 10));
        if on_thread(text, stack) != (told, answer.object) {
            tally.differs(format!("text {number} of {} bytes", text.len()));
        }
    }
    tally.report(format!("{} texts, {count} of them of seed {seed}, each on a thread of its own", texts.len()))
}
