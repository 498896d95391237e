//! What the tests of the translator share.
#![allow(dead_code)]

use reference::spot::Spot;
use reference::translate::{translate, Answer};

pub fn answer(text: &[u8]) -> Answer {
    translate(text, None)
}

/// The number and place of the answer; its line and column are those that the place and the text give.
pub fn verdict(text: &[u8]) -> (u32, usize) {
    let Answer { number, spot, object } = answer(text);
    assert!(number == 0 || object.is_empty(), "a refusal has length 0");
    assert_eq!(spot, reported(number, spot.place, text), "{}", show(text));
    (number, spot.place)
}

/// A second opinion on the line and column that a number at a place reports: what stands before the place, parted at byte 10.
pub fn reported(number: u32, place: usize, text: &[u8]) -> Spot {
    if !(2..=13).contains(&number) {
        return Spot { place, line: 0, column: 0 };
    }
    let lines: Vec<&[u8]> = text[..place].split(|&byte| byte == 10).collect();
    Spot { place, line: lines.len(), column: 1 + lines[lines.len() - 1].len() }
}

pub fn show(text: &[u8]) -> String {
    let shown = String::from_utf8_lossy(text);
    if shown.len() > 300 {
        return format!("{} ... ({} bytes)", shown.chars().take(200).collect::<String>(), text.len());
    }
    shown.into_owned()
}

/// The bytes of segment `number` in an object text, read from its content frames.
pub fn segment(object: &[u8], number: u8) -> Vec<u8> {
    let mut bytes = Vec::new();
    for line in object.split(|&byte| byte == 10) {
        let frame = unhex(line);
        if frame.first() == Some(&0) && frame[1] == number {
            assert_eq!(bytes.len(), usize::from(frame[2]) * 256 + usize::from(frame[3]), "offset of a frame");
            assert_eq!(frame.len(), 5 + usize::from(frame[4]), "count of a frame");
            bytes.extend(&frame[5..]);
        }
    }
    bytes
}

pub fn unhex(line: &[u8]) -> Vec<u8> {
    let digit = |byte: u8| (byte as char).to_digit(16).expect("a hexadecimal digit") as u8;
    line.chunks(2).map(|pair| digit(pair[0]) * 16 + digit(pair[1])).collect()
}

/// Bytes from hexadecimal with blanks.
pub fn bytes(hexadecimal: &str) -> Vec<u8> {
    let digits: Vec<u8> = hexadecimal.bytes().filter(|&byte| byte != b' ').collect();
    unhex(&digits)
}

/// The text is accepted and its program is `code` (hexadecimal with blanks) without the last `0A00`.
pub fn assert_code(text: &str, code: &str) {
    let answer = answer(text.as_bytes());
    assert_eq!((answer.number, answer.spot), (0, Spot::NONE), "{text}");
    let wanted = bytes(&format!("{code} 0A00"));
    assert_eq!(segment(&answer.object, 0), wanted, "{text}");
}

/// A text with one `!` in it: without the `!`, it is refused by `number` at the place where the `!` stood.
pub fn assert_refused(number: u32, marked: &str) {
    let place = marked.find('!').expect("a `!` where the refusal is");
    let text = marked.replacen('!', "", 1);
    assert_eq!(verdict(text.as_bytes()), (number, place), "{}", show(text.as_bytes()));
}
