//! Random and mutated texts through the proved token reader and grammar and through the reference in one process: number, place, line and column, and every
//! token.
#![no_main]

#[macro_use]
mod proved_texts;
mod tally;

use proved_texts::{proved_grammar, reference_tokens, tautgaff_read_tokens, verdict, Lists, Reader, Verdict};
use reference::gen;
use reference::spot::Spot;
use reference::token::{tokens, Kind, Token, TEXT_LIMIT};
use reference::translate::translate;
use tally::{numbers, Tally};

reader!(tautgaff_tokens);

/// A token as the lists have it: kind and value; place, line and column.
type Entry = (u8, u64, [u32; 3]);

/// Every entry before a reading.
const BEFORE: Entry = (165, 165, [165; 3]);

/// The proved side counts from the text's end, 0, has COMMENT's number among the words, before INTEGER's, and the signs from 64 on.
fn kind_number(kind: Kind) -> u8 {
    match kind {
        Kind::TextEnd => 0,
        Kind::Byte => 34,
        Kind::Character => 35,
        Kind::Case => 36,
        Kind::Of => 37,
        kind if (kind as u8) < Kind::Integer as u8 => kind as u8 + 1,
        kind if (kind as u8) < Kind::Assign as u8 => kind as u8 + 2,
        kind => kind as u8 - Kind::Assign as u8 + 64,
    }
}

/// A number's bits, or a name's first ten characters as a number to the base 36.
fn value(token: &Token) -> u64 {
    let characters = token.name.iter().take_while(|&&byte| byte != 0);
    let key =
        characters.fold(0, |key, &byte| 36 * key + (byte as char).to_digit(36).expect("a letter or a digit") as u64);
    key + token.value as u64
}

fn listed(token: &Token) -> Entry {
    let Spot { place, line, column } = token.spot;
    (kind_number(token.kind), value(token), [place, line, column].map(|number| number as u32))
}

/// Does the reader, with so much room lent, answer this and lay these tokens, and leave what is behind them?
fn reads(lists: &mut Lists, reader: Reader, text: &[u8], room: usize, expected: Verdict, laid: &[Token]) -> bool {
    lists.kinds[..room].fill(BEFORE.0);
    lists.values[..room].fill(BEFORE.1);
    for (list, before) in lists.spots.iter_mut().zip(BEFORE.2) {
        list[..room].fill(before);
    }
    let answer = lists.read(reader, text, room);
    let count = if expected.0 == 0 { laid.len() } else { 0 };
    let spot = |i: usize| [0, 1, 2].map(|list| lists.spots[list][i]);
    let entries = (0..room).map(|i| (lists.kinds[i], lists.values[i], spot(i)));
    let behind = std::iter::repeat(BEFORE);
    answer == (expected, count) && entries.eq(laid.iter().map(listed).chain(behind).take(room))
}

/// The tokens before a refusal, read as those of a text that ends there.
fn tokens_before(text: &[u8], (number, spot): Verdict) -> Vec<Token> {
    if number == 1 {
        return Vec::new();
    }
    let mut before = tokens(&text[..spot.place]).expect("the first refusal");
    before.pop();
    before
}

/// Both readers, with room enough and one less.
fn same_tokens(lists: &mut Lists, text: &[u8]) -> bool {
    let answer = reference_tokens(text);
    let expected = verdict(&answer);
    let room = text.len().min(TEXT_LIMIT) + 1;
    let laid = match &answer {
        Ok(tokens) => tokens.clone(),
        Err(_) => tokens_before(text, expected),
    };
    let too_little = |needed| (16, Spot::without_line(needed));
    let no_room = if expected.0 == 1 { expected } else { too_little(room) };
    let in_one_pass = reads(lists, tautgaff_read_tokens, text, room, expected, &laid)
        && reads(lists, tautgaff_read_tokens, text, room - 1, no_room, &[]);
    let looked_over = match &answer {
        Ok(tokens) => {
            reads(lists, tautgaff_tokens, text, tokens.len(), expected, tokens)
                && reads(lists, tautgaff_tokens, text, tokens.len() - 1, too_little(tokens.len()), &[])
        }
        Err(_) => reads(lists, tautgaff_tokens, text, room, expected, &[]),
    };
    in_one_pass && looked_over
}

/// Without a runtime of Rust's around it, which the emulator does not carry.
#[no_mangle]
pub extern "C" fn main(_count: i32, _words: *const *const u8) -> i32 {
    let (seed, count) = (numbers()[0], numbers()[1]);
    let mut lists = Lists::new();
    let (mut tally, mut bytes) = (Tally::default(), 0u64);
    for number in 0..count {
        let text = gen::case(seed, number);
        if !same_tokens(&mut lists, &text) {
            tally.differs(format!("text {number}: other tokens"));
        }
        let answer = translate(&text, None);
        let expected = if answer.number <= 5 { (answer.number as u64, answer.spot) } else { (0, Spot::NONE) };
        let said = proved_grammar(&text);
        if said != expected {
            tally.differs(format!("text {number}: {said:?}, reference {expected:?}"));
        }
        bytes += text.len() as u64;
        tally.answered(format!("answer {:2}", answer.number));
    }
    tally.report(format!("{count} texts of seed {seed}, {bytes} bytes"))
}
