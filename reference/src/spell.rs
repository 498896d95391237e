//! Spelling for generated texts: numbers in all their forms, and tokens put together with blanks and comments.

use crate::random::Random;

const EDGES: [u32; 24] = [
    0,
    1,
    2,
    3,
    4,
    7,
    8,
    15,
    16,
    31,
    32,
    63,
    64,
    127,
    255,
    256,
    4095,
    4096,
    32767,
    32768,
    65535,
    65536,
    0x7FFF_FFFF,
    0x8000_0000,
];

/// Any 32 bits, mostly small or at an edge.
pub fn any_value(random: &mut Random) -> u32 {
    match random.below(10) {
        0..=3 => random.below(20) as u32,
        4..=5 => *random.of(&EDGES),
        6 => random.of(&EDGES).wrapping_neg(),
        7 => random.of(&EDGES).wrapping_add(random.below(3) as u32).wrapping_sub(1),
        8 => (random.below(40) as u32).wrapping_neg(),
        _ => random.next() as u32,
    }
}

/// A number token with these 32 bits.
pub fn number(random: &mut Random, value: u32) -> String {
    let zeros = "0".repeat(if random.chance(1, 12) { random.range(1, 12) } else { 0 });
    let hexadecimal = random.chance(1, 5);
    if hexadecimal {
        return format!("#{zeros}{value:X}");
    }
    let signed = value as i32;
    if signed < 0 || (signed == 0 && random.chance(1, 8)) {
        return format!("_{zeros}{}", signed.unsigned_abs());
    }
    format!("{zeros}{signed}")
}

/// A number token whose value is in no range.
pub fn number_out_of_range(random: &mut Random) -> String {
    let beyond = random.below(1000) as u64;
    match random.below(6) {
        0 => format!("{}", 2_147_483_648 + beyond),
        1 => format!("_{}", 2_147_483_649 + beyond),
        2 => format!("#{:X}", 4_294_967_296 + beyond),
        3 => format!("{}0000000000{beyond}", random.range(1, 99)),
        4 => format!("#{:X}{:016X}", random.range(1, 99), random.next()),
        _ => format!("_{}{:020}", random.range(1, 9), random.next()),
    }
}

/// How the tokens of a text are set apart.
#[derive(Clone, Copy)]
enum Style {
    Tight,
    Blanks,
    /// A line or more for each statement, as people write.
    Lines,
    Wild,
}

/// A source text of these tokens: they stay the same tokens, however they are set. At times any bytes stand behind them.
pub fn text(random: &mut Random, tokens: &[String]) -> Vec<u8> {
    let mut text = set(random, tokens);
    match random.below(8) {
        0..=1 => text.extend((0..random.below(12)).map(|_| random.next() as u8)),
        2 => margin(random, &mut text),
        _ => {}
    }
    text
}

/// The same with nothing but blanks, newlines and comments behind the last token.
pub fn ended_by_margin(random: &mut Random, tokens: &[String]) -> Vec<u8> {
    let mut text = set(random, tokens);
    margin(random, &mut text);
    text
}

fn set(random: &mut Random, tokens: &[String]) -> Vec<u8> {
    let style = *random.of(&[Style::Tight, Style::Blanks, Style::Blanks, Style::Lines, Style::Lines, Style::Wild]);
    let mut text = Vec::new();
    if random.chance(1, 6) {
        margin(random, &mut text);
    }
    for token in tokens {
        gap(random, style, &mut text, token.as_bytes());
        text.extend(token.as_bytes());
    }
    text
}

/// What may stand before the first token of a text and behind its last.
fn margin(random: &mut Random, text: &mut Vec<u8>) {
    for _ in 0..random.range(1, 4) {
        match random.below(4) {
            0..=1 => new_line(random, text),
            2 => blanks(random, text),
            _ => comment(random, text),
        }
    }
}

/// A newline, at times behind empty lines, and at times blanks behind it.
fn new_line(random: &mut Random, text: &mut Vec<u8>) {
    let empty = if random.chance(1, 8) { random.range(1, 3) } else { 0 };
    text.extend(std::iter::repeat(b'\n').take(empty + 1));
    if random.chance(1, 2) {
        blanks(random, text);
    }
}

fn blanks(random: &mut Random, text: &mut Vec<u8>) {
    text.extend(std::iter::repeat(b' ').take(random.range(1, 8)));
}

/// The tokens with blanks between them, and a new line after each `;`.
pub fn set_in_lines(tokens: &[String]) -> Vec<u8> {
    let mut text = Vec::new();
    for token in tokens {
        text.extend(token.as_bytes());
        text.push(if token.ends_with(';') { b'\n' } else { b' ' });
    }
    text
}

fn gap(random: &mut Random, style: Style, text: &mut Vec<u8>, token: &[u8]) {
    let needed = touch_badly(text, token);
    match style {
        Style::Tight if !needed => {}
        Style::Tight | Style::Blanks => text.push(b' '),
        Style::Lines => {
            if text.last() == Some(&b';') && random.chance(1, 20) {
                comment(random, text);
            }
            if text.last() == Some(&b';') || random.chance(1, 12) {
                new_line(random, text);
            } else {
                text.push(b' ');
            }
        }
        Style::Wild => {
            if needed || random.chance(1, 3) {
                text.push(*random.of(b" \n"));
            }
            if random.chance(1, 12) {
                new_line(random, text);
            }
            if random.chance(1, 12) {
                comment(random, text);
            }
        }
    }
}

/// Would the token run together with what stands before it?
fn touch_badly(text: &[u8], token: &[u8]) -> bool {
    let (last, first) = match (text.last(), token.first()) {
        (Some(&last), Some(&first)) => (last, first),
        _ => return false,
    };
    let words = last.is_ascii_alphanumeric() && first.is_ascii_alphanumeric();
    words
        || (matches!(last, b':' | b'<' | b'>' | b'^') && first == b'=')
        || (last == first && matches!(first, b'+' | b'-'))
}

/// A comment with any bytes in it, set apart from a word before it; newlines, at times with byte 13 before them, and characters of
/// several bytes come up often.
fn comment(random: &mut Random, text: &mut Vec<u8>) {
    if matches!(text.last(), Some(last) if last.is_ascii_alphanumeric()) {
        text.push(b' ');
    }
    text.extend(b"COMMENT");
    if random.chance(3, 4) {
        text.push(*random.of(b" \n@_#=\xFF"));
        let most = if random.chance(1, 10) { 40 } else { 9 };
        for _ in 0..random.below(most) {
            match random.below(8) {
                0 => text.extend(random.of(&["\n", "\n\n", "\r\n", "\r", "\t", "\u{e9}", "\u{2192}"]).as_bytes()),
                1..=2 => {
                    let byte = random.next() as u8;
                    text.push(if byte == b';' { b'.' } else { byte });
                }
                _ => text.push(*random.of(b"AZ19 @:BEGINEND")),
            }
        }
    }
    text.push(b';');
}
