//! Text and tokens: the bytes of a source text, read as the words, numbers and signs of document 01.

use crate::spot::Spot;

/// "source over 32,768 bytes"
pub const TEXT_LIMIT: usize = 32_768;

/// "the first 10 characters count"
pub const NAME_LENGTH: usize = 10;

/// The first 10 characters of a name, filled up with zero bytes.
pub type Spelling = [u8; NAME_LENGTH];

/// A refusal's number, and where it is.
#[derive(Clone, Copy, PartialEq, Eq, Debug)]
pub struct Refusal {
    pub number: u32,
    pub spot: Spot,
}

#[derive(Clone, Copy, PartialEq, Eq, Hash, Debug)]
pub enum Kind {
    Name,
    Number,
    Begin,
    End,
    If,
    Then,
    Else,
    While,
    Do,
    For,
    Step,
    Until,
    Goto,
    Null,
    Integer,
    Logical,
    Short,
    Array,
    Register,
    Segment,
    Base,
    Procedure,
    And,
    Or,
    Xor,
    Abs,
    Neg,
    Shll,
    Shrl,
    Shla,
    Shra,
    Overflow,
    Assign,
    LessEqual,
    GreaterEqual,
    NotEqual,
    PlusPlus,
    MinusMinus,
    Plus,
    Minus,
    Times,
    Equal,
    Less,
    Greater,
    Comma,
    Semicolon,
    Colon,
    Open,
    Close,
    At,
    Byte,
    Character,
    Case,
    Of,
    /// Stands behind the last token of a text that has no `@`; it is no token of any program.
    TextEnd,
}

/// "Reserved, compared whole" (COMMENT, which opens a comment and is no token, aside): document 01's words, then "BYTE and
/// CHARACTER" of document 02, 1/13, and "CASE register OF" of 3/13.
pub const RESERVED: [(&str, Kind); 34] = [
    ("BEGIN", Kind::Begin),
    ("END", Kind::End),
    ("IF", Kind::If),
    ("THEN", Kind::Then),
    ("ELSE", Kind::Else),
    ("WHILE", Kind::While),
    ("DO", Kind::Do),
    ("FOR", Kind::For),
    ("STEP", Kind::Step),
    ("UNTIL", Kind::Until),
    ("GOTO", Kind::Goto),
    ("NULL", Kind::Null),
    ("INTEGER", Kind::Integer),
    ("LOGICAL", Kind::Logical),
    ("SHORT", Kind::Short),
    ("ARRAY", Kind::Array),
    ("REGISTER", Kind::Register),
    ("SEGMENT", Kind::Segment),
    ("BASE", Kind::Base),
    ("PROCEDURE", Kind::Procedure),
    ("AND", Kind::And),
    ("OR", Kind::Or),
    ("XOR", Kind::Xor),
    ("ABS", Kind::Abs),
    ("NEG", Kind::Neg),
    ("SHLL", Kind::Shll),
    ("SHRL", Kind::Shrl),
    ("SHLA", Kind::Shla),
    ("SHRA", Kind::Shra),
    ("OVERFLOW", Kind::Overflow),
    ("BYTE", Kind::Byte),
    ("CHARACTER", Kind::Character),
    ("CASE", Kind::Case),
    ("OF", Kind::Of),
];

/// "Signs, longest first"
pub const SIGNS: [(&str, Kind); 18] = [
    (":=", Kind::Assign),
    ("<=", Kind::LessEqual),
    (">=", Kind::GreaterEqual),
    ("^=", Kind::NotEqual),
    ("++", Kind::PlusPlus),
    ("--", Kind::MinusMinus),
    ("+", Kind::Plus),
    ("-", Kind::Minus),
    ("*", Kind::Times),
    ("=", Kind::Equal),
    ("<", Kind::Less),
    (">", Kind::Greater),
    (",", Kind::Comma),
    (";", Kind::Semicolon),
    (":", Kind::Colon),
    ("(", Kind::Open),
    (")", Kind::Close),
    ("@", Kind::At),
];

const COMMENT: &[u8] = b"COMMENT";

#[derive(Clone, Copy, PartialEq, Eq, Debug)]
pub struct Token {
    pub kind: Kind,
    /// "Each token carries its line and column": those of its first byte, and its place.
    pub spot: Spot,
    /// The 32 bits of a number, else 0.
    pub value: u32,
    /// What counts of a name, else zero bytes.
    pub name: Spelling,
}

impl Token {
    /// "Rules on a number's value or sign read its 32 bits as signed."
    pub fn signed(&self) -> i32 {
        self.value as i32
    }
}

/// The tokens of the text in order, the last of them `@` or, where none is found, `TextEnd` at the text's length; or
/// the refusal 2 or 3 with the smallest place.
pub fn tokens(source: &[u8]) -> Result<Vec<Token>, Refusal> {
    let mut found = Vec::with_capacity(source.len() / 3 + 1);
    let mut spot = Spot::START;
    loop {
        spot = spot.past(gap(&source[spot.place..]));
        let rest = &source[spot.place..];
        if rest.is_empty() {
            found.push(plain(Kind::TextEnd, spot));
            return Ok(found);
        }
        if rest[..word_length(rest)] == *COMMENT {
            match rest.iter().position(|&byte| byte == b';') {
                Some(end) => spot = spot.past(&rest[..=end]),
                None => return Err(Refusal { number: 2, spot }),
            }
            continue;
        }
        let (token, length) = one_token(rest, spot)?;
        found.push(token);
        spot = spot.along(length);
        if token.kind == Kind::At {
            return Ok(found);
        }
    }
}

/// "Blank (32) and newline (10) separate tokens."
fn gap(rest: &[u8]) -> &[u8] {
    &rest[..count_while(rest, |byte| byte == 32 || byte == 10)]
}

/// "Names: a capital letter, then capitals or digits"
fn word_length(rest: &[u8]) -> usize {
    if !rest[0].is_ascii_uppercase() {
        return 0;
    }
    count_while(rest, |byte| byte.is_ascii_uppercase() || byte.is_ascii_digit())
}

/// The token at the front of `rest` and its length in bytes.
fn one_token(rest: &[u8], spot: Spot) -> Result<(Token, usize), Refusal> {
    let length = word_length(rest);
    if length > 0 {
        return Ok((word(&rest[..length], spot), length));
    }
    if let Some((value, length)) = number(rest) {
        return match value {
            Some(value) => Ok((Token { value, ..plain(Kind::Number, spot) }, length)),
            None => Err(Refusal { number: 3, spot }),
        };
    }
    for (sign, kind) in SIGNS {
        if rest.starts_with(sign.as_bytes()) {
            return Ok((plain(kind, spot), sign.len()));
        }
    }
    Err(Refusal { number: 2, spot })
}

fn word(text: &[u8], spot: Spot) -> Token {
    for (reserved, kind) in &RESERVED {
        if text == reserved.as_bytes() {
            return plain(*kind, spot);
        }
    }
    Token { name: spelling(text), ..plain(Kind::Name, spot) }
}

/// What counts of a name.
pub fn spelling(text: &[u8]) -> Spelling {
    let mut name = [0; NAME_LENGTH];
    let counted = text.len().min(NAME_LENGTH);
    name[..counted].copy_from_slice(&text[..counted]);
    name
}

/// The 32 bits of the number at the front of `rest` (None: out of range) with its length in bytes, if one is there:
/// "decimal 0 to 2147483647; with `_` directly in front, `_0` to `_2147483648`; or `#` and one or more hexadecimal
/// digits with a value below 2^32".
fn number(rest: &[u8]) -> Option<(Option<u32>, usize)> {
    let (front, base, limit) = match rest[0] {
        b'_' => (1, 10, 2_147_483_648),
        b'#' => (1, 16, 4_294_967_295),
        _ => (0, 10, 2_147_483_647),
    };
    let digits = &rest[front..];
    let length = count_while(digits, |byte| digit(byte, base).is_some());
    if length == 0 {
        return None;
    }
    let mut value: u64 = 0;
    for &byte in &digits[..length] {
        value = value * base + digit(byte, base).unwrap_or(0);
        if value > limit {
            return Some((None, front + length));
        }
    }
    let bits = value as u32;
    let bits = if rest[0] == b'_' { bits.wrapping_neg() } else { bits };
    Some((Some(bits), front + length))
}

fn digit(byte: u8, base: u64) -> Option<u64> {
    match byte {
        b'0'..=b'9' => Some(u64::from(byte - b'0')),
        b'A'..=b'F' if base == 16 => Some(u64::from(byte - b'A') + 10),
        _ => None,
    }
}

fn count_while(bytes: &[u8], wanted: impl Fn(u8) -> bool) -> usize {
    bytes.iter().take_while(|&&byte| wanted(byte)).count()
}

fn plain(kind: Kind, spot: Spot) -> Token {
    Token { kind, spot, value: 0, name: [0; NAME_LENGTH] }
}
