//! Spots: where something stands in a text, by its offset and, since "Students count lines, not bytes", by line and column.

use std::fmt;

#[derive(Clone, Copy, PartialEq, Eq, Debug)]
pub struct Spot {
    /// "A place is the offset of the first byte of what is named."
    pub place: usize,
    /// "its line and column, both from 1"; 0 and 0 where none are reported.
    pub line: usize,
    pub column: usize,
}

impl Spot {
    /// That of a text's first byte.
    pub const START: Spot = Spot { place: 0, line: 1, column: 1 };

    /// Of success and of all that the runner answers.
    pub const NONE: Spot = Spot::without_line(0);

    /// "Success and refusals 1 and 14 to 19 report line and column 0".
    pub const fn without_line(place: usize) -> Spot {
        Spot { place, line: 0, column: 0 }
    }

    /// Behind `length` bytes from here, none of them byte 10.
    pub fn along(self, length: usize) -> Spot {
        Spot { place: self.place + length, column: self.column + length, ..self }
    }

    /// Behind these bytes, which stand from here on: "the column restarting after byte 10".
    pub fn past(self, bytes: &[u8]) -> Spot {
        match bytes.iter().rposition(|&byte| byte == 10) {
            None => self.along(bytes.len()),
            Some(last) => {
                let lines = bytes.iter().filter(|&&byte| byte == 10).count();
                Spot { place: self.place + bytes.len(), line: self.line + lines, column: bytes.len() - last }
            }
        }
    }
}

/// The place, and line and column where they are reported.
impl fmt::Display for Spot {
    fn fmt(&self, f: &mut fmt::Formatter) -> fmt::Result {
        match self.line {
            0 => write!(f, "{}", self.place),
            line => write!(f, "{}, line {line} column {}", self.place, self.column),
        }
    }
}
