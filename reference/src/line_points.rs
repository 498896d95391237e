//! The points of document 02, 2/13, decided in docs/DECISIONS.md, section L: texts as in `points`, with line and column.

use crate::points::{point, Point};
use crate::spot::Spot;

const fn lined(
    name: &'static str,
    text: &'static [u8],
    number: u32,
    place: usize,
    line: usize,
    column: usize,
) -> Point {
    Point { line_and_column: Some((line, column)), ..point(name, text, number, place, "") }
}

pub const LINE_POINTS: &[Point] = &[
    lined("L1", b"BEGIN\nRE := R1; END @", 10, 6, 2, 1),
    lined("L1", b"BEGIN\n   RE := R1; END @", 10, 9, 2, 4),
    lined("L1", b"BEGIN COMMENT A\nB\n \xc3\xa9 ; X; END @", 6, 24, 3, 7),
    lined("L1", b"BEGIN COMMENT\n\t\t; X; END @", 6, 18, 2, 5),
    lined("L2", b"BEGIN\n\nX;\nEND @", 6, 7, 3, 1),
    lined("L3", b"BEGIN\r\nEND @", 2, 5, 1, 6),
    lined("L3", b"BEGIN COMMENT A\r; X; END @", 6, 18, 1, 19),
    lined("L3", b"BEGIN COMMENT A\r\n; X; END @", 6, 19, 2, 3),
    lined("L4", b"", 4, 0, 1, 1),
    lined("L4", b"BEGIN END", 4, 9, 1, 10),
    lined("L4", b"BEGIN END\n", 4, 10, 2, 1),
    lined("L4", b"BEGIN END\n  ", 4, 12, 2, 3),
    lined("L5", b"BEGIN COMMENT X;\n\n", 4, 18, 3, 1),
    lined("L5", b"BEGIN\n COMMENT X\n", 2, 7, 2, 2),
    lined("L6", b"?", 2, 0, 1, 1),
    lined("L6", b"\nBEGIN ARRAY (1020) INTEGER A;\nR1 := 5; END @", 15, 0, 0, 0),
    lined("L6", b"\n\nBEGIN END @\n", 0, 0, 0, 0),
    lined("L9", b"\n\nX;\nBEGIN END 99999999999 @", 3, 15, 4, 11),
    lined("L9", b"BEGIN     X;\nX; END @", 6, 10, 1, 11),
];

/// A point whose text is too long to be written out.
pub struct LongPoint {
    pub name: &'static str,
    pub text: Vec<u8>,
    /// The buffer's length, None for one that is always long enough.
    pub room: Option<usize>,
    pub number: u32,
    pub spot: Spot,
}

pub fn long_line_points() -> Vec<LongPoint> {
    let statements = ["\nBEGIN ", &"R1:=R2;".repeat(2048), "END@"].concat().into_bytes();
    let ended = [&b"BEGIN END @"[..], &[b'\n'; 100]].concat();
    let long = |name, text, room, number, (place, line, column)| {
        let spot = Spot { place, line, column };
        LongPoint { name, text, room, number, spot }
    };
    vec![
        long("L6", vec![b' '; 32_769], None, 1, (32_768, 0, 0)),
        long("L6", statements, None, 14, (0, 0, 0)),
        long("L6", ended, Some(86), 16, (87, 0, 0)),
        long("L10", vec![b'\n'; 32_768], None, 4, (32_768, 32_769, 1)),
        long("L10", vec![b' '; 32_768], None, 4, (32_768, 1, 32_769)),
    ]
}
