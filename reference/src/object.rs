//! Object text: the bytes of the segments, and the lines of frames that hold them.

use crate::grammar::*;
use crate::layout::{Layout, Place, FIRST_DATA, LAST_DATA};
use crate::token::Token;
use std::ops::Range;

/// "16 bytes a frame, the last shorter"
const FRAME_LENGTH: usize = 16;

pub struct DataSegment {
    pub bytes: Vec<u8>,
    pub writable: Range<usize>,
}

/// The data segments 1 up to the last that is open, with initial values; segment 1 with the literals from offset
/// `first_literal` on.
pub fn data_segments(
    program: &Block,
    tokens: &[Token],
    layout: &Layout,
    literals: &[u32],
    first_literal: usize,
) -> Vec<DataSegment> {
    let mut images: Vec<Vec<u8>> = (0..=LAST_DATA).map(|segment| vec![0; layout.ends[segment]]).collect();
    Values { tokens, layout, images: &mut images }.block(program);
    if !literals.is_empty() {
        images[FIRST_DATA].resize(first_literal, 0);
        for literal in literals {
            images[FIRST_DATA].extend(literal.to_be_bytes());
        }
    }
    let first_cell = |segment| if segment == FIRST_DATA { crate::layout::TABLE_LENGTH } else { 0 };
    (FIRST_DATA..=layout.last)
        .map(|segment| DataSegment {
            bytes: std::mem::take(&mut images[segment]),
            writable: first_cell(segment)..layout.ends[segment],
        })
        .collect()
}

/// Lays the initial values of all cells into the images.
struct Values<'a> {
    tokens: &'a [Token],
    layout: &'a Layout,
    images: &'a mut [Vec<u8>],
}

impl Values<'_> {
    fn block(&mut self, block: &Block) {
        for declaration in &block.declarations {
            match declaration {
                Declaration::Cells(cells) => cells.items.iter().for_each(|item| self.item(item, cells.of)),
                Declaration::Procedure(procedure) => self.statement(&procedure.body),
                Declaration::Registers(_) | Declaration::Base(_) => {}
            }
        }
        for item in &block.items {
            if let Item::Statement(statement) = item {
                self.statement(statement);
            }
        }
    }

    /// "A value for a short cell ... keeps its low 16 bits."; one for a byte cell its low 8.
    fn item(&mut self, item: &CellItem, of: Type) {
        let Place { segment, offset } = match self.layout.cells[item.name] {
            Some(place) => place,
            None => return,
        };
        let size = of.size();
        for (position, &value) in item.values.iter().enumerate() {
            let bytes = self.tokens[value].value.to_be_bytes();
            let at = offset + size * position;
            self.images[segment][at..at + size].copy_from_slice(&bytes[4 - size..]);
        }
    }

    fn statement(&mut self, statement: &Statement) {
        match statement {
            Statement::Block(block) => self.block(block),
            Statement::If { then, otherwise, .. } => {
                self.statement(then);
                if let Some(otherwise) = otherwise {
                    self.statement(otherwise);
                }
            }
            Statement::While { body, .. } | Statement::For { body, .. } => self.statement(body),
            Statement::Case(case) => case.statements.iter().for_each(|statement| self.statement(statement)),
            Statement::Assignment(_) | Statement::Use(_) | Statement::Goto(_) | Statement::Null => {}
        }
    }
}

/// "Capital hexadecimal, one frame a line, each ended by byte 10. ... Segments in number order, each after its head;
/// last line FF."
pub fn object_text(program: &[u8], data: &[DataSegment]) -> Vec<u8> {
    let mut text = Vec::new();
    // "Program head: 01, number, length (2 bytes)."
    let [high, low] = two_bytes(program.len());
    line(&mut text, &[&[0x01, 0, high, low]]);
    content(&mut text, 0, program);
    for (number, segment) in (FIRST_DATA as u8..).zip(data) {
        // "Data head: 02, number, length, writable from, writable to"
        let (length, from, to) = (segment.bytes.len(), segment.writable.start, segment.writable.end);
        line(&mut text, &[&[0x02, number], &two_bytes(length), &two_bytes(from), &two_bytes(to)]);
        content(&mut text, number, &segment.bytes);
    }
    line(&mut text, &[&[0xFF]]);
    text
}

/// "Content: 00, number, offset (2 bytes), count, bytes"
fn content(text: &mut Vec<u8>, number: u8, bytes: &[u8]) {
    for (position, part) in bytes.chunks(FRAME_LENGTH).enumerate() {
        let [high, low] = two_bytes(FRAME_LENGTH * position);
        line(text, &[&[0x00, number, high, low, part.len() as u8], part]);
    }
}

fn line(text: &mut Vec<u8>, parts: &[&[u8]]) {
    const DIGITS: &[u8; 16] = b"0123456789ABCDEF";
    for part in parts {
        for byte in part.iter() {
            text.push(DIGITS[usize::from(byte / 16)]);
            text.push(DIGITS[usize::from(byte % 16)]);
        }
    }
    text.push(10);
}

fn two_bytes(number: usize) -> [u8; 2] {
    [(number / 256) as u8, (number % 256) as u8]
}
