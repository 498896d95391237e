//! Object texts and instructions made by hand, for tests, generators and measurements.

use crate::objread::{DataSegment, ObjectText, FRAME_BYTES};

/// Two bytes: opcode, r·16+s.
pub fn two(opcode: u8, r: u8, s: u8) -> Vec<u8> {
    vec![opcode, 16 * r + s]
}

/// Four bytes: opcode, r·16+index, base·16 + displacement/256, displacement mod 256.
pub fn four(opcode: u8, r: u8, index: u8, base: u8, displacement: u16) -> Vec<u8> {
    vec![opcode, 16 * r + index, 16 * base + (displacement / 256) as u8, (displacement % 256) as u8]
}

/// A data segment whose writable part is `from` to `to`.
pub fn data(bytes: Vec<u8>, from: usize, to: usize) -> DataSegment {
    DataSegment { bytes, from, to }
}

/// The object text of these segments, whatever they are: the form of document 01 where they are fit for it.
pub fn text(program: &[u8], data: &[DataSegment]) -> Vec<u8> {
    let mut lines = Vec::new();
    lines.push(format!("0100{:04X}", program.len()));
    content(&mut lines, 0, program);
    for (i, segment) in data.iter().enumerate() {
        let number = i + 1;
        lines.push(format!("02{:02X}{:04X}{:04X}{:04X}", number, segment.bytes.len(), segment.from, segment.to));
        content(&mut lines, number, &segment.bytes);
    }
    lines.push("FF".to_string());
    let mut text = lines.join("\n");
    text.push('\n');
    text.into_bytes()
}

fn content(lines: &mut Vec<String>, number: usize, bytes: &[u8]) {
    for (i, part) in bytes.chunks(FRAME_BYTES).enumerate() {
        let hex: String = part.iter().map(|byte| format!("{byte:02X}")).collect();
        lines.push(format!("00{:02X}{:04X}{:02X}{}", number, FRAME_BYTES * i, part.len(), hex));
    }
}

/// The same from what a reader gave back.
pub fn text_of(object: &ObjectText) -> Vec<u8> {
    text(&object.program, &object.data)
}
