//! Object text: the reader of document 01's "Object text", as refusal 17 asks for it.

/// "A segment is at most 4,096 bytes" / "lengths at most 4,096".
pub const SEGMENT_LIMIT: usize = 4096;
/// "16 bytes a frame, the last shorter".
pub const FRAME_BYTES: usize = 16;
/// "one to three data heads".
pub const MOST_DATA_SEGMENTS: usize = 3;

const CONTENT: u8 = 0x00;
const PROGRAM_HEAD: u8 = 0x01;
const DATA_HEAD: u8 = 0x02;
const LAST: u8 = 0xFF;

/// A data segment: its bytes and the part "writable from, writable to".
#[derive(Clone, Debug, PartialEq, Eq)]
pub struct DataSegment {
    pub bytes: Vec<u8>,
    pub from: usize,
    pub to: usize,
}

/// What an object text says: segment 0 is the program, `data[k - 1]` is segment k.
#[derive(Clone, Debug, PartialEq, Eq)]
pub struct ObjectText {
    pub program: Vec<u8>,
    pub data: Vec<DataSegment>,
}

/// The segments of a text that is exactly of the form, or `None` (refusal 17).
pub fn read(text: &[u8]) -> Option<ObjectText> {
    let frames = frames(text)?;
    let mut frames = frames.iter();

    // "Program head: 01, number, length (2 bytes)."
    let head = frames.next()?;
    if head.len() != 4 || head[0] != PROGRAM_HEAD || head[1] != 0 {
        return None;
    }
    let program = content(0, two(head, 2), &mut frames)?;

    let mut data = Vec::new();
    loop {
        let head = frames.next()?;
        // "last line FF": nothing follows it, and one to three data heads stood before it.
        if head == &[LAST] {
            let whole = frames.next().is_none() && !data.is_empty();
            return whole.then_some(ObjectText { program, data });
        }
        // "Data head: 02, number, length, writable from, writable to", numbered in order.
        let number = data.len() + 1;
        if head.len() != 8 || head[0] != DATA_HEAD || head[1] as usize != number || number > MOST_DATA_SEGMENTS {
            return None;
        }
        let (length, from, to) = (two(head, 2), two(head, 4), two(head, 6));
        if !(from <= to && to <= length) {
            return None;
        }
        let bytes = content(number, length, &mut frames)?;
        data.push(DataSegment { bytes, from, to });
    }
}

/// "Content: 00, number, offset (2 bytes), count, bytes; 16 bytes a frame, the last shorter":
/// the frames that hold all `length` bytes of segment `number`.
fn content<'a>(number: usize, length: usize, frames: &mut impl Iterator<Item = &'a Vec<u8>>) -> Option<Vec<u8>> {
    if length > SEGMENT_LIMIT {
        return None;
    }
    let mut bytes = Vec::new();
    while bytes.len() < length {
        let frame = frames.next()?;
        let count = FRAME_BYTES.min(length - bytes.len());
        let right = frame.len() == 5 + count
            && frame[0] == CONTENT
            && frame[1] as usize == number
            && two(frame, 2) == bytes.len()
            && frame[4] as usize == count;
        if !right {
            return None;
        }
        bytes.extend_from_slice(&frame[5..]);
    }
    Some(bytes)
}

/// The two-byte number at `at`, the high byte first.
fn two(frame: &[u8], at: usize) -> usize {
    256 * frame[at] as usize + frame[at + 1] as usize
}

/// "Capital hexadecimal, one frame a line, each ended by byte 10": the bytes of every line.
fn frames(text: &[u8]) -> Option<Vec<Vec<u8>>> {
    let lines = text.strip_suffix(b"\n")?;
    lines.split(|&byte| byte == b'\n').map(frame).collect()
}

fn frame(line: &[u8]) -> Option<Vec<u8>> {
    if line.is_empty() || line.len() % 2 != 0 {
        return None;
    }
    line.chunks(2).map(|pair| Some(16 * digit(pair[0])? + digit(pair[1])?)).collect()
}

fn digit(byte: u8) -> Option<u8> {
    match byte {
        b'0'..=b'9' => Some(byte - b'0'),
        b'A'..=b'F' => Some(byte - b'A' + 10),
        _ => None,
    }
}
