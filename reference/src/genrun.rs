//! Cases for the runner from a seed: programs of listed instructions, translated texts, random bytes as code, damaged
//! object texts.

use crate::assemble::{data, four, text, two};
use crate::gen::right_text;
use crate::layout::next_multiple;
use crate::machine::{origin, step, State};
use crate::objread::{self, DataSegment};
use crate::random::Random;
use crate::runcase::Case;
use crate::runner::{self, STORAGE_NEEDED};
use crate::translate::translate;

/// A 32-bit value, most often one at an edge.
pub fn value(random: &mut Random) -> u32 {
    match random.below(10) {
        0..=4 => *random.of(&EDGES),
        5 => random.of(&EDGES).wrapping_add(*random.of(&[1, 2, 0xFFFF_FFFF, 0xFFFF_FFFE])),
        6 => 1 << random.below(32),
        7 => random.below(200) as u32,
        8 => (random.below(200) as u32).wrapping_neg(),
        _ => random.next() as u32,
    }
}

const EDGES: [u32; 16] = [
    0,
    1,
    2,
    0x7FFF,
    0x8000,
    0xFFFF,
    0x1_0000,
    0x3FFF_FFFF,
    0x4000_0000,
    0x7FFF_FFFE,
    0x7FFF_FFFF,
    0x8000_0000,
    0x8000_0001,
    0xC000_0000,
    0xFFFF_8000,
    0xFFFF_FFFF,
];

/// The two-byte instructions on registers, with the branch; those that read words; those that read half words.
const ON_REGISTERS: [u8; 13] = [0x10, 0x11, 0x13, 0x14, 0x16, 0x17, 0x18, 0x19, 0x1A, 0x1B, 0x1C, 0x1E, 0x1F];
const ON_WORDS: [u8; 10] = [0x54, 0x56, 0x57, 0x58, 0x59, 0x5A, 0x5B, 0x5C, 0x5E, 0x5F];
const ON_HALVES: [u8; 5] = [0x48, 0x49, 0x4A, 0x4B, 0x4C];
const SHIFTS: [u8; 4] = [0x88, 0x89, 0x8A, 0x8B];
const WORD_STORE: u8 = 0x50;
const HALF_STORE: u8 = 0x40;
const BRANCH: u8 = 0x47;
const CALL: u8 = 0x45;
const RETURN: u8 = 0x07;
const END: [u8; 2] = [0x0A, 0x00];

/// All that are listed, for random code: document 01's, then those of document 02, 1/13.
const LISTED: [u8; 44] = [
    0x07, 0x0A, 0x10, 0x11, 0x13, 0x14, 0x16, 0x17, 0x18, 0x19, 0x1A, 0x1B, 0x1C, 0x1E, 0x1F, 0x40, 0x45, 0x47, 0x48,
    0x49, 0x4A, 0x4B, 0x4C, 0x50, 0x54, 0x56, 0x57, 0x58, 0x59, 0x5A, 0x5B, 0x5C, 0x5E, 0x5F, 0x88, 0x89, 0x8A, 0x8B,
    0x12, 0x41, 0x42, 0x43, 0x92, 0x95,
];

/// Registers 0 to 5 are worked with, 6 and 7 steer loops and calls, 8 to 11 are indexes, 12 and 13 the bases of segments 2 and 3.
const ONE: u8 = 6;
const COUNTER: u8 = 7;
const LINK: u8 = 7;

/// An endless row of cases, the same for the same seed.
pub fn cases(seed: u64) -> impl Iterator<Item = Case> {
    (0..).map(move |number| case(&mut Random::new(seed, number)))
}

fn case(random: &mut Random) -> Case {
    let mut object = if random.chance(1, 10) { translated(random) } else { made(random) };
    if random.chance(1, 6) {
        object = damaged(random, object);
    }
    Case {
        object,
        budget: budget(random),
        cc: code(random),
        storage_length: storage_length(random),
        regs: registers(random),
    }
}

/// The object text of an accepted source text.
fn translated(random: &mut Random) -> Vec<u8> {
    let answer = translate(&right_text(random), None);
    assert_eq!(answer.number, 0, "right texts are accepted");
    answer.object
}

fn made(random: &mut Random) -> Vec<u8> {
    let segments = segments(random);
    let program = match random.below(22) {
        20..=21 => tabled(random, &segments),
        0..=7 => straight(random, &segments),
        8..=13 => looping(random, &segments),
        14..=16 => calling(random, &segments),
        17 => listed_bytes(random),
        18 => (0..random.range(0, 60)).map(|_| random.next() as u8).collect(),
        _ => random.of(&[&[][..], &[0x0A], &[0x18], &END, &[0x58, 0x10, 0xE0]]).to_vec(),
    };
    text(&program, &segments)
}

fn budget(random: &mut Random) -> u32 {
    match random.below(40) {
        0 => 0,
        1 | 2 => 1,
        3..=9 => random.range(2, 12) as u32,
        10..=37 => random.range(13, 400) as u32,
        38 => random.range(401, 2000) as u32,
        _ => random.range(2001, 9000) as u32,
    }
}

fn code(random: &mut Random) -> u64 {
    match random.below(20) {
        0 => *random.of(&[4, 5, 7, 255, 256, 259, 1 << 32, u64::MAX]),
        _ => random.below(4) as u64,
    }
}

fn storage_length(random: &mut Random) -> usize {
    match random.below(20) {
        0 => *random.of(&[0, 1, 4096, 16384, STORAGE_NEEDED - 2, STORAGE_NEEDED - 1]),
        1 => STORAGE_NEEDED + 1,
        2 => STORAGE_NEEDED + random.range(2, 5000),
        _ => STORAGE_NEEDED,
    }
}

fn registers(random: &mut Random) -> [u32; 16] {
    let mut regs = [0; 16];
    for register in &mut regs[..8] {
        *register = value(random);
    }
    for index in &mut regs[8..12] {
        *index = index_value(random);
    }
    for k in [2, 3] {
        let high_byte = if random.chance(1, 4) { (random.next() as u32) << 24 } else { 0 };
        regs[10 + k] = if random.chance(1, 12) { value(random) } else { origin(k) | high_byte };
    }
    regs[14] = value(random);
    regs[15] = value(random);
    regs
}

/// Most often a small multiple of 4, else misaligned, negative, with high bytes, or far away.
fn index_value(random: &mut Random) -> u32 {
    let near = 4 * random.below(6) as u32;
    match random.below(16) {
        0..=5 => 0,
        6..=9 => near,
        10 => near.wrapping_neg(),
        11 => near | 0x0100_0000 | (random.next() as u32) << 25,
        12 => near + 2,
        13 => random.range(1, 9) as u32,
        14 => *random.of(&[4096, 8192, 0x00FF_F000, 0xFFFF_F000, 0x00FF_FFFC]),
        _ => value(random),
    }
}

fn segments(random: &mut Random) -> Vec<DataSegment> {
    let count = *random.of(&[1, 1, 2, 2, 3]);
    (1..=count).map(|k| segment(random, k)).collect()
}

fn segment(random: &mut Random, k: usize) -> DataSegment {
    let length = match random.below(24) {
        0 | 1 => random.range(0, 19),
        2 => random.range(17, 80),
        3 if random.chance(1, 6) => *random.of(&[4088, 4094, 4095, 4096]),
        _ => *random.of(&[20, 24, 28, 32, 40, 48, 64]),
    };
    let mut bytes = Vec::new();
    while bytes.len() < length {
        bytes.extend(value(random).to_be_bytes());
    }
    bytes.truncate(length);
    let start = if k == 1 { 16.min(length) } else { 0 };
    let (from, to) = match random.below(8) {
        0..=4 => (start, length),
        5 => (start, start + (length - start) / 2),
        6 => (length, length),
        _ => {
            let from = random.range(0, length);
            (from, random.range(from, length))
        }
    };
    data(bytes, from, to)
}

/// A row of instructions and, mostly, the end.
fn straight(random: &mut Random, segments: &[DataSegment]) -> Vec<u8> {
    let count = random.range(1, 24);
    let mut program: Vec<Vec<u8>> = (0..count).map(|_| plain(random, segments)).collect();
    finish(random, &mut program);
    if random.chance(1, 2) {
        for _ in 0..random.range(1, 3) {
            branch_somewhere(random, &mut program);
        }
    }
    program.concat()
}

/// A loop over a body that counts register 7 down by register 6, which a link gives the value 1; sometimes it never ends.
fn looping(random: &mut Random, segments: &[DataSegment]) -> Vec<u8> {
    let mut program = vec![four(CALL, ONE, 0, 15, 4), four(0x88, ONE, 0, 0, 31), two(0x1B, COUNTER, COUNTER)];
    for _ in 0..random.range(1, 9) {
        program.push(two(0x1A, COUNTER, ONE));
    }
    let top = size(&program);
    for _ in 0..random.range(1, 10) {
        program.push(plain(random, segments));
    }
    let (count, again) =
        *random.of(&[(0x1B, 2), (0x1B, 3), (0x1B, 7), (0x1F, 1), (0x1F, 1), (0x1B, 15), (0x1A, 2), (0x1E, 5)]);
    program.push(two(count, COUNTER, ONE));
    program.push(four(BRANCH, again, 0, 15, top));
    finish(random, &mut program);
    program.concat()
}

/// Calls of a procedure that returns, with the branch around it.
fn calling(random: &mut Random, segments: &[DataSegment]) -> Vec<u8> {
    let mut body: Vec<Vec<u8>> = (0..random.range(0, 6)).map(|_| plain(random, segments)).collect();
    let mask = if random.chance(1, 8) { random.below(16) as u8 } else { 15 };
    body.push(two(RETURN, mask, if random.chance(1, 12) { random.below(16) as u8 } else { LINK }));
    let mut program = vec![four(BRANCH, 15, 0, 15, 4 + size(&body))];
    program.extend(body);
    for _ in 0..random.range(1, 5) {
        program.push(four(CALL, LINK, 0, 15, 4));
        if random.chance(1, 2) {
            program.push(plain(random, segments));
        }
    }
    finish(random, &mut program);
    program.concat()
}

/// A branch by an index into a table of branches, as a CASE becomes, behind its tests or without them.
fn tabled(random: &mut Random, segments: &[DataSegment]) -> Vec<u8> {
    let register = random.range(8, 11) as u8;
    let list: Vec<Vec<Vec<u8>>> =
        (0..random.range(0, 5)).map(|_| (0..random.below(3)).map(|_| plain(random, segments)).collect()).collect();
    let by_number = random.chance(1, 2);
    let before: u16 = if by_number { 18 } else { 4 };
    let mut starts = vec![before + 4 * list.len() as u16];
    for statement in &list {
        starts.push(starts[starts.len() - 1] + size(statement) + 4);
    }
    let end = starts[list.len()];
    let mut program = Vec::new();
    if by_number {
        // Most indexes are multiples of 4: a quarter of one is a number.
        program.push(four(0x88, register, 0, 0, 2));
        program.push(two(0x12, register, register));
        program.push(four(BRANCH, *random.of(&[12, 12, 12, 4, 10, 8]), 0, 15, end));
        program.push(four(0x89, register, 0, 0, 2));
    }
    let displacement = if random.chance(1, 6) { before } else { before - 4 };
    program.push(match random.below(8) {
        0 => four(BRANCH, 15, 15, register, displacement),
        1 => four(CALL, LINK, register, 15, displacement),
        _ => four(BRANCH, 15, register, 15, displacement),
    });
    program.extend(starts[..list.len()].iter().map(|&start| four(BRANCH, 15, 0, 15, start)));
    for statement in list {
        program.extend(statement);
        program.push(four(BRANCH, 15, 0, 15, end));
    }
    finish(random, &mut program);
    program.concat()
}

fn size(program: &[Vec<u8>]) -> u16 {
    program.iter().map(|instruction| instruction.len() as u16).sum()
}

/// The end; sometimes missing or not listed.
fn finish(random: &mut Random, program: &mut Vec<Vec<u8>>) {
    match random.below(12) {
        0 => {}
        1 => program.push(vec![0x0A, random.next() as u8]),
        _ => program.push(END.to_vec()),
    }
}

/// One instruction replaced by a branch or call to the start of some other, at times to the middle or outside.
fn branch_somewhere(random: &mut Random, program: &mut [Vec<u8>]) {
    let i = random.below(program.len());
    if program[i].len() != 4 {
        return;
    }
    let forward = random.chance(2, 3);
    let to = if forward { random.range(i, program.len() - 1) } else { random.below(program.len()) };
    let target = match random.below(12) {
        0 => random.below(4096) as u16,
        1 => size(&program[..to]) + 1,
        _ => size(&program[..to]),
    };
    let index = if random.chance(1, 6) { random.range(8, 11) as u8 } else { 0 };
    program[i] = match random.below(5) {
        0 => four(CALL, random.below(8) as u8, index, 15, target),
        _ => four(BRANCH, random.below(16) as u8, index, 15, target),
    };
}

/// Any instruction but a branch that is taken, its operand most often legal.
fn plain(random: &mut Random, segments: &[DataSegment]) -> Vec<u8> {
    if random.chance(1, 4) {
        return on_bytes(random, segments);
    }
    match random.below(24) {
        0..=7 => on_registers(random),
        8..=12 => {
            let op = *random.of(&ON_WORDS);
            in_storage(random, segments, op, 4, false)
        }
        13..=16 => {
            let op = *random.of(&ON_HALVES);
            in_storage(random, segments, op, 2, false)
        }
        17 | 18 => in_storage(random, segments, WORD_STORE, 4, true),
        19 => in_storage(random, segments, HALF_STORE, 2, true),
        20..=22 => shift(random),
        _ => match random.below(4) {
            0 => two(RETURN, random.below(16) as u8, 0),
            1 => two(RETURN, 0, random.below(16) as u8),
            2 => four(BRANCH, 0, random.below(16) as u8, random.below(16) as u8, random.below(4096) as u16),
            _ if random.chance(1, 4) => listed_bytes(random),
            _ => two(0x18, random.below(8) as u8, random.below(16) as u8),
        },
    }
}

/// A register to be worked with, seldom one of those that hold indexes, bases or the return.
fn target(random: &mut Random, op: u8) -> u8 {
    let register = if random.chance(1, 30) { random.below(16) } else { random.below(6) } as u8;
    let product = op == 0x1C || op == 0x5C;
    if product && !random.chance(1, 20) {
        register & 14
    } else {
        register
    }
}

/// One of document 02, 1/13.
fn on_bytes(random: &mut Random, segments: &[DataSegment]) -> Vec<u8> {
    let op = *random.of(&[0x12, 0x41, 0x42, 0x43, 0x92, 0x95]);
    match op {
        0x12 => two(op, target(random, op), random.below(16) as u8),
        0x41 if random.chance(1, 2) => {
            let displacement = if random.chance(1, 2) { random.below(4096) } else { *random.of(&[0, 1, 4095]) };
            four(op, target(random, op), random.below(16) as u8, random.below(16) as u8, displacement as u16)
        }
        0x41 | 0x43 => in_storage(random, segments, op, 1, false),
        0x42 => in_storage(random, segments, op, 1, true),
        _ => {
            let mut instruction = in_storage(random, segments, op, 1, op == 0x92);
            // No index: the base is where it stands, even if it changed places.
            if instruction[2] < 0x10 && !random.chance(1, 12) {
                instruction[2] += 16 * (instruction[1] % 16);
            }
            let offset = usize::from(instruction[2] % 16) * 256 + usize::from(instruction[3]);
            let there = segments[0].bytes.get(offset).copied().unwrap_or(0);
            let near = there.wrapping_add(*random.of(&[0, 0, 1, 255, 128]));
            instruction[1] = if random.chance(1, 2) { near } else { *random.of(&[0, 1, 0x7F, 0x80, 0xFE, 0xFF]) };
            instruction
        }
    }
}

fn on_registers(random: &mut Random) -> Vec<u8> {
    let op = *random.of(&ON_REGISTERS);
    two(op, target(random, op), random.below(16) as u8)
}

fn shift(random: &mut Random) -> Vec<u8> {
    let op = *random.of(&SHIFTS);
    let by_register = random.chance(1, 3);
    let base = if by_register { random.below(16) as u8 } else { 0 };
    let amount = match random.below(8) {
        0 => random.below(64),
        1 => random.below(4096),
        _ => *random.of(&[0, 1, 2, 15, 16, 30, 31, 32, 33, 62, 63, 64, 95, 4095]),
    };
    let ignored = if random.chance(1, 4) { random.below(16) as u8 } else { 0 };
    four(op, target(random, op), ignored, base, amount as u16)
}

/// Operand `size` bytes long in some segment: most often inside, else at or just past an edge or misaligned.
fn in_storage(random: &mut Random, segments: &[DataSegment], op: u8, size: usize, store: bool) -> Vec<u8> {
    let k = random.range(1, segments.len());
    let segment = &segments[k - 1];
    let (low, high) = if store { (segment.from, segment.to) } else { (0, segment.bytes.len()) };
    let first = next_multiple(low, size);
    let last = (high / size * size).saturating_sub(size);
    let offset = match random.below(40) {
        0 => first.saturating_sub(size),
        1 => last + size,
        2 => random.below(4096),
        3 => random.range(first, last.max(first)) + 1,
        4..=8 => last,
        9..=13 => first,
        _ => random.range(first, last.max(first)) / size * size,
    };
    let base = [14, 12, 13][k - 1];
    let index = match random.below(8) {
        0 => random.range(8, 11) as u8,
        1 if random.chance(1, 8) => random.below(16) as u8,
        _ => 0,
    };
    // Base and index may change places.
    let (index, base) = if index == 0 && random.chance(1, 8) { (base, 0) } else { (index, base) };
    four(op, target(random, op), index, base, offset.min(4095) as u16)
}

/// Listed opcodes with any bytes behind them.
fn listed_bytes(random: &mut Random) -> Vec<u8> {
    let mut bytes = Vec::new();
    for _ in 0..random.range(1, 12) {
        let op = *random.of(&LISTED);
        let length = if op < 0x40 { 2 } else { 4 };
        bytes.push(op);
        bytes.extend((1..length).map(|_| random.next() as u8));
    }
    bytes
}

/// One slip in an object text; a few of them leave it of the form.
fn damaged(random: &mut Random, object: Vec<u8>) -> Vec<u8> {
    match random.below(4) {
        0 => damaged_bytes(random, object),
        1 | 2 => damaged_lines(random, object),
        _ => damaged_end(random, object),
    }
}

fn damaged_bytes(random: &mut Random, mut object: Vec<u8>) -> Vec<u8> {
    let place = random.below(object.len());
    match random.below(6) {
        0 => object[place] = random.next() as u8,
        1 => object[place] = *random.of(b"0123456789ABCDEF"),
        2 => object[place] = *random.of(b"gG/:@`af \t\r\n\0"),
        3 => {
            object.remove(place);
        }
        4 => object.insert(place, *random.of(b"0F\n a")),
        _ => {
            let other = random.below(object.len());
            object.swap(place, other);
        }
    }
    object
}

/// Whole lines left out, doubled, exchanged, or a head with other numbers.
fn damaged_lines(random: &mut Random, object: Vec<u8>) -> Vec<u8> {
    let mut lines: Vec<Vec<u8>> = object.split(|&byte| byte == b'\n').map(<[u8]>::to_vec).collect();
    lines.pop();
    let i = random.below(lines.len());
    let j = random.below(lines.len());
    match random.below(8) {
        0 => {
            lines.remove(i);
        }
        1 => lines.insert(i, lines[j].clone()),
        2 => lines.swap(i, j),
        3 => lines[i].make_ascii_lowercase(),
        4 => lines[i].push(*random.of(b"0 \r")),
        _ => {
            // Fields of heads: kind, number, length, from, to; of content: number, offset, count.
            let heads: Vec<usize> =
                (0..lines.len()).filter(|&n| lines[n].starts_with(b"01") || lines[n].starts_with(b"02")).collect();
            let i = if random.chance(2, 3) { *random.of(&heads) } else { i };
            let field = 2 * random.below(8.min(lines[i].len() / 2).max(1));
            let digits = *random.of(&[b"00", b"01", b"02", b"03", b"04", b"0F", b"10", b"11", b"FF"]);
            if field + 2 <= lines[i].len() {
                lines[i][field..field + 2].copy_from_slice(digits);
            }
        }
    }
    let mut object = lines.join(&b'\n');
    object.push(b'\n');
    object
}

/// The end missing, doubled or followed by more; other line ends; the whole in small letters; a cut; too long; too many.
fn damaged_end(random: &mut Random, mut object: Vec<u8>) -> Vec<u8> {
    match random.below(10) {
        0 => object.truncate(object.len() - 1),
        1 => object.truncate(object.len() - 3),
        2 => object.extend(*random.of(&[&b"FF\n"[..], b"\n", b" ", b"0", b"0204000000000000\nFF\n"])),
        3 => {
            object =
                String::from_utf8_lossy(&object).replace('\n', *random.of(&["\r\n", "\n\n", " \n", "\r"])).into_bytes()
        }
        4 => object.make_ascii_lowercase(),
        5 => object.truncate(random.below(object.len())),
        6 => object = text(&vec![0x07; 4097], &[data(vec![0; 16], 16, 16)]),
        7 => object = text(&END, &[data(vec![0; random.range(4097, 4100)], 16, 16)]),
        8 => object = text(&END, &vec![data(vec![1; 4], 0, 4); *random.of(&[0, 4])]),
        _ => {
            let (from, to) = *random.of(&[(17, 16), (0, 21), (21, 21), (20, 0), (65535, 65535)]);
            object = text(&END, &[data(vec![0; 20], from, to)]);
        }
    }
    object
}

/// How often each refusal and stop comes, how many instructions complete, and which with which code after.
pub fn histogram(seed: u64, count: u64) -> String {
    let mut refusals = [0u64; 20];
    let mut stops = [0u64; 5];
    let mut completed = 0u64;
    let mut opcodes = [[0u64; 4]; 256];
    let mut bytes = 0;
    for case in cases(seed).take(count as usize) {
        let (answer, _) = case.run();
        refusals[answer.number as usize] += 1;
        bytes += case.object.len();
        if answer.number == 0 {
            stops[answer.stop as usize] += 1;
            completed += answer.count as u64;
            count_opcodes(&case, answer.count, &mut opcodes);
        }
    }
    let mut text =
        format!("{count} cases from seed {seed}: {bytes} bytes of object text, {completed} instructions completed\n");
    for number in [0, 17, 18, 19] {
        text += &format!("number {number}: {}\n", refusals[number]);
    }
    for (stop, times) in stops.iter().enumerate() {
        text += &format!("stop {stop}: {times}\n");
    }
    for (opcode, codes) in opcodes.iter().enumerate().filter(|(_, codes)| codes.iter().sum::<u64>() > 0) {
        text +=
            &format!("opcode {opcode:02X}, code after 0 to 3: {} {} {} {}\n", codes[0], codes[1], codes[2], codes[3]);
    }
    text
}

/// The same run again, one step at a time.
fn count_opcodes(case: &Case, count: u32, opcodes: &mut [[u64; 4]; 256]) {
    let object = objread::read(&case.object).expect("a run that was not refused");
    let mut storage = vec![0; STORAGE_NEEDED];
    runner::load(&object, &mut storage);
    let map = runner::map(&object);
    let mut regs = case.regs;
    (regs[14], regs[15]) = (origin(1), origin(0));
    let mut state = State { regs: &mut regs, cc: case.cc as u32, counter: origin(0) };
    for _ in 0..count {
        let opcode = storage[state.counter as usize];
        step(&mut state, &map, &mut storage).expect("a completed instruction");
        opcodes[opcode as usize][state.cc as usize] += 1;
    }
}
