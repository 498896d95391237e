//! Single instructions for the emulator Hercules in System/370 mode, and the comparison with its answers.
//!
//! A core image holds a small driver, a record for each instruction, and branches that catch every target. The driver
//! copies a record's program to 4096 and its cells to 8192 and 12288, as loading does, sets code and registers, goes to
//! 4096 through register 15, and writes what came of it into the record.

use crate::assemble::{data, four, text, two};
use crate::genrun::value;
use crate::machine::origin;
use crate::objread;
use crate::random::Random;
use crate::runcase::{answer_line, Case, STORAGE_BEFORE};
use crate::runner::{self, RunAnswer, STORAGE_NEEDED};
use crate::spot::Spot;
use std::io::{self, Write};
use std::path::Path;

const SEED: u64 = 370;
/// How often each instruction of the list is tried, in turn; then come the end and products with an odd field.
const EACH: usize = 510;
const ENDS: usize = 50;
const ODD_PRODUCTS: usize = 450;
/// How many of each are stored for others to be held against.
const STORED_EACH: usize = 100;

/// How many are stored in all.
pub fn stored() -> usize {
    STORED_EACH * OPCODES.len()
}

/// The listed opcodes that complete, all but the end: document 01's, then those of document 02, 1/13.
const OPCODES: [u8; 43] = [
    0x07, 0x10, 0x11, 0x13, 0x14, 0x16, 0x17, 0x18, 0x19, 0x1A, 0x1B, 0x1C, 0x1E, 0x1F, 0x40, 0x45, 0x47, 0x48, 0x49,
    0x4A, 0x4B, 0x4C, 0x50, 0x54, 0x56, 0x57, 0x58, 0x59, 0x5A, 0x5B, 0x5C, 0x5E, 0x5F, 0x88, 0x89, 0x8A, 0x8B, 0x12,
    0x41, 0x42, 0x43, 0x92, 0x95,
];

const CORE: usize = 1 << 24;
const PROGRAM_ROOM: usize = 64;
const CELLS_1: usize = 32;
const CELLS_2: usize = 8;

/// Where branches may go: every one of these holds a branch to its stub.
const TARGETS: [u32; 20] = [
    0x000C00, 0x000D02, 0x000FFC, 0x001080, 0x0014AE, 0x001FF8, 0x002400, 0x0027FE, 0x003800, 0x004000, 0x005000,
    0x007FFE, 0x00FFFE, 0x01FFF0, 0x800000, 0xABCDEE, 0xF00000, 0xFFF000, 0xFFFFF8, 0xFFFFFC,
];

// The first page: stubs, areas and numbers that base 0 reaches.
const DRIVER: u16 = 0x200;
const STUBS: u16 = 0x400;
const REGISTERS_IN: u16 = 0x800;
const REGISTERS_OUT: u16 = 0x840;
const LINK_OUT: u16 = 0x880;
const MARK: u16 = 0x884;
const CURRENT: u16 = 0x888;
const AFTER_LAST: u16 = 0x88C;
const RECORD_SIZE: u16 = 0x890;
const ORIGIN_0: u16 = 0x894;
const ORIGIN_1: u16 = 0x898;
const ORIGIN_2: u16 = 0x89C;
const WAIT: u16 = 0x8A0;
const SVC_OLD: u16 = 0x20;
const PROGRAM_OLD: u16 = 0x28;

/// What the stub reached says.
const FELL_THROUGH: u8 = 0;
const SUPERVISOR_CALL: u8 = 1;
const PROGRAM_CHECK: u8 = 2;
const FIRST_TARGET: u8 = 3;
/// IBM's number of the specification exception: an odd register field of a product.
const SPECIFICATION: u32 = 6;

// A record: what goes in, what comes out.
const RECORDS: usize = 0x20000;
const IN_REGISTERS: usize = 0;
const IN_CODE: usize = 64;
const IN_PROGRAM: usize = 68;
const IN_1: usize = IN_PROGRAM + PROGRAM_ROOM;
const IN_2: usize = IN_1 + CELLS_1;
const OUT_REGISTERS: usize = IN_2 + CELLS_2;
const OUT_LINK: usize = OUT_REGISTERS + 64;
const OUT_MARK: usize = OUT_LINK + 4;
const OUT_1: usize = OUT_MARK + 4;
const OUT_2: usize = OUT_1 + CELLS_1;
const OUT_SVC: usize = OUT_2 + CELLS_2;
const OUT_PROGRAM: usize = OUT_SVC + 8;
const RECORD: usize = OUT_PROGRAM + 8;

/// An instruction behind some that do nothing, in the state that it meets.
struct Trial {
    before: usize,
    instruction: Vec<u8>,
    case: Case,
}

/// The same trials at every call.
fn trials() -> Vec<Trial> {
    let mut random = Random::new(SEED, 0);
    let listed = (0..EACH * OPCODES.len()).map(|i| OPCODES[i % OPCODES.len()]);
    let products = (0..ODD_PRODUCTS).map(|i| [0x1C, 0x5C][i % 2]);
    let mut all: Vec<Trial> = listed.map(|op| trial(&mut random, op, false)).collect();
    all.extend((0..ENDS).map(|_| trial(&mut random, 0x0A, false)));
    all.extend(products.map(|op| trial(&mut random, op, true)));
    all
}

fn trial(random: &mut Random, op: u8, odd: bool) -> Trial {
    let mut regs: [u32; 16] = std::array::from_fn(|_| value(random));
    (regs[14], regs[15]) = (origin(1), origin(0));
    let mut cells = Vec::new();
    while cells.len() < CELLS_1 + CELLS_2 {
        cells.extend(value(random).to_be_bytes());
    }
    let mut r1 = random.below(16) as u8;
    if op == 0x1C || op == 0x5C {
        r1 = (r1 & 14) + odd as u8;
    }
    let instruction = match op {
        0x0A => two(op, 0, 0),
        0x07 => branch_by_register(random, &mut regs),
        0x00..=0x3F => {
            let r2 = random.below(16);
            let instruction = two(op, r1, r2 as u8);
            match related(random, &mut regs, &instruction) {
                Some(value) if r2 < 14 => regs[r2] = value,
                _ => {}
            }
            instruction
        }
        0x45 | 0x47 => {
            let target = *random.of(&TARGETS);
            addressed(random, &mut regs, op, r1, target)
        }
        0x88..=0x8B => shift(random, op, r1),
        0x41 => {
            let address = match random.below(3) {
                0 => *random.of(&[0, 1, 4095, 4096, 0x7F_FFFF, 0x80_0000, 0xFF_FFFE, 0xFF_FFFF]),
                1 => origin(1) + random.below(CELLS_1) as u32,
                _ => random.next() as u32 & 0xFF_FFFF,
            };
            addressed(random, &mut regs, op, r1, address)
        }
        0x92 | 0x95 => {
            let at = random.below(CELLS_1 + CELLS_2);
            let address = if at < CELLS_1 { origin(1) + at as u32 } else { origin(2) + (at - CELLS_1) as u32 };
            let mut instruction = without_index(random, &mut regs, op, address);
            // Loading writes the table's words over the first twelve bytes of the cells.
            if at >= 12 && random.chance(1, 2) {
                cells[at] = *random.of(&[0, 1, 0x7F, 0x80, 0xFE, 0xFF]);
            }
            let near = cells[at].wrapping_add(*random.of(&[0, 0, 0, 1, 0xFF, 0x80, 0x7F]));
            instruction[1] = if random.chance(2, 3) { near } else { random.next() as u8 };
            instruction
        }
        _ => {
            let size = match op {
                0x42 | 0x43 => 1,
                0x00..=0x4F => 2,
                _ => 4,
            };
            let at = random.below((CELLS_1 + CELLS_2) / size) * size;
            let address = if at < CELLS_1 { origin(1) + at as u32 } else { origin(2) + (at - CELLS_1) as u32 };
            let instruction = addressed(random, &mut regs, op, r1, address);
            if let Some(value) = related(random, &mut regs, &instruction) {
                cells[at..at + size].copy_from_slice(&value.to_be_bytes()[4 - size..]);
            }
            instruction
        }
    };
    let before = if op == 0x45 { random.below(20) } else { *random.of(&[0, 0, 0, 1, 5]) };
    let program = [two(0x07, 0, 0).repeat(before), instruction.clone()].concat();
    let segments = [data(cells[..CELLS_1].to_vec(), 0, CELLS_1), data(cells[CELLS_1..].to_vec(), 0, CELLS_2)];
    let case = Case {
        object: text(&program, &segments),
        budget: before as u32 + 1,
        cc: random.below(4) as u64,
        storage_length: STORAGE_NEEDED,
        regs,
    };
    Trial { before, instruction, case }
}

/// Now and then a second operand that is the first, its complement in ones or twos, or zero beside zero:
/// results that two random operands seldom have.
fn related(random: &mut Random, regs: &mut [u32; 16], instruction: &[u8]) -> Option<u32> {
    if !random.chance(1, 3) {
        return None;
    }
    let r1 = (instruction[1] / 16) as usize;
    let addressing =
        instruction.len() == 4 && (instruction[1] as usize % 16 == r1 || instruction[2] as usize / 16 == r1);
    if r1 < 14 && !addressing && random.chance(1, 3) {
        regs[r1] = 0;
    }
    let first = regs[r1];
    Some(*random.of(&[first, first.wrapping_neg(), first.wrapping_neg(), !first]))
}

fn branch_by_register(random: &mut Random, regs: &mut [u32; 16]) -> Vec<u8> {
    let register = *random.of(&[0, 0, 1, 2, 3, 4, 5, 6, 7, 8, 9, 10, 11, 12, 13]);
    regs[register] = *random.of(&TARGETS) | (random.next() as u32) << 24;
    two(0x07, random.below(16) as u8, register as u8)
}

fn shift(random: &mut Random, op: u8, r1: u8) -> Vec<u8> {
    let amount = match random.below(4) {
        0 => random.below(4096),
        1 => random.below(64),
        _ => *random.of(&[0, 1, 2, 15, 16, 30, 31, 32, 33, 62, 63, 64]),
    };
    let base = if random.chance(1, 3) { random.below(16) as u8 } else { 0 };
    four(op, r1, random.below(16) as u8, base, amount as u16)
}

/// The instruction with some index, base and displacement that give the address, one of the registers made to fit.
fn addressed(random: &mut Random, regs: &mut [u32; 16], op: u8, r1: u8, address: u32) -> Vec<u8> {
    loop {
        let (index, base) = (random.below(16), random.below(16));
        let displacement =
            if random.chance(1, 2) { random.below(4096) } else { *random.of(&[0, 1, 2, 4, 2048, 4094, 4095]) };
        let free = |register: usize| (1..14).contains(&register);
        let value = |register: usize| if register == 0 { 0 } else { regs[register] };
        let high_byte = (random.next() as u32) << 24;
        let rest = address.wrapping_sub(displacement as u32);
        if free(base) && base == index {
            if rest % 2 != 0 {
                continue;
            }
            regs[base] = rest / 2 + (high_byte & 0x8000_0000);
        } else if free(base) {
            regs[base] = rest.wrapping_sub(value(index)).wrapping_add(high_byte);
        } else if free(index) {
            regs[index] = rest.wrapping_sub(value(base)).wrapping_add(high_byte);
        } else if value(base).wrapping_add(value(index)) & 0xFF_FFFF != rest & 0xFF_FFFF {
            continue;
        }
        return four(op, r1, index as u8, base as u8, displacement as u16);
    }
}

/// The instruction with some base and displacement that give the address; its second byte is still to be set.
fn without_index(random: &mut Random, regs: &mut [u32; 16], op: u8, address: u32) -> Vec<u8> {
    let displacement = if random.chance(1, 2) { random.below(4096) } else { *random.of(&[0, 1, 2, 2047, 4094, 4095]) };
    let base = if random.chance(1, 4) { 14 } else { random.range(1, 13) };
    if base < 14 {
        regs[base] = address.wrapping_sub(displacement as u32).wrapping_add((random.next() as u32) << 24);
        return four(op, 0, 0, base as u8, displacement as u16);
    }
    // Segment 2 lies past what register 14 reaches: register 13 takes its place there.
    match address.checked_sub(regs[14]) {
        Some(offset) if offset < 4096 => four(op, 0, 0, 14, offset as u16),
        _ => {
            regs[13] = address;
            four(op, 0, 0, 13, 0)
        }
    }
}

/// Writes the core image for `loadcore`.
pub fn write_image(path: &str) -> io::Result<String> {
    let trials = trials();
    let mut core = vec![0; CORE];
    let mut put = |at: usize, bytes: &[u8]| core[at..at + bytes.len()].copy_from_slice(bytes);

    // New program status words, all interruptions masked: restart, supervisor call, program check; the wait at the end.
    put(0x00, &psw(DRIVER));
    put(0x60, &psw(stub(SUPERVISOR_CALL)));
    put(0x68, &psw(stub(PROGRAM_CHECK)));
    put(WAIT as usize, &[0, 2, 0, 0, 0, 0, 0, 0]);

    let (driver, common) = driver();
    put(DRIVER as usize, &driver);
    let stubs = FIRST_TARGET + TARGETS.len() as u8;
    for mark in 0..stubs {
        let note = four(0x92, mark / 16, mark % 16, 0, MARK);
        put(stub(mark) as usize, &[note, four(0x47, 15, 0, 0, common)].concat());
    }
    for (i, &target) in TARGETS.iter().enumerate() {
        put(target as usize, &four(0x47, 15, 0, 0, stub(FIRST_TARGET + i as u8)));
    }

    let after_last = RECORDS + RECORD * trials.len();
    assert!(after_last <= 0x800000, "records end before the next target");
    let numbers = [RECORDS as u32, after_last as u32, RECORD as u32, origin(0), origin(1), origin(2)];
    for (at, number) in [CURRENT, AFTER_LAST, RECORD_SIZE, ORIGIN_0, ORIGIN_1, ORIGIN_2].into_iter().zip(numbers) {
        put(at as usize, &number.to_be_bytes());
    }
    for (i, trial) in trials.iter().enumerate() {
        put(RECORDS + RECORD * i, &record(trial));
    }
    std::fs::write(path, core)?;
    Ok(format!("{} instructions in {path}\n", trials.len()))
}

/// A program status word of basic control mode with everything masked and this address.
fn psw(address: u16) -> [u8; 8] {
    [0, 0, 0, 0, 0, 0, (address / 256) as u8, (address % 256) as u8]
}

fn stub(mark: u8) -> u16 {
    STUBS + 8 * mark as u16
}

/// MVC: `length` bytes from one base and displacement to another.
fn move_bytes(length: usize, to: (u8, usize), from: (u8, usize)) -> Vec<u8> {
    let field =
        |(base, displacement): (u8, usize)| [16 * base + (displacement / 256) as u8, (displacement % 256) as u8];
    [&[0xD2, length as u8 - 1][..], &field(to), &field(from)].concat()
}

/// The driver's code and the address of the part that the stubs go to.
fn driver() -> (Vec<u8>, u16) {
    let load = |register: u8, at: u16| four(0x58, register, 0, 0, at);
    let mut before = [
        load(10, CURRENT),
        four(0x59, 10, 0, 0, AFTER_LAST),
        vec![], // the branch to the end, below
        load(11, ORIGIN_0),
        move_bytes(PROGRAM_ROOM, (11, 0), (10, IN_PROGRAM)),
        load(11, ORIGIN_1),
        move_bytes(CELLS_1, (11, 0), (10, IN_1)),
        load(11, ORIGIN_2),
        move_bytes(CELLS_2, (11, 0), (10, IN_2)),
        move_bytes(64, (0, REGISTERS_IN as usize), (10, IN_REGISTERS)),
        four(0x58, 1, 0, 10, IN_CODE as u16),
        two(0x04, 1, 0),                    // SPM: condition code, program mask zero
        four(0x98, 0, 15, 0, REGISTERS_IN), // LM
        two(0x07, 15, 15),                  // to 4096
    ];
    let after = [
        four(0x90, 0, 15, 0, REGISTERS_OUT), // STM
        two(0x05, 1, 0),                     // BALR: the link with the condition code
        four(0x50, 1, 0, 0, LINK_OUT),
        load(10, CURRENT),
        move_bytes(64, (10, OUT_REGISTERS), (0, REGISTERS_OUT as usize)),
        move_bytes(4, (10, OUT_LINK), (0, LINK_OUT as usize)),
        move_bytes(1, (10, OUT_MARK), (0, MARK as usize)),
        load(11, ORIGIN_1),
        move_bytes(CELLS_1, (10, OUT_1), (11, 0)),
        load(11, ORIGIN_2),
        move_bytes(CELLS_2, (10, OUT_2), (11, 0)),
        move_bytes(8, (10, OUT_SVC), (0, SVC_OLD as usize)),
        move_bytes(8, (10, OUT_PROGRAM), (0, PROGRAM_OLD as usize)),
        four(0x5A, 10, 0, 0, RECORD_SIZE),
        four(0x50, 10, 0, 0, CURRENT),
        four(0x47, 15, 0, 0, DRIVER),
        four(0x82, 0, 0, 0, WAIT), // LPSW
    ];
    let common = DRIVER + before.concat().len() as u16 + 4;
    let end = common + after.concat().len() as u16 - 4;
    before[2] = four(0x47, 8, 0, 0, end);
    (([before.concat(), after.concat()]).concat(), common)
}

fn record(trial: &Trial) -> Vec<u8> {
    let object = objread::read(&trial.case.object).expect("a trial's object text");
    let mut storage = vec![0; STORAGE_NEEDED];
    runner::load(&object, &mut storage);
    let mut record = vec![0; RECORD];
    for (i, register) in trial.case.regs.iter().enumerate() {
        record[IN_REGISTERS + 4 * i..][..4].copy_from_slice(&register.to_be_bytes());
    }
    record[IN_CODE..][..4].copy_from_slice(&((trial.case.cc as u32) << 28).to_be_bytes());
    let back = four(0x47, 15, 0, 0, stub(FELL_THROUGH));
    let program = [object.program, back].concat();
    record[IN_PROGRAM..][..program.len()].copy_from_slice(&program);
    record[IN_1..][..CELLS_1].copy_from_slice(&storage[origin(1) as usize..][..CELLS_1]);
    record[IN_2..][..CELLS_2].copy_from_slice(&storage[origin(2) as usize..][..CELLS_2]);
    record[OUT_MARK] = 0xFF;
    record
}

fn word(bytes: &[u8], at: usize) -> u32 {
    u32::from_be_bytes([bytes[at], bytes[at + 1], bytes[at + 2], bytes[at + 3]])
}

/// A word of a record: what a link or the second half of a program status word holds.
struct Status {
    code: u64,
    mask: u32,
    address: u32,
}

fn status(record: &[u8], at: usize) -> Status {
    let word = word(record, at);
    Status { code: (word >> 28 & 3) as u64, mask: word >> 24 & 15, address: word & 0xFF_FFFF }
}

/// The runner's answer and storage as the emulator's record gives them, or what is wrong with the record.
fn emulated(trial: &Trial, record: &[u8]) -> Result<(RunAnswer, Vec<u8>), String> {
    let done = trial.before as u32;
    let size = trial.instruction.len() as u32;
    let link = status(record, OUT_LINK);
    let call = status(record, OUT_SVC + 4);
    let check = status(record, OUT_PROGRAM + 4);
    let interruption = word(record, OUT_PROGRAM) & 0xFFFF;
    let (stop, counter, cc, count) = match record[OUT_MARK] {
        FELL_THROUGH => (0, origin(0) + 2 * done + size, link.code, done + 1),
        SUPERVISOR_CALL => (1, call.address - size, call.code, done),
        PROGRAM_CHECK if interruption == SPECIFICATION => (4, check.address - size, check.code, done),
        PROGRAM_CHECK => return Err(format!("program interruption {interruption:X}")),
        mark => match TARGETS.get((mark - FIRST_TARGET) as usize) {
            Some(&target) => (0, target, link.code, done + 1),
            None => return Err("not reached".to_string()),
        },
    };
    if link.mask != 0 {
        return Err("the program mask is not zero".to_string());
    }
    let regs = std::array::from_fn(|i| word(record, OUT_REGISTERS + 4 * i));
    let object = objread::read(&trial.case.object).expect("a trial's object text");
    let mut storage = vec![STORAGE_BEFORE; trial.case.storage_length];
    runner::load(&object, &mut storage);
    storage[origin(1) as usize..][..CELLS_1].copy_from_slice(&record[OUT_1..][..CELLS_1]);
    storage[origin(2) as usize..][..CELLS_2].copy_from_slice(&record[OUT_2..][..CELLS_2]);
    Ok((RunAnswer { number: 0, spot: Spot::NONE, stop, counter, regs, cc, count }, storage))
}

/// Compares what `savecore` wrote with the machine here; writes the emulator's answers to the stored cases beside it.
pub fn compare(path: &str) -> io::Result<(String, bool)> {
    let core = std::fs::read(path)?;
    let (mut same, mut report) = (0, String::new());
    let mut kept = Vec::new();
    let mut codes_of = [[0; 4]; 256];
    let trials = trials();
    for (i, trial) in trials.iter().enumerate() {
        let (answer, storage) = trial.case.run();
        let here = answer_line(&answer, &storage);
        let there = emulated(trial, &core[RECORDS + RECORD * i..][..RECORD])
            .map(|(answer, storage)| answer_line(&answer, &storage))
            .unwrap_or_else(|wrong| wrong);
        if here == there {
            same += 1;
            codes_of[trial.instruction[0] as usize][answer.cc as usize] += 1;
        } else {
            report +=
                &format!("{:02X?} differs\n  {}here  {here}\n  there {there}\n", trial.instruction, given(&trial.case));
        }
        if i < stored() {
            trial.case.write(&mut kept)?;
            writeln!(kept, "{there}")?;
        }
    }
    std::fs::write(Path::new(path).with_file_name("hercules-runs"), kept)?;
    for (opcode, codes) in codes_of.iter().enumerate().filter(|(_, codes)| codes.iter().sum::<usize>() > 0) {
        let [zero, one, two, three] = codes;
        let total: usize = codes.iter().sum();
        report += &format!("opcode {opcode:02X}: {total} equal, code after 0 to 3: {zero} {one} {two} {three}\n");
    }
    report += &format!("{} instructions compared, {same} equal, {} different\n", trials.len(), trials.len() - same);
    Ok((report, same == trials.len()))
}

fn given(case: &Case) -> String {
    let mut bytes = Vec::new();
    case.write(&mut bytes).expect("writing to memory");
    String::from_utf8_lossy(&bytes).replace('\n', "\n  ")
}

/// The stored cases with this machine's answers: the same file that `compare` makes of the emulator's.
pub fn stored_runs() -> io::Result<Vec<u8>> {
    let mut kept = Vec::new();
    for trial in trials().iter().take(stored()) {
        let (answer, storage) = trial.case.run();
        trial.case.write(&mut kept)?;
        writeln!(kept, "{}", answer_line(&answer, &storage))?;
    }
    Ok(kept)
}
