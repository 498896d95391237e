//! One instruction or a short program through the runner.
#![allow(dead_code)]

use reference::assemble::{data, four, text, two};
use reference::objread::DataSegment;
use reference::runner::{run, RunAnswer, STORAGE_NEEDED};
use reference::spot::Spot;

pub const MAX: u32 = 0x7FFF_FFFF;
pub const MIN: u32 = 0x8000_0000;
pub const PROGRAM: u32 = 4096;
pub const DATA: u32 = 8192;

/// A negative number as the register holds it.
pub fn neg(n: u32) -> u32 {
    n.wrapping_neg()
}

/// Registers that are all different, so that a wrong one is seen.
pub fn registers() -> [u32; 16] {
    std::array::from_fn(|i| 0x0101_0101 * (i as u32 + 1))
}

/// The registers as loading leaves them.
pub fn loaded(mut regs: [u32; 16]) -> [u32; 16] {
    regs[14] = DATA;
    regs[15] = PROGRAM;
    regs
}

/// Segment 1 with 16 bytes of table, then these cells, all of them writable.
pub fn cells(bytes: &[u8]) -> DataSegment {
    let mut all = vec![0; 16];
    all.extend_from_slice(bytes);
    let to = all.len();
    data(all, 16, to)
}

/// A run of `program` over the given segments; storage is 20,480 bytes.
pub fn go(program: &[u8], segments: &[DataSegment], regs: [u32; 16], cc: u64, budget: u32) -> (RunAnswer, Vec<u8>) {
    let mut storage = vec![165; STORAGE_NEEDED];
    let answer = run(&text(program, segments), regs, cc, budget, &mut storage);
    assert_eq!((answer.number, answer.spot), (0, Spot::NONE));
    (answer, storage)
}

/// One instruction that completes: the answer, with the other registers, counter and count checked for the usual case.
pub fn one(instruction: &[u8], segment: DataSegment, regs: [u32; 16], cc: u64) -> (RunAnswer, Vec<u8>) {
    let (answer, storage) = go(instruction, &[segment], regs, cc, 1);
    assert_eq!((answer.stop, answer.count), (0, 1), "{instruction:02X?} has to complete");
    (answer, storage)
}

/// Register 3 and the code after `op 3,4` with the two values; nothing else may change.
pub fn by_register(op: u8, first: u32, second: u32, cc: u64) -> (u32, u64) {
    let mut regs = registers();
    (regs[3], regs[4]) = (first, second);
    let (answer, _) = one(&two(op, 3, 4), cells(&[]), regs, cc);
    assert_eq!(answer.counter, PROGRAM + 2);
    only_register_3(&answer, regs)
}

/// The same after `op 3,16(0,14)` with the second value in storage, 4 bytes of it or the low 2.
pub fn by_cell(op: u8, first: u32, second: u32, size: usize, cc: u64) -> (u32, u64) {
    let mut regs = registers();
    regs[3] = first;
    let cell = &second.to_be_bytes()[4 - size..];
    let (answer, storage) = one(&four(op, 3, 0, 14, 16), cells(cell), regs, cc);
    assert_eq!(answer.counter, PROGRAM + 4);
    assert_eq!(&storage[DATA as usize + 16..][..size], cell, "a read does not write");
    only_register_3(&answer, regs)
}

fn only_register_3(answer: &RunAnswer, regs: [u32; 16]) -> (u32, u64) {
    let mut expected = loaded(regs);
    expected[3] = answer.regs[3];
    assert_eq!(answer.regs, expected, "only register 3 may change");
    (answer.regs[3], answer.cc)
}

/// Register 3 and the code after a shift by a number.
pub fn shifted(op: u8, value: u32, amount: u16, cc: u64) -> (u32, u64) {
    let mut regs = registers();
    regs[3] = value;
    let (answer, _) = one(&four(op, 3, 0, 0, amount), cells(&[]), regs, cc);
    only_register_3(&answer, regs)
}

/// The stop of an instruction that does not complete; it may have changed nothing.
pub fn stopped(program: &[u8], segments: &[DataSegment], regs: [u32; 16], cc: u64) -> u32 {
    let (before, storage_before) = go(program, segments, regs, cc, 0);
    let (after, storage_after) = go(program, segments, regs, cc, 1);
    assert_ne!(after.stop, 0, "{program:02X?} has to stop");
    assert_eq!((after.counter, after.regs, after.cc, after.count), (before.counter, before.regs, before.cc, 0));
    assert!(storage_before == storage_after, "a stopped instruction changes nothing");
    after.stop
}
