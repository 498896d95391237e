//! Stops 0 to 4, which of several is given, and the budget.
mod run_support;
use reference::assemble::{data, four, two};
use run_support::*;

const END: [u8; 2] = [0x0A, 0x00];

/// The 44 listed opcodes: the code table, the shifts, ABS, NEG, NEG ABS, the branches, the end, the functions.
const LISTED: [u8; 44] = [
    0x07, 0x0A, 0x10, 0x11, 0x12, 0x13, 0x14, 0x16, 0x17, 0x18, 0x19, 0x1A, 0x1B, 0x1C, 0x1E, 0x1F, //
    0x40, 0x41, 0x42, 0x43, 0x45, 0x47, 0x48, 0x49, 0x4A, 0x4B, 0x4C, //
    0x50, 0x54, 0x56, 0x57, 0x58, 0x59, 0x5A, 0x5B, 0x5C, 0x5E, 0x5F, //
    0x88, 0x89, 0x8A, 0x8B, //
    0x92, 0x95,
];

/// Those that read or store an operand, with its size.
const READS: [(u8, u32); 15] = [
    (0x48, 2),
    (0x49, 2),
    (0x4A, 2),
    (0x4B, 2),
    (0x4C, 2), //
    (0x54, 4),
    (0x56, 4),
    (0x57, 4),
    (0x58, 4),
    (0x59, 4),
    (0x5A, 4),
    (0x5B, 4),
    (0x5C, 4),
    (0x5E, 4),
    (0x5F, 4),
];
const STORES: [(u8, u32); 2] = [(0x40, 2), (0x50, 4)];

fn table_only() -> [reference::objread::DataSegment; 1] {
    [cells(&[])]
}

#[test]
fn stop_0_when_the_budget_is_used() {
    let program = [two(0x1A, 1, 1), two(0x1A, 1, 1), END.to_vec()].concat();
    let mut regs = registers();
    regs[1] = 1;
    for (budget, stop, counter, count, value) in
        [(0, 0, 4096, 0, 1), (1, 0, 4098, 1, 2), (2, 0, 4100, 2, 4), (3, 1, 4100, 2, 4)]
    {
        let (answer, _) = go(&program, &table_only(), regs, 0, budget);
        assert_eq!((answer.stop, answer.counter, answer.count, answer.regs[1]), (stop, counter, count, value));
    }
    let (answer, _) = go(&program, &table_only(), regs, 0, u32::MAX);
    assert_eq!((answer.stop, answer.count), (1, 2), "the largest budget");
}

#[test]
fn at_the_budget_nothing_is_looked_at() {
    let odd_jump = four(0x47, 15, 0, 15, 1);
    let misaligned = four(0x58, 1, 0, 14, 1);
    let forbidden = four(0x58, 1, 0, 14, 16);
    for program in [END.to_vec(), vec![], vec![0xFF], misaligned, forbidden, vec![0x1C, 0x10]] {
        let (answer, _) = go(&program, &table_only(), registers(), 3, 0);
        assert_eq!((answer.stop, answer.counter, answer.count, answer.cc), (0, 4096, 0, 3));
    }
    let (answer, _) = go(&odd_jump, &table_only(), registers(), 0, 1);
    assert_eq!((answer.stop, answer.counter, answer.count), (0, 4097, 1), "0 before 4");
    let (answer, _) = go(&odd_jump, &table_only(), registers(), 0, 2);
    assert_eq!((answer.stop, answer.counter, answer.count), (4, 4097, 1));
}

#[test]
fn stop_1_at_the_end() {
    for budget in [1, 2, 1000] {
        let (answer, _) = go(&END, &table_only(), registers(), 2, budget);
        assert_eq!((answer.stop, answer.counter, answer.count, answer.cc), (1, 4096, 0, 2));
        assert_eq!(answer.regs, loaded(registers()));
    }
    for fields in 1..=255 {
        assert_eq!(stopped(&[0x0A, fields], &table_only(), registers(), 0), 4, "0A {fields:02X} is not listed");
    }
}

#[test]
fn only_the_listed_opcodes_are_carried_out() {
    let segment = [data(vec![0; 64], 0, 64)];
    let mut regs = registers();
    regs[6] = DATA;
    for opcode in 0..=255 {
        let program = [opcode, 0x40, 0x60, 0x20, 0x00, 0x00, 0x00, 0x00];
        let (answer, _) = go(&program, &segment, regs, 0, 1);
        let expected = if opcode == 0x0A || !LISTED.contains(&opcode) { 4 } else { 0 };
        assert_eq!(answer.stop, expected, "{opcode:02X}");
    }
}

#[test]
fn stop_4_for_an_odd_counter_before_all_else() {
    for target in [1u16, 3, 4095] {
        let program = [four(0x47, 15, 0, 15, target), vec![0x0A, 0x0A, 0x00, 0x0A]].concat();
        let (answer, _) = go(&program, &table_only(), registers(), 0, 10);
        assert_eq!((answer.stop, answer.counter, answer.count), (4, 4096 + target as u32, 1));
    }
}

#[test]
fn stop_4_outside_the_program() {
    let mut regs = registers();
    for target in [0u32, 2, 4094, 4096 + 6, 4096 + 8, 8190, 8192, 8208, 20478, 20480, 0xFF_FFFE] {
        regs[7] = target;
        let (answer, _) = go(&[0x07, 0xF7, 0x0A, 0x00, 0x0A, 0x00], &[cells(&[0x0A, 0x00])], regs, 0, 10);
        assert_eq!((answer.stop, answer.counter, answer.count), (4, target, 1), "{target}");
    }
    for target in [4098, 4100] {
        regs[7] = target;
        let (answer, _) = go(&[0x07, 0xF7, 0x0A, 0x00, 0x0A, 0x00], &table_only(), regs, 0, 10);
        assert_eq!((answer.stop, answer.counter, answer.count), (1, target, 1), "{target}");
    }
}

#[test]
fn stop_4_where_the_program_ends_inside_an_instruction() {
    let regs = registers();
    for program in
        [vec![], vec![0x0A], vec![0x18], vec![0x58, 0x10], vec![0x58, 0x10, 0xE0], vec![0x89, 0x10, 0x00], vec![0x47]]
    {
        assert_eq!(stopped(&program, &table_only(), regs, 0), 4, "{program:02X?}");
    }
    // The program goes on to its last byte: at 4,096 bytes the instruction before the edge is whole.
    let mut program = vec![0x18; 4096];
    program[..4].copy_from_slice(&four(0x47, 15, 0, 15, 4092));
    program[4092..].copy_from_slice(&four(0x58, 1, 0, 14, 0));
    let (answer, _) = go(&program, &table_only(), regs, 0, 10);
    assert_eq!((answer.stop, answer.counter, answer.count, answer.regs[1]), (4, 8192, 2, 4096));
    program[..4].copy_from_slice(&four(0x47, 15, 0, 15, 4094));
    program[4094..].copy_from_slice(&[0x58, 0x10]);
    let (answer, _) = go(&program, &[data(vec![0; 32], 0, 32)], regs, 0, 10);
    assert_eq!((answer.stop, answer.counter, answer.count), (4, 8190, 1), "the rest would lie in segment 1");
}

#[test]
fn stop_4_for_odd_register_fields_of_products_only() {
    let segment = [data(vec![0; 64], 0, 64)];
    let mut regs = registers();
    regs[6] = DATA;
    for r in 0..16u8 {
        for (program, product) in [
            (two(0x1C, r, 3), true),
            (four(0x5C, r, 0, 6, 16), true),
            (four(0x4C, r, 0, 6, 16), false),
            (two(0x1A, r, 3), false),
            (four(0x8B, r, 0, 0, 1), false),
        ] {
            let (answer, _) = go(&program, &segment, regs, 0, 1);
            assert_eq!(answer.stop, if product && r % 2 == 1 { 4 } else { 0 }, "{program:02X?}");
        }
        assert_eq!(go(&two(0x1C, 4, r), &segment, regs, 0, 1).0.stop, 0, "the second field may be any");
    }
}

#[test]
fn stop_4_before_3_and_2() {
    let regs = registers();
    // 5C with an odd field, misaligned and outside; cut off by the end of the program, misaligned and outside.
    assert_eq!(stopped(&four(0x5C, 3, 0, 0, 1), &table_only(), regs, 0), 4);
    assert_eq!(stopped(&four(0x5C, 3, 0, 0, 0), &table_only(), regs, 0), 4);
    assert_eq!(stopped(&four(0x58, 3, 0, 0, 1)[..3], &table_only(), regs, 0), 4);
    assert_eq!(stopped(&four(0x5C, 2, 0, 0, 1), &table_only(), regs, 0), 3);
    assert_eq!(stopped(&four(0x5C, 2, 0, 0, 0), &table_only(), regs, 0), 2);
}

#[test]
fn stop_3_for_every_misaligned_operand_inside_and_outside() {
    let segment = [data(vec![1; 64], 0, 64)];
    let mut regs = registers();
    for (op, size) in READS.into_iter().chain(STORES) {
        for place in [0, PROGRAM, DATA + 32, DATA + 64, DATA - 4, 12288, 20480, 0xFF_FFF8] {
            for off in 1..size {
                regs[6] = place + off;
                assert_eq!(stopped(&four(op, 4, 0, 6, 0), &segment, regs, 1), 3, "{op:02X} at {}", regs[6]);
            }
        }
        regs[6] = DATA + 64 - 1;
        assert_eq!(stopped(&four(op, 4, 0, 6, 0), &segment, regs, 1), 3, "3 before 2 at the segment's end");
    }
}

#[test]
fn a_half_word_may_lie_where_a_word_may_not() {
    let segment = [data(vec![1; 64], 0, 64)];
    let regs = registers();
    assert_eq!(stopped(&four(0x58, 4, 0, 14, 18), &segment, regs, 0), 3);
    assert_eq!(go(&four(0x48, 4, 0, 14, 18), &segment, regs, 0, 1).0.stop, 0);
}

#[test]
fn stop_2_for_every_operand_outside() {
    let mut regs = registers();
    for (op, size) in READS.into_iter().chain(STORES) {
        let segment = [data(vec![1; 64], 16, 32)];
        for place in [0, PROGRAM, DATA + 64, DATA - size, 12288, 20480, 0x100_0000 - size] {
            regs[6] = place;
            assert_eq!(stopped(&four(op, 4, 0, 6, 0), &segment, regs, 2), 2, "{op:02X} at {place}");
        }
        for (place, store) in
            [(DATA + 16, 0), (DATA + 32 - size, 0), (DATA + 16 - size, 2), (DATA + 32, 2), (DATA + 64 - size, 2)]
        {
            regs[6] = place;
            let expected = if STORES.contains(&(op, size)) { store } else { 0 };
            assert_eq!(go(&four(op, 4, 0, 6, 0), &segment, regs, 2, 1).0.stop, expected, "{op:02X} at {place}");
        }
    }
}

#[test]
fn shifts_and_branches_have_no_operand_to_forbid() {
    let mut regs = registers();
    regs[6] = 0xFF_FFFF;
    for op in [0x88, 0x89, 0x8A, 0x8B, 0x45, 0x47] {
        let (answer, _) = go(&four(op, 4, 0, 6, 0), &table_only(), regs, 0, 1);
        assert_eq!((answer.stop, answer.count), (0, 1), "{op:02X}");
    }
}

#[test]
fn a_stop_later_in_a_run_keeps_what_was_done() {
    let program = [four(0x5A, 1, 0, 14, 16), four(0x50, 1, 0, 14, 16), four(0x50, 1, 0, 14, 20), END.to_vec()].concat();
    let mut regs = registers();
    regs[1] = MAX;
    let segment = [data([vec![0; 16], vec![0, 0, 0, 1, 0, 0, 0, 9]].concat(), 16, 20)];
    let (answer, storage) = go(&program, &segment, regs, 0, 10);
    assert_eq!((answer.stop, answer.counter, answer.count, answer.cc), (2, 4104, 2, 3));
    assert_eq!(&storage[8208..8216], [0x80, 0, 0, 0, 0, 0, 0, 9]);
}

/// Case 8 of the papers with numbers in place: the count is that of completed instructions.
#[test]
fn the_for_loop_of_case_8() {
    let program = [
        0x58, 0x10, 0xE0, 0x10, 0x59, 0x10, 0xE0, 0x14, 0x47, 0x20, 0xF0, 0x14, 0x5A, 0x10, 0xE0, 0x18, 0x47, 0xF0,
        0xF0, 0x04, 0x0A, 0x00,
    ];
    let numbers = [0, 0, 0, 0, 0, 0, 0, 9, 0, 0, 0, 1];
    let segment = [data([vec![0; 16], numbers.to_vec()].concat(), 16, 16)];
    let (answer, _) = go(&program, &segment, registers(), 0, 1000);
    assert_eq!((answer.stop, answer.counter, answer.count), (1, 4096 + 20, 1 + 10 * 4 + 2));
    assert_eq!((answer.regs[1], answer.cc), (10, 2));
    for budget in 0..43 {
        let (answer, _) = go(&program, &segment, registers(), 0, budget);
        assert_eq!((answer.stop, answer.count), (0, budget));
    }
}
