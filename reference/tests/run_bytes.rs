//! Document 02, 1/13: the six instructions on values, addresses and stops.
mod run_support;
use reference::assemble::{data, four, two};
use run_support::*;

/// `op number,displacement(base)`.
fn immediate(op: u8, number: u8, base: u8, displacement: u16) -> Vec<u8> {
    four(op, number / 16, number % 16, base, displacement)
}

#[test]
fn ic_replaces_the_low_byte_and_leaves_24_bits_and_the_code() {
    for before in [0, 0x1122_3344, 0xFFFF_FFFF, 0xFFFF_FF00, MAX, MIN] {
        for byte in [0, 1, 0x7F, 0x80, 0xAB, 0xFF] {
            for cc in 0..4 {
                let (after, code) = by_cell(0x43, before, byte, 1, cc);
                assert_eq!((after, code), ((before & 0xFFFF_FF00) + byte, cc));
            }
        }
    }
}

#[test]
fn stc_stores_the_low_byte_alone() {
    for value in [0, 0x1122_3344, 0xFFFF_FF00, 0xFFFF_FFFF, 0x80] {
        for offset in 16..20 {
            let mut regs = registers();
            regs[3] = value;
            let (answer, storage) = one(&four(0x42, 3, 0, 14, offset), cells(&[1, 2, 3, 4]), regs, 2);
            let mut expected = [1, 2, 3, 4];
            expected[offset as usize - 16] = value as u8;
            assert_eq!(storage[DATA as usize + 16..][..4], expected);
            assert_eq!((answer.regs, answer.cc), (loaded(regs), 2));
        }
    }
}

#[test]
fn la_gives_the_address_in_24_bits_and_touches_nothing() {
    let sums: [(u32, u32, u16, u32); 8] = [
        (0, 0, 0, 0),
        (8192, 0, 4095, 12287),
        (0xFF_FFFF, 1, 0, 0),
        (0xFFFF_FFFF, 0, 0, 0xFF_FFFF),
        (0xFF00_0000, 0x00FF_FFFF, 1, 0),
        (0x1234_5678, 0x8765_4321, 0x999, 0x99_A332),
        (0x7FFF_FFFF, 0x7FFF_FFFF, 2, 0),
        (3, 5, 7, 15),
    ];
    for (base, index, displacement, sum) in sums {
        for cc in 0..4 {
            let mut regs = registers();
            (regs[5], regs[6]) = (base, index);
            let (answer, storage) = one(&four(0x41, 3, 6, 5, displacement), cells(&[9]), regs, cc);
            let mut expected = loaded(regs);
            expected[3] = sum;
            assert_eq!((answer.regs, answer.cc, answer.counter), (expected, cc, PROGRAM + 4));
            assert_eq!(storage[DATA as usize + 16], 9);
        }
    }
    // Field 0 is none; the address is formed before the register is written.
    let mut regs = registers();
    (regs[0], regs[1]) = (77, 0x100);
    assert_eq!(one(&four(0x41, 2, 0, 0, 5), cells(&[]), regs, 0).0.regs[2], 5);
    assert_eq!(one(&four(0x41, 1, 1, 1, 1), cells(&[]), regs, 0).0.regs[1], 0x201);
    assert_eq!(one(&four(0x41, 0, 1, 0, 0), cells(&[]), regs, 0).0.regs[0], 0x100);
}

#[test]
fn mvi_stores_its_number() {
    for number in 0..=255 {
        let (answer, storage) = one(&immediate(0x92, number, 14, 17), cells(&[1, 2, 3]), registers(), 3);
        assert_eq!(storage[DATA as usize + 16..][..3], [1, number, 3]);
        assert_eq!((answer.regs, answer.cc, answer.counter), (loaded(registers()), 3, PROGRAM + 4));
    }
}

#[test]
fn cli_compares_the_byte_with_the_number_unsigned() {
    for byte in 0..=255u8 {
        for number in 0..=255u8 {
            let (answer, storage) = one(&immediate(0x95, number, 14, 16), cells(&[byte]), registers(), 3);
            let code = match byte.cmp(&number) {
                std::cmp::Ordering::Equal => 0,
                std::cmp::Ordering::Less => 1,
                std::cmp::Ordering::Greater => 2,
            };
            assert_eq!((answer.cc, answer.regs, storage[DATA as usize + 16]), (code, loaded(registers()), byte));
        }
    }
}

#[test]
fn ltr_copies_and_sets_the_code_by_the_signed_value() {
    for (value, code) in [(0, 0), (1, 2), (MAX, 2), (MIN, 1), (neg(1), 1), (0x8000, 2)] {
        for cc in 0..4 {
            assert_eq!(by_register(0x12, 5, value, cc), (value, code));
        }
        let mut regs = registers();
        regs[3] = value;
        let (answer, _) = one(&two(0x12, 3, 3), cells(&[]), regs, 3);
        assert_eq!((answer.regs, answer.cc), (loaded(regs), code));
    }
}

/// The number is no index: a register that its low half looks like plays no part.
#[test]
fn the_number_of_mvi_and_cli_is_no_index() {
    let mut regs = registers();
    regs[5] = 0x00FF_0000;
    assert_eq!(one(&immediate(0x92, 0x05, 14, 16), cells(&[0]), regs, 0).1[DATA as usize + 16], 5);
    assert_eq!(one(&immediate(0x95, 0x05, 14, 16), cells(&[5]), regs, 3).0.cc, 0);
    assert_eq!(stopped(&immediate(0x92, 0x0E, 0, 16), &[cells(&[0])], registers(), 0), 2, "base 0 is zero");
    assert_eq!(stopped(&immediate(0x95, 0x0E, 0, 16), &[cells(&[0])], registers(), 0), 2);
}

/// Segment 1 of 24 bytes, writable from 17 to 21: every byte of storage around it is tried, odd or even.
#[test]
fn bytes_are_read_in_a_segment_and_stored_in_its_writable_part_and_never_misaligned() {
    let segments = [data(vec![7; 24], 17, 21)];
    for offset in 0..40u16 {
        for (instruction, inside) in [
            (four(0x43, 3, 0, 14, offset), offset < 24),
            (immediate(0x95, 7, 14, offset), offset < 24),
            (four(0x42, 3, 0, 14, offset), (17..21).contains(&offset)),
            (immediate(0x92, 7, 14, offset), (17..21).contains(&offset)),
        ] {
            let (answer, _) = go(&instruction, &segments, registers(), 1, 1);
            assert_eq!(answer.stop, if inside { 0 } else { 2 }, "{instruction:02X?}");
            if !inside {
                assert_eq!(stopped(&instruction, &segments, registers(), 1), 2);
            }
        }
    }
    for address in [0, 1, 4095, 4096, 4097, 8191, 12288, 12289, 16384, 20479, 20480, 0xFF_FFFF] {
        let mut regs = registers();
        regs[7] = address;
        for instruction in
            [four(0x43, 3, 0, 7, 0), four(0x42, 3, 7, 0, 0), immediate(0x92, 1, 7, 0), immediate(0x95, 1, 7, 0)]
        {
            assert_eq!(stopped(&instruction, &segments, regs, 3), 2, "{instruction:02X?} at {address}");
        }
        assert_eq!(one(&four(0x41, 3, 0, 7, 0), cells(&[]), regs, 0).0.regs[3], address);
    }
}

#[test]
fn bytes_of_every_segment() {
    let segments = [cells(&[1]), data(vec![2; 3], 1, 3), data(vec![3; 4096], 0, 4096)];
    for (address, byte) in [(8192 + 16, 1), (12288, 2), (12290, 2), (16384, 3), (20479, 3)] {
        let mut regs = registers();
        (regs[7], regs[3]) = (address, 0);
        let (answer, _) = go(&four(0x43, 3, 7, 0, 0), &segments, regs, 0, 1);
        assert_eq!((answer.stop, answer.regs[3]), (0, byte));
    }
    for (address, stop) in [(12288, 2), (12289, 0), (12290, 0), (12291, 2), (16383, 2), (16384, 0), (20479, 0)] {
        let mut regs = registers();
        regs[7] = address;
        let (answer, _) = go(&four(0x42, 3, 0, 7, 0), &segments, regs, 0, 1);
        assert_eq!(answer.stop, stop, "{address}");
    }
}

#[test]
fn stop_4_where_the_program_ends_inside_one() {
    for op in [0x41, 0x42, 0x43, 0x92, 0x95] {
        for length in 1..4 {
            assert_eq!(stopped(&four(op, 3, 0, 14, 16)[..length], &[cells(&[0])], registers(), 0), 4, "{op:02X}");
        }
        let (answer, _) = go(&four(op, 3, 0, 14, 16), &[cells(&[0])], registers(), 0, 1);
        assert_eq!(answer.stop, 0, "{op:02X}");
    }
    assert_eq!(stopped(&[0x12], &[cells(&[])], registers(), 0), 4);
    assert_eq!(go(&[0x12, 0x34], &[cells(&[])], registers(), 0, 1).0.stop, 0);
}
