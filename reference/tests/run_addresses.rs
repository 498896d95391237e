//! Stores, branches, the link, and how addresses are formed.
mod run_support;
use reference::assemble::{data, four, two};
use run_support::*;

const SECOND: u32 = 12288;
const FOURTH: u32 = 20480;

/// The bytes at an address.
fn at(storage: &[u8], address: u32, size: usize) -> &[u8] {
    &storage[address as usize..][..size]
}

#[test]
fn stores_write_their_cell_alone() {
    let mut regs = registers();
    regs[3] = 0x1234_5678;
    for cc in 0..4 {
        let full: [u8; 12] = [0xEE; 12];
        let (answer, storage) = one(&four(0x50, 3, 0, 14, 20), cells(&full), regs, cc);
        assert_eq!((answer.regs, answer.cc, answer.counter), (loaded(regs), cc, PROGRAM + 4));
        assert_eq!(
            at(&storage, DATA + 16, 12),
            [0xEE, 0xEE, 0xEE, 0xEE, 0x12, 0x34, 0x56, 0x78, 0xEE, 0xEE, 0xEE, 0xEE]
        );
        let (answer, storage) = one(&four(0x40, 3, 0, 14, 22), cells(&full), regs, cc);
        assert_eq!((answer.regs, answer.cc, answer.counter), (loaded(regs), cc, PROGRAM + 4));
        assert_eq!(
            at(&storage, DATA + 16, 12),
            [0xEE, 0xEE, 0xEE, 0xEE, 0xEE, 0xEE, 0x56, 0x78, 0xEE, 0xEE, 0xEE, 0xEE]
        );
    }
}

#[test]
fn base_index_and_displacement_are_added() {
    let mut regs = registers();
    for (index, base, displacement) in
        [(4u32, DATA, 16u16), (DATA, 4, 16), (0, DATA, 20), (DATA + 20, 0, 0), (neg(4076), DATA + 1, 4095)]
    {
        (regs[6], regs[7]) = (index, base);
        let (answer, _) = one(&four(0x58, 3, 6, 7, displacement), cells(&[0, 0, 0, 1, 0, 0, 0, 2]), regs, 0);
        assert_eq!(answer.regs[3], 2, "{index:X} {base:X} {displacement}");
    }
}

#[test]
fn base_0_and_index_0_are_zero_whatever_register_0_holds() {
    let mut regs = registers();
    regs[0] = 4;
    regs[6] = DATA;
    let segment = cells(&[0, 0, 0, 1, 0, 0, 0, 2]);
    assert_eq!(one(&four(0x58, 3, 6, 0, 16), segment.clone(), regs, 0).0.regs[3], 1);
    assert_eq!(one(&four(0x58, 3, 0, 6, 16), segment.clone(), regs, 0).0.regs[3], 1);
    assert_eq!(stopped(&four(0x58, 3, 0, 0, 16), &[segment], regs, 0), 2, "address 16");
    let branch = one(&four(0x47, 15, 0, 0, 0xABC), cells(&[]), regs, 0).0;
    assert_eq!(branch.counter, 0xABC);
}

#[test]
fn addresses_keep_24_bits() {
    let mut regs = registers();
    let segment = cells(&[0, 0, 0, 1, 0, 0, 0, 2]);
    for (index, base) in [
        (0x0100_0000, DATA),
        (0xFF00_0000, DATA),
        (0, 0xB000_0000 | DATA),
        (0x00FF_FFFC, DATA + 4),
        (0xFFFF_FFFC, DATA + 4),
        (0x8000_0000, 0x8000_0000 | DATA),
    ] {
        (regs[6], regs[7]) = (index, base);
        assert_eq!(one(&four(0x58, 3, 6, 7, 20), segment.clone(), regs, 0).0.regs[3], 2, "{index:X} {base:X}");
        let (_, storage) = one(&four(0x50, 7, 6, 7, 20), segment.clone(), regs, 0);
        assert_eq!(at(&storage, DATA + 20, 4), base.to_be_bytes());
    }
    (regs[6], regs[7]) = (0x00FF_FFFF, 2);
    assert_eq!(one(&four(0x47, 15, 6, 7, 8), cells(&[]), regs, 0).0.counter, 9, "the sum wraps to the low end");
    regs[7] = 0xAB12_3456;
    assert_eq!(one(&two(0x07, 15, 7), cells(&[]), regs, 0).0.counter, 0x12_3456);
    assert_eq!(one(&four(0x47, 15, 0, 7, 0xFFF), cells(&[]), regs, 0).0.counter, 0x12_4455);
    assert_eq!(one(&four(0x45, 3, 0, 7, 0xFFF), cells(&[]), regs, 0).0.counter, 0x12_4455);
}

#[test]
fn a_mask_bit_for_each_code() {
    let mut regs = registers();
    regs[7] = 0x2468;
    for mask in 0..16 {
        for cc in 0..4 {
            let taken = [mask & 8, mask & 4, mask & 2, mask & 1][cc as usize] != 0;
            let answer = one(&four(0x47, mask, 0, 7, 6), cells(&[]), regs, cc).0;
            assert_eq!(answer.counter, if taken { 0x246E } else { PROGRAM + 4 }, "47 {mask} {cc}");
            assert_eq!((answer.regs, answer.cc), (loaded(regs), cc));
            let answer = one(&two(0x07, mask, 7), cells(&[]), regs, cc).0;
            assert_eq!(answer.counter, if taken { 0x2468 } else { PROGRAM + 2 }, "07 {mask} {cc}");
            assert_eq!((answer.regs, answer.cc), (loaded(regs), cc));
        }
    }
}

#[test]
fn register_0_in_07_is_no_branch() {
    let mut regs = registers();
    regs[0] = 0x2468;
    for mask in 0..16 {
        for cc in 0..4 {
            let answer = one(&two(0x07, mask, 0), cells(&[]), regs, cc).0;
            assert_eq!((answer.counter, answer.regs, answer.cc), (PROGRAM + 2, loaded(regs), cc));
        }
    }
}

#[test]
fn the_link_has_length_code_condition_code_mask_and_address() {
    for (cc, link) in [(0, 0x8000_1004), (1, 0x9000_1004), (2, 0xA000_1004), (3, 0xB000_1004)] {
        let regs = registers();
        let answer = one(&four(0x45, 5, 0, 15, 0x24), cells(&[]), regs, cc).0;
        let mut expected = loaded(regs);
        expected[5] = link;
        assert_eq!((answer.regs, answer.cc, answer.counter), (expected, cc, 0x1024));
    }
}

#[test]
fn the_address_of_45_is_formed_before_the_link() {
    let mut regs = registers();
    regs[5] = 0x2000;
    let answer = one(&four(0x45, 5, 0, 5, 8), cells(&[]), regs, 0).0;
    assert_eq!((answer.regs[5], answer.counter), (0x8000_1004, 0x2008));
    let answer = one(&four(0x45, 5, 5, 15, 8), cells(&[]), regs, 0).0;
    assert_eq!((answer.regs[5], answer.counter), (0x8000_1004, 0x3008));
    let answer = one(&four(0x45, 0, 0, 15, 8), cells(&[]), regs, 0).0;
    assert_eq!((answer.regs[0], answer.counter), (0x8000_1004, 0x1008), "register 0 takes a link too");
    let answer = one(&four(0x45, 15, 0, 15, 8), cells(&[]), regs, 2).0;
    assert_eq!((answer.regs[15], answer.counter), (0xA000_1004, 0x1008));
}

#[test]
fn a_call_and_its_return() {
    let program =
        [four(0x45, 5, 0, 15, 8), two(0x0A, 0, 0), two(0x18, 0, 0), two(0x1A, 0, 1), two(0x07, 15, 5)].concat();
    let (answer, _) = go(&program, &[cells(&[])], registers(), 1, 100);
    assert_eq!((answer.stop, answer.counter, answer.count), (1, PROGRAM + 4, 3));
    assert_eq!(answer.regs[0], 0x0303_0303);
    assert_eq!(answer.cc, 2);
}

#[test]
fn reads_from_the_first_byte_of_a_segment_to_its_last() {
    let segments = |length: usize| [data(vec![0x11; length], 0, length)];
    let regs = registers();
    for (op, size) in [(0x58u8, 4u16), (0x48, 2)] {
        for length in [16, 20, 4095, 4096] {
            let last = (length as u16 - size) / size * size;
            for (displacement, fits) in [(0, true), (last, true), (last + size, false)] {
                if displacement > 4095 {
                    continue;
                }
                let load = four(op, 3, 0, 14, displacement);
                if fits {
                    let expected = if displacement == 0 {
                        if size == 4 {
                            4096
                        } else {
                            0
                        }
                    } else if size == 4 {
                        0x1111_1111
                    } else {
                        0x1111
                    };
                    let (answer, _) = go(&load, &segments(length), regs, 0, 1);
                    assert_eq!((answer.stop, answer.regs[3]), (0, expected), "{op:02X} {length} {displacement}");
                } else {
                    assert_eq!(stopped(&load, &segments(length), regs, 0), 2, "{op:02X} {length} {displacement}");
                }
            }
        }
    }
}

#[test]
fn a_word_half_inside_a_segment_is_forbidden() {
    let regs = registers();
    let segment = [data(vec![7; 22], 16, 22)];
    assert_eq!(stopped(&four(0x58, 3, 0, 14, 20), &segment, regs, 0), 2);
    assert_eq!(stopped(&four(0x50, 3, 0, 14, 20), &segment, regs, 0), 2);
    assert_eq!(go(&four(0x48, 3, 0, 14, 20), &segment, regs, 0, 1).0.regs[3], 0x0707);
    assert_eq!(go(&four(0x40, 3, 0, 14, 20), &segment, regs, 0, 1).0.stop, 0);
    let odd = [data(vec![7; 21], 16, 21)];
    assert_eq!(stopped(&four(0x48, 3, 0, 14, 20), &odd, regs, 0), 2, "one byte of the half word is outside");
}

#[test]
fn reads_take_the_table_and_literals_too() {
    let mut bytes = vec![0; 24];
    bytes[20..].copy_from_slice(&77u32.to_be_bytes());
    let segment = [data(bytes, 16, 20)];
    let regs = registers();
    for (displacement, value) in [(0, 4096), (4, 8192), (8, 0), (12, 0), (16, 0), (20, 77)] {
        assert_eq!(go(&four(0x58, 3, 0, 14, displacement), &segment, regs, 0, 1).0.regs[3], value);
    }
}

#[test]
fn stores_go_from_the_first_writable_byte_to_the_last() {
    let regs = registers();
    for (op, size) in [(0x50u8, 4u16), (0x40, 2)] {
        for (from, to) in [(16usize, 24usize), (0, 24), (16, 16), (18, 23), (17, 24), (0, 32), (32, 32)] {
            let segment = [data(vec![9; 32], from, to)];
            for displacement in (0..=32).step_by(size as usize) {
                let store = four(op, 3, 0, 14, displacement);
                let inside = from <= displacement as usize && (displacement + size) as usize <= to;
                if inside {
                    let (answer, storage) = go(&store, &segment, regs, 0, 1);
                    assert_eq!(answer.stop, 0, "{op:02X} {from} {to} {displacement}");
                    let start = DATA + displacement as u32;
                    assert!(at(&storage, start, size as usize).iter().all(|&byte| byte == 4));
                    let others = (0..20480u32).filter(|a| !(start..start + size as u32).contains(a));
                    let (_, before) = go(&store, &segment, regs, 0, 0);
                    assert!(others.into_iter().all(|a| storage[a as usize] == before[a as usize]));
                } else {
                    assert_eq!(stopped(&store, &segment, regs, 0), 2, "{op:02X} {from} {to} {displacement}");
                }
            }
        }
    }
}

#[test]
fn every_data_segment_is_read_and_stored_at_its_place() {
    let segment = |byte| data(vec![byte; 32], 4, 8);
    let segments = [segment(0x21), segment(0x32), segment(0x43)];
    let mut regs = registers();
    for (k, origin) in [(1, DATA), (2, SECOND), (3, 16384)] {
        regs[6] = origin;
        let byte = segments[k - 1].bytes[0] as u32;
        assert_eq!(go(&four(0x58, 3, 0, 6, 16), &segments, regs, 0, 1).0.regs[3], 0x0101_0101 * byte);
        let (answer, storage) = go(&four(0x50, 3, 0, 6, 4), &segments, regs, 0, 1);
        assert_eq!((answer.stop, at(&storage, origin + 4, 4)), (0, &[4u8; 4][..]));
        assert_eq!(stopped(&four(0x50, 3, 0, 6, 0), &segments, regs, 0), 2);
        assert_eq!(stopped(&four(0x50, 3, 0, 6, 8), &segments, regs, 0), 2);
        assert_eq!(stopped(&four(0x58, 3, 0, 6, 32), &segments, regs, 0), 2);
    }
}

#[test]
fn what_is_outside_every_data_segment_is_forbidden() {
    let segments = [data(vec![0; 32], 0, 32)];
    let mut regs = registers();
    for address in
        [0, 4092, PROGRAM, PROGRAM + 4, DATA - 4, DATA + 32, SECOND - 4, SECOND, 16384, FOURTH - 4, FOURTH, 0xFF_FFFC]
    {
        regs[6] = address;
        for op in [0x58, 0x50, 0x48, 0x40] {
            assert_eq!(stopped(&four(op, 3, 0, 6, 0), &segments, regs, 0), 2, "{op:02X} at {address}");
        }
    }
}

#[test]
fn what_is_above_20480_is_forbidden_though_storage_is_longer() {
    let object = reference::assemble::text(&four(0x58, 3, 0, 6, 0), &[data(vec![0; 4096], 0, 4096)]);
    let mut regs = registers();
    for address in [20480, 24576, 65532] {
        regs[6] = address;
        let mut storage = vec![165; 65536];
        let answer = reference::runner::run(&object, regs, 0, 1, &mut storage);
        assert_eq!((answer.number, answer.stop, answer.count), (0, 2, 0));
    }
}
