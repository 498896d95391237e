//! Every instruction on values, with every condition-code case that it has.
mod run_support;
use run_support::*;

/// (first, second, result, code); whatever the code was before.
type Row = (u32, u32, u32, u64);

const M1: u32 = 0xFFFF_FFFF;

const ADD: [Row; 14] = [
    (0, 0, 0, 0),
    (1, M1, 0, 0),
    (5, 0xFFFF_FFF9, 0xFFFF_FFFE, 1),
    (MIN, 0, MIN, 1),
    (MIN, MAX, M1, 1),
    (M1, M1, 0xFFFF_FFFE, 1),
    (5, 7, 12, 2),
    (MAX, 0, MAX, 2),
    (MAX, M1, MAX - 1, 2),
    (MAX, 1, MIN, 3),
    (MAX, MAX, 0xFFFF_FFFE, 3),
    (MIN, M1, MAX, 3),
    (MIN, MIN, 0, 3),
    (0x4000_0000, 0x4000_0000, MIN, 3),
];

const SUBTRACT: [Row; 14] = [
    (0, 0, 0, 0),
    (MIN, MIN, 0, 0),
    (MAX, MAX, 0, 0),
    (5, 7, 0xFFFF_FFFE, 1),
    (M1, MAX, MIN, 1),
    (MIN, 0, MIN, 1),
    (7, 5, 2, 2),
    (0, M1, 1, 2),
    (M1, MIN, MAX, 2),
    (MIN, 1, MAX, 3),
    (MAX, M1, MIN, 3),
    (0, MIN, MIN, 3),
    (1, MIN, 0x8000_0001, 3),
    (MAX, MIN, M1, 3),
];

const ADD_LOGICAL: [Row; 11] = [
    (0, 0, 0, 0),
    (0, 1, 1, 1),
    (MAX, 1, MIN, 1),
    (MIN, MAX, M1, 1),
    (M1, 0, M1, 1),
    (1, M1, 0, 2),
    (MIN, MIN, 0, 2),
    (M1, M1, 0xFFFF_FFFE, 3),
    (MIN, 0x8000_0001, 1, 3),
    (M1, MIN, MAX, 3),
    (2, M1, 1, 3),
];

const SUBTRACT_LOGICAL: [Row; 12] = [
    (0, 1, M1, 1),
    (0, M1, 1, 1),
    (0, MIN, MIN, 1),
    (MAX, MIN, M1, 1),
    (MIN, M1, 0x8000_0001, 1),
    (0, 0, 0, 2),
    (M1, M1, 0, 2),
    (MIN, MIN, 0, 2),
    (1, 0, 1, 3),
    (M1, 0, M1, 3),
    (MIN, 1, MAX, 3),
    (M1, MIN, MAX, 3),
];

const COMPARE: [Row; 14] = [
    (0, 0, 0, 0),
    (MIN, MIN, 0, 0),
    (M1, M1, 0, 0),
    (MIN, MAX, 0, 1),
    (MIN, 0, 0, 1),
    (M1, 0, 0, 1),
    (0, 1, 0, 1),
    (M1, MAX, 0, 1),
    (MAX, MIN, 0, 2),
    (0, MIN, 0, 2),
    (0, M1, 0, 2),
    (1, 0, 0, 2),
    (MAX, M1, 0, 2),
    (MAX, MAX - 1, 0, 2),
];

/// Both the register and the full-word form, from each code.
fn both(register: u8, word: u8, rows: &[Row]) {
    for &(first, second, result, code) in rows {
        for cc in 0..4 {
            assert_eq!(by_register(register, first, second, cc), (result, code), "{register:02X} {first:X} {second:X}");
            assert_eq!(by_cell(word, first, second, 4, cc), (result, code), "{word:02X} {first:X} {second:X}");
        }
    }
}

#[test]
fn add() {
    both(0x1A, 0x5A, &ADD);
}

#[test]
fn subtract() {
    both(0x1B, 0x5B, &SUBTRACT);
}

#[test]
fn add_logical() {
    both(0x1E, 0x5E, &ADD_LOGICAL);
}

#[test]
fn subtract_logical_never_gives_0() {
    both(0x1F, 0x5F, &SUBTRACT_LOGICAL);
    for first in [0, 1, MAX, MIN, M1] {
        for second in [0, 1, MAX, MIN, M1] {
            assert_ne!(by_register(0x1F, first, second, 0).1, 0);
        }
    }
}

#[test]
fn compare_changes_only_the_code() {
    let rows: Vec<Row> = COMPARE.iter().map(|&(first, second, _, code)| (first, second, first, code)).collect();
    both(0x19, 0x59, &rows);
}

#[test]
fn and_or_exclusive_or() {
    both(0x14, 0x54, &[(0xF0F0, 0x0FF0, 0x00F0, 1), (0xF0F0, 0x0F0F, 0, 0), (M1, MIN, MIN, 1), (0, M1, 0, 0)]);
    both(0x16, 0x56, &[(0xF0F0, 0x0FF0, 0xFFF0, 1), (0, 0, 0, 0), (0, MIN, MIN, 1), (M1, 0, M1, 1)]);
    both(0x17, 0x57, &[(0xF0F0, 0x0FF0, 0xFF00, 1), (MIN, MIN, 0, 0), (0, 0, 0, 0), (MAX, M1, MIN, 1)]);
}

#[test]
fn logical_instructions_of_a_register_with_itself() {
    let mut regs = registers();
    for (op, value, result, code) in [
        (0x14, MIN, MIN, 1),
        (0x16, 0, 0, 0),
        (0x17, M1, 0, 0),
        (0x1B, MIN, 0, 0),
        (0x1A, MIN, 0, 3),
        (0x1E, MIN, 0, 2),
    ] {
        regs[3] = value;
        let (answer, _) = one(&[op, 0x33], cells(&[]), regs, 3);
        assert_eq!((answer.regs[3], answer.cc), (result, code), "{op:02X}");
    }
}

#[test]
fn loads_leave_the_code() {
    for cc in 0..4 {
        for value in [0, 1, MAX, MIN, M1] {
            assert_eq!(by_register(0x18, 77, value, cc), (value, cc));
            assert_eq!(by_cell(0x58, 77, value, 4, cc), (value, cc));
        }
        for (half, value) in [(0, 0), (1, 1), (0x7FFF, 0x7FFF), (0x8000, 0xFFFF_8000), (0xFFFF, M1)] {
            assert_eq!(by_cell(0x48, 77, half, 2, cc), (value, cc));
        }
    }
}

#[test]
fn half_words_are_extended_by_their_sign() {
    let add: [Row; 8] = [
        (0, 0, 0, 0),
        (1, 0xFFFF, 0, 0),
        (0x8000, 0x8000, 0, 0),
        (0, 0x8000, 0xFFFF_8000, 1),
        (0x10000, 0x8000, 0x8000, 2),
        (MAX, 1, MIN, 3),
        (MIN, 0x8000, 0x7FFF_8000, 3),
        (MAX - 0x7FFE, 0x7FFF, MIN, 3),
    ];
    let subtract: [Row; 8] = [
        (0, 0, 0, 0),
        (0xFFFF_8000, 0x8000, 0, 0),
        (0, 0x7FFF, 0xFFFF_8001, 1),
        (0, 0x8000, 0x8000, 2),
        (0, 0xFFFF, 1, 2),
        (MIN, 1, MAX, 3),
        (MAX, 0xFFFF, MIN, 3),
        (MAX - 0x7FFF, 0x8000, MIN, 3),
    ];
    let compare: [Row; 7] = [
        (M1, 0xFFFF, M1, 0),
        (0xFFFF_8000, 0x8000, 0xFFFF_8000, 0),
        (0xFFFF, 0xFFFF, 0xFFFF, 2),
        (MIN, 0x8000, MIN, 1),
        (0x7FFE, 0x7FFF, 0x7FFE, 1),
        (0x8000, 0x7FFF, 0x8000, 2),
        (0, 0x8000, 0, 2),
    ];
    for (op, rows) in [(0x4A, &add[..]), (0x4B, &subtract[..]), (0x49, &compare[..])] {
        for &(first, second, result, code) in rows {
            for cc in 0..4 {
                assert_eq!(by_cell(op, first, second, 2, cc), (result, code), "{op:02X} {first:X} {second:X}");
            }
        }
    }
}

#[test]
fn half_word_product_keeps_32_bits_and_the_code() {
    for cc in 0..4 {
        for (first, half, result) in [
            (0, 5, 0),
            (7, 6, 42),
            (7, 0xFFFF, neg(7)),
            (neg(7), 0xFFFF, 7),
            (MAX, 2, 0xFFFF_FFFE),
            (MIN, 0xFFFF, MIN),
            (MIN, 0x8000, 0),
            (0x0001_0001, 0x7FFF, 0x7FFF_7FFF),
            (0x0001_0000, 0x8000, 0x8000_0000),
            (0x1234_5678, 0x8000, 0xD4C4_0000),
        ] {
            assert_eq!(by_cell(0x4C, first, half, 2, cc), (result, cc), "{first:X} {half:X}");
        }
    }
}

/// 1C and 5C with the even register 4: the odd register 5 is the factor, both get the product, the code stays.
#[test]
fn products_fill_the_pair() {
    let rows = [
        (0, 0, 0, 0),
        (3, 4, 0, 12),
        (3, neg(4), M1, neg(12)),
        (neg(3), neg(4), 0, 12),
        (MAX, MAX, 0x3FFF_FFFF, 1),
        (MIN, MIN, 0x4000_0000, 0),
        (MIN, MAX, 0xC000_0000, MIN),
        (MIN, M1, 0, MIN),
        (M1, M1, 0, 1),
        (0x0001_0000, 0x0001_0000, 1, 0),
        (MIN, 1, M1, MIN),
    ];
    for (first, second, high, low) in rows {
        for cc in 0..4 {
            let mut regs = registers();
            (regs[5], regs[9]) = (first, second);
            let mut expected = loaded(regs);
            (expected[4], expected[5]) = (high, low);
            let (answer, _) = one(&[0x1C, 0x49], cells(&[]), regs, cc);
            assert_eq!((answer.regs, answer.cc), (expected, cc), "{first:X} {second:X}");
            let (answer, _) = one(&[0x5C, 0x40, 0xE0, 0x10], cells(&second.to_be_bytes()), regs, cc);
            assert_eq!((answer.regs, answer.cc), (expected, cc), "{first:X} {second:X}");
        }
    }
}

#[test]
fn a_product_may_name_its_own_pair() {
    let mut regs = registers();
    (regs[4], regs[5]) = (10, neg(3));
    let (answer, _) = one(&[0x1C, 0x44], cells(&[]), regs, 0);
    assert_eq!((answer.regs[4], answer.regs[5]), (M1, neg(30)), "the even register is the factor");
    let (answer, _) = one(&[0x1C, 0x45], cells(&[]), regs, 0);
    assert_eq!((answer.regs[4], answer.regs[5]), (0, 9), "the odd register squared");
    let (answer, _) = one(&[0x1C, 0xE1], cells(&[]), regs, 0);
    let product = 4096u64 * regs[1] as u64;
    assert_eq!((answer.regs[14], answer.regs[15]), ((product >> 32) as u32, product as u32), "the pair 14, 15");
}

#[test]
fn load_positive_negative_complement() {
    for cc in 0..4 {
        for (value, result, code) in
            [(0, 0, 0), (1, 1, 2), (MAX, MAX, 2), (M1, 1, 2), (0x8000_0001, MAX, 2), (MIN, MIN, 3)]
        {
            assert_eq!(by_register(0x10, 77, value, cc), (result, code), "10 {value:X}");
        }
        for (value, result, code) in [(0, 0, 0), (1, M1, 1), (MAX, 0x8000_0001, 1), (M1, M1, 1), (MIN, MIN, 1)] {
            assert_eq!(by_register(0x11, 77, value, cc), (result, code), "11 {value:X}");
        }
        for (value, result, code) in
            [(0, 0, 0), (1, M1, 1), (MAX, 0x8000_0001, 1), (M1, 1, 2), (0x8000_0001, MAX, 2), (MIN, MIN, 3)]
        {
            assert_eq!(by_register(0x13, 77, value, cc), (result, code), "13 {value:X}");
        }
    }
}

#[test]
fn logical_shifts_leave_the_code() {
    for cc in 0..4 {
        for (value, amount, left, right) in [
            (0x8000_0001, 0, 0x8000_0001, 0x8000_0001),
            (0x8000_0001, 1, 2, 0x4000_0000),
            (M1, 31, MIN, 1),
            (M1, 32, 0, 0),
            (M1, 33, 0, 0),
            (M1, 63, 0, 0),
            (0x0000_FF00, 8, 0x00FF_0000, 0xFF),
            (M1, 64, M1, M1),
            (M1, 65, 0xFFFF_FFFE, MAX),
            (M1, 4095, 0, 0),
        ] {
            assert_eq!(shifted(0x89, value, amount, cc), (left, cc), "89 {value:X} {amount}");
            assert_eq!(shifted(0x88, value, amount, cc), (right, cc), "88 {value:X} {amount}");
        }
    }
}

#[test]
fn arithmetic_right_shifts() {
    for cc in 0..4 {
        for (value, amount, result, code) in [
            (0, 0, 0, 0),
            (MIN, 0, MIN, 1),
            (MAX, 0, MAX, 2),
            (1, 1, 0, 0),
            (M1, 1, M1, 1),
            (MIN, 1, 0xC000_0000, 1),
            (MAX, 30, 1, 2),
            (MAX, 31, 0, 0),
            (MIN, 31, M1, 1),
            (MAX, 32, 0, 0),
            (MIN, 32, M1, 1),
            (MAX, 63, 0, 0),
            (MIN, 63, M1, 1),
            (7, 64, 7, 2),
        ] {
            assert_eq!(shifted(0x8A, value, amount, cc), (result, code), "8A {value:X} {amount}");
        }
    }
}

#[test]
fn arithmetic_left_shifts() {
    for cc in 0..4 {
        for (value, amount, result, code) in [
            (0, 0, 0, 0),
            (MIN, 0, MIN, 1),
            (MAX, 0, MAX, 2),
            (0, 63, 0, 0),
            (1, 30, 0x4000_0000, 2),
            (1, 31, 0, 3),
            (1, 32, 0, 3),
            (1, 63, 0, 3),
            (0x3FFF_FFFF, 1, 0x7FFF_FFFE, 2),
            (0x4000_0000, 1, 0, 3),
            (MAX, 1, 0x7FFF_FFFE, 3),
            (M1, 1, 0xFFFF_FFFE, 1),
            (M1, 30, 0xC000_0000, 1),
            (M1, 31, MIN, 1),
            (M1, 32, MIN, 3),
            (M1, 63, MIN, 3),
            (0xC000_0000, 1, MIN, 1),
            (0xC000_0000, 2, MIN, 3),
            (0xBFFF_FFFF, 1, 0xFFFF_FFFE, 3),
            (MIN, 1, MIN, 3),
            (MIN, 31, MIN, 3),
            (MIN, 63, MIN, 3),
            (0x8000_0001, 31, MIN, 3),
            (3, 64, 3, 2),
        ] {
            assert_eq!(shifted(0x8B, value, amount, cc), (result, code), "8B {value:X} {amount}");
        }
    }
}

/// The rule one bit at a time: the 31 bits move, the sign stays, a bit unlike the sign lost is overflow.
#[test]
fn arithmetic_left_shifts_bit_by_bit() {
    let values = [
        0,
        1,
        2,
        3,
        0x55,
        0x3FFF_FFFF,
        0x4000_0000,
        MAX - 1,
        MAX,
        MIN,
        MIN + 1,
        0xBFFF_FFFF,
        0xC000_0000,
        0xFFFF_0000,
        M1 - 1,
        M1,
    ];
    for value in values {
        for amount in 0..64 {
            let sign = value >> 31;
            let (mut bits, mut overflow) = (value & MAX, false);
            for _ in 0..amount {
                overflow |= bits >> 30 != sign;
                bits = (bits << 1) & MAX;
            }
            let result = (sign << 31) | bits;
            let code = match (overflow, result, sign) {
                (true, _, _) => 3,
                (_, 0, _) => 0,
                (_, _, 1) => 1,
                _ => 2,
            };
            assert_eq!(shifted(0x8B, value, amount, 0), (result, code), "{value:X} {amount}");
        }
    }
}

#[test]
fn a_shift_takes_the_low_six_bits_of_base_plus_displacement() {
    let mut regs = registers();
    regs[3] = 1;
    for (base, displacement, amount) in [
        (0u32, 5u16, 5u32),
        (64, 5, 5),
        (0xFFFF_FFC0, 7, 7),
        (0xFFFF_FFFF, 1, 0),
        (31, 32, 63),
        (60, 7, 3),
        (0x0100_0002, 0, 2),
        (1, 4095, 0),
    ] {
        regs[6] = base;
        let shift = [0x89, 0x30, 0x60 | (displacement / 256) as u8, displacement as u8];
        let (answer, _) = one(&shift, cells(&[]), regs, 0);
        assert_eq!(answer.regs[3], (1u64 << amount) as u32, "{base:X} + {displacement}");
    }
}

#[test]
fn a_shift_ignores_its_second_field_and_takes_base_0_as_zero() {
    let mut regs = registers();
    (regs[0], regs[3], regs[7]) = (9, 1, 9);
    for op in [0x88, 0x89, 0x8A, 0x8B] {
        let with = one(&[op, 0x37, 0x00, 0x00], cells(&[]), regs, 0).0;
        let without = one(&[op, 0x30, 0x00, 0x00], cells(&[]), regs, 0).0;
        assert_eq!(with, without);
        assert_eq!(with.regs[3], 1, "neither register 7 nor register 0 is the amount");
    }
}

#[test]
fn a_shift_may_shift_its_own_amount() {
    let mut regs = registers();
    regs[3] = 3;
    assert_eq!(one(&[0x89, 0x30, 0x30, 0x00], cells(&[]), regs, 0).0.regs[3], 24);
}
