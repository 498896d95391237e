//! Loading: origins, the table, zeros, and the bytes above.
mod run_support;
use reference::assemble::{data, text};
use reference::objread::DataSegment;
use reference::runner::run;
use reference::spot::Spot;
use run_support::*;

/// Storage after loading alone (budget 0), from `length` bytes of 165.
fn load(program: &[u8], segments: &[DataSegment], length: usize) -> Vec<u8> {
    let mut storage = vec![165; length];
    let answer = run(&text(program, segments), registers(), 2, 0, &mut storage);
    assert_eq!((answer.number, answer.spot, answer.stop, answer.count), (0, Spot::NONE, 0, 0));
    assert_eq!((answer.counter, answer.regs, answer.cc), (4096, loaded(registers()), 2));
    storage
}

/// Zeros with these parts.
fn image(parts: &[(usize, &[u8])]) -> Vec<u8> {
    let mut storage = vec![0; 20480];
    for (at, bytes) in parts {
        storage[*at..*at + bytes.len()].copy_from_slice(bytes);
    }
    storage
}

const ORIGINS: [[u8; 4]; 4] = [[0, 0, 0x10, 0], [0, 0, 0x20, 0], [0, 0, 0x30, 0], [0, 0, 0x40, 0]];

#[test]
fn each_segment_at_its_origin_zeros_elsewhere() {
    let segments = [data(vec![0x11; 24], 16, 24), data(vec![0x22; 4096], 0, 4096), data(vec![0x33; 3], 0, 3)];
    let table: Vec<u8> = ORIGINS.concat();
    let expected =
        image(&[(4096, &[0x0A, 0]), (8192, &table), (8208, &[0x11; 8]), (12288, &[0x22; 4096]), (16384, &[0x33; 3])]);
    assert!(load(&[0x0A, 0], &segments, 20480) == expected);
}

#[test]
fn full_segments_touch() {
    let full = |byte| data(vec![byte; 4096], 0, 4096);
    let storage = load(&[0x44; 4096], &[full(1), full(2), full(3)], 20480);
    assert!(storage[..4096].iter().all(|&byte| byte == 0));
    assert!(storage[4096..8192].iter().all(|&byte| byte == 0x44));
    assert_eq!(storage[8192..8208], ORIGINS.concat());
    assert!(storage[8208..12288].iter().all(|&byte| byte == 1));
    assert!(storage[12288..16384].iter().all(|&byte| byte == 2));
    assert!(storage[16384..20480].iter().all(|&byte| byte == 3));
}

#[test]
fn table_words_only_of_segments_that_exist() {
    for count in 1..=3 {
        let mut segments = vec![data(vec![0x77; 20], 16, 20)];
        segments.resize(count, data(vec![], 0, 0));
        let storage = load(&[0x0A, 0], &segments, 20480);
        for k in 0..4 {
            let word = &storage[8192 + 4 * k..][..4];
            assert_eq!(word, if k <= count { &ORIGINS[k] } else { &[0x77; 4] }, "{count} data segments, word {k}");
        }
        assert_eq!(storage[8208..8212], [0x77; 4]);
    }
}

#[test]
fn table_words_only_where_they_fit() {
    for length in 0..=20 {
        let empty = || data(vec![], 0, 0);
        let storage = load(&[0x0A, 0], &[data(vec![0x77; length], 0, 0), empty(), empty()], 20480);
        let mut expected = vec![0x77; length];
        for k in 0..4 {
            if 4 * k + 4 <= length {
                expected[4 * k..4 * k + 4].copy_from_slice(&ORIGINS[k]);
            }
        }
        expected.resize(64, 0);
        assert_eq!(storage[8192..8256], expected, "length {length}");
    }
}

#[test]
fn segment_1_of_seven_bytes() {
    let storage = load(&[], &[data(vec![0xEE; 7], 0, 7)], 20480);
    assert_eq!(storage[8192..8200], [0, 0, 0x10, 0, 0xEE, 0xEE, 0xEE, 0]);
}

#[test]
fn bytes_above_stay() {
    for length in [20480, 20481, 20484, 40000] {
        let storage = load(&[0x0A, 0], &[data(vec![9; 100], 0, 0)], length);
        assert_eq!(storage.len(), length);
        assert!(storage[20480..].iter().all(|&byte| byte == 165));
        assert!(storage[16384..20480].iter().all(|&byte| byte == 0));
    }
}

#[test]
fn table_words_may_be_overwritten_where_writable() {
    let (answer, storage) = go(&[0x50, 0x30, 0xE0, 0x08], &[data(vec![0; 16], 0, 16)], registers(), 0, 1);
    assert_eq!(answer.stop, 0);
    assert_eq!(storage[8200..8204], [4; 4]);
}

#[test]
fn registers_14_and_15_are_replaced_and_the_others_stay() {
    let (answer, _) = go(&[0x0A, 0], &[cells(&[])], [0xDEAD_BEEF; 16], 3, 5);
    assert_eq!(answer.regs, loaded([0xDEAD_BEEF; 16]));
    assert_eq!((answer.stop, answer.cc), (1, 3));
}
