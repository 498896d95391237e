//! Refusals 17 to 19, in their order, and what they leave untouched.
mod run_support;
use reference::assemble::{data, text, text_of};
use reference::objread::{read, ObjectText};
use reference::runner::run;
use reference::spot::Spot;
use run_support::registers;

const CASE_1: &str = "0100000E\n000000000E5810E0105A10E0145010E0100A00\n0201001800100014\n\
    000100001000000000000000000000000000000000\n00010010080000000500000003\nFF\n";

/// The number that a run of this text gives; a refusal has to leave everything as given.
fn number(object: &[u8], cc: u64, storage_length: usize) -> u32 {
    let mut storage = vec![165; storage_length];
    let answer = run(object, registers(), cc, 7, &mut storage);
    if answer.number != 0 {
        assert_eq!((answer.spot, answer.stop, answer.counter, answer.count), (Spot::NONE, 0, 0, 0));
        assert_eq!((answer.regs, answer.cc), (registers(), cc));
        assert!(storage.iter().all(|&byte| byte == 165), "storage untouched");
    }
    answer.number
}

fn is_17(object: &str) {
    assert_eq!(number(object.as_bytes(), 0, 20480), 17, "{object:?}");
}

fn is_0(object: &str) {
    assert_eq!(number(object.as_bytes(), 0, 20480), 0, "{object:?}");
}

/// Lines, each ended by byte 10.
fn lines(lines: &[&str]) -> String {
    lines.iter().map(|line| format!("{line}\n")).collect()
}

#[test]
fn case_1_is_accepted() {
    assert_eq!(CASE_1.len(), 138);
    is_0(CASE_1);
}

#[test]
fn the_smallest_and_the_largest() {
    is_0(&lines(&["01000000", "0201000000000000", "FF"]));
    let full = || data(vec![0xAB; 4096], 0, 4096);
    let object = text(&vec![0x07; 4096], &[full(), full(), full()]);
    assert_eq!(number(&object, 0, 20480), 0);
    assert_eq!(read(&object).unwrap().data[2].bytes, vec![0xAB; 4096]);
}

#[test]
fn every_program_length_to_the_limit() {
    for length in (0..40).chain(4080..=4096) {
        let object = text(&vec![0x18; length], &[data(vec![1; 4096 - length], 0, 0)]);
        assert_eq!(number(&object, 0, 20480), 0, "{length}");
    }
}

#[test]
fn any_from_to_and_length_in_order() {
    for (from, to) in [(0, 0), (0, 20), (20, 20), (7, 13), (16, 16), (1, 20)] {
        assert_eq!(number(&text(&[0x0A, 0], &[data(vec![0; 20], from, to)]), 0, 20480), 0);
    }
    for (from, to) in [(1, 0), (20, 19), (0, 21), (21, 21), (17, 16), (65535, 65535), (0, 65535), (65535, 0)] {
        assert_eq!(number(&text(&[0x0A, 0], &[data(vec![0; 20], from, to)]), 0, 20480), 17, "{from} {to}");
    }
}

#[test]
fn lengths_over_4096() {
    assert_eq!(number(&text(&vec![7; 4097], &[data(vec![], 0, 0)]), 0, 20480), 17);
    assert_eq!(number(&text(&[10, 0], &[data(vec![0; 4097], 0, 0)]), 0, 20480), 17);
    let small = || data(vec![], 0, 0);
    assert_eq!(number(&text(&[10, 0], &[small(), data(vec![0; 4097], 0, 0)]), 0, 20480), 17);
    assert_eq!(number(&text(&[10, 0], &[small(), small(), data(vec![0; 4097], 0, 0)]), 0, 20480), 17);
    is_17(&lines(&["0100FFFF", "0201000000000000", "FF"]));
}

#[test]
fn the_number_of_heads() {
    let small = || data(vec![1, 2], 0, 2);
    for (count, expected) in [(0, 17), (1, 0), (2, 0), (3, 0), (4, 17), (5, 17)] {
        let segments: Vec<_> = (0..count).map(|_| small()).collect();
        assert_eq!(number(&text(&[0x0A, 0], &segments), 0, 20480), expected, "{count} data heads");
    }
    is_17(&lines(&["0201000000000000", "FF"]));
    is_17(&lines(&["01000000", "01000000", "0201000000000000", "FF"]));
    is_17(&lines(&["01000000", "0201000000000000", "01000000", "FF"]));
    is_17(&lines(&["0201000000000000", "01000000", "FF"]));
    is_17(&lines(&["FF"]));
}

#[test]
fn the_numbers_of_heads() {
    is_17(&lines(&["01010000", "0201000000000000", "FF"]));
    is_17(&lines(&["01000000", "0200000000000000", "FF"]));
    is_17(&lines(&["01000000", "0202000000000000", "FF"]));
    is_17(&lines(&["01000000", "0201000000000000", "0201000000000000", "FF"]));
    is_17(&lines(&["01000000", "0201000000000000", "0203000000000000", "FF"]));
    is_17(&lines(&["01000000", "0202000000000000", "0201000000000000", "FF"]));
    is_17(&lines(&["01000000", "0201000000000000", "0203000000000000", "0202000000000000", "FF"]));
    is_0(&lines(&["01000000", "0201000000000000", "0202000000000000", "0203000000000000", "FF"]));
}

#[test]
fn the_lengths_of_frames() {
    is_17(&lines(&["010000", "0201000000000000", "FF"]));
    is_17(&lines(&["0100000000", "0201000000000000", "FF"]));
    is_17(&lines(&["01000000", "02010000", "FF"]));
    is_17(&lines(&["01000000", "02010000000000", "FF"]));
    is_17(&lines(&["01000000", "020100000000000000", "FF"]));
    is_17(&lines(&["01000000", "0201000000000000", "FF00"]));
    is_17(&lines(&["01000000", "0201000000000000", "FFFF"]));
    is_17(&lines(&["01000000", "020100000000000", "FF"]));
    is_17(&lines(&["01000000", "0201000000000000", "F"]));
    is_17(&lines(&["01000000", "0201000000000000", "FE"]));
    is_17(&lines(&["03000000", "0201000000000000", "FF"]));
}

#[test]
fn content_frames() {
    let head = "0201000000000000";
    is_0(&lines(&["01000002", "00000000020A00", head, "FF"]));
    is_17(&lines(&["01000002", head, "FF"])); // none
    is_17(&lines(&["01000002", "00000000020A00", "00000000020A00", head, "FF"])); // twice
    is_17(&lines(&["01000002", "00000000020A00", "000000020 0", head, "FF"]));
    is_17(&lines(&["01000002", "00000000010A", "000000010100", head, "FF"])); // two short ones
    is_17(&lines(&["01000002", "00000000010A", head, "FF"])); // too short
    is_17(&lines(&["01000002", "00000000030A0000", head, "FF"])); // too long
    is_17(&lines(&["01000002", "00000000010A00", head, "FF"])); // count too small
    is_17(&lines(&["01000002", "00000000030A00", head, "FF"])); // count too large
    is_17(&lines(&["01000002", "00010000020A00", head, "FF"])); // number of another segment
    is_17(&lines(&["01000002", "00000002020A00", head, "FF"])); // offset
    is_17(&lines(&["01000002", "01000000020A00", head, "FF"])); // kind of frame
    is_17(&lines(&["01000002", "00000000020A00", "0000000200", head, "FF"])); // an empty last frame
    is_17(&lines(&["01000000", "0000000000", head, "FF"])); // an empty frame of an empty segment
    is_17(&lines(&["00000000020A00", "01000002", head, "FF"])); // before its head
    is_17(&lines(&["01000002", head, "00000000020A00", "FF"])); // after another head
}

#[test]
fn sixteen_bytes_a_frame() {
    let sixteen = "0".repeat(32);
    let seventeen = "0".repeat(34);
    let head = "0201000000000000";
    is_0(&lines(&["01000010", &format!("0000000010{sixteen}"), head, "FF"]));
    is_0(&lines(&["01000011", &format!("0000000010{sixteen}"), "000000100100", head, "FF"]));
    is_17(&lines(&["01000011", &format!("0000000011{seventeen}"), head, "FF"]));
    is_17(&lines(&["01000011", "000000000100", &format!("0000000110{sixteen}"), head, "FF"]));
    is_17(&lines(&["01000010", "00000000080000000000000000", "00000008080000000000000000", head, "FF"]));
    is_17(&lines(&["01000011", "000000100100", &format!("0000000010{sixteen}"), head, "FF"]));
    is_17(&lines(&["01000010", &format!("0000000010{sixteen}"), "0000001000", head, "FF"]));
}

#[test]
fn ends_of_lines_and_of_the_text() {
    is_17("");
    is_17("\n");
    is_17(CASE_1.trim_end());
    is_17(&CASE_1.replace('\n', "\r\n"));
    is_17(&CASE_1.replace('\n', "\r"));
    is_17(&CASE_1.replace('\n', " \n"));
    is_17(&CASE_1.replace('\n', "\n\n"));
    is_17(&CASE_1.replace('\n', ""));
    is_17(&format!("{CASE_1}\n"));
    is_17(&format!("{CASE_1}FF\n"));
    is_17(&format!("{CASE_1}{CASE_1}"));
    is_17(&format!("\n{CASE_1}"));
    is_17(&format!(" {CASE_1}"));
    is_17(&format!("{CASE_1}\0"));
    is_17(CASE_1.strip_suffix("FF\n").unwrap());
    is_17(&format!("FF\n{CASE_1}"));
}

#[test]
fn only_capital_hexadecimal_digits() {
    is_17(&CASE_1.to_lowercase());
    is_17(&CASE_1.replace("FF", "ff"));
    is_17(&CASE_1.replace("FF", "Ff"));
    is_17(&CASE_1.replacen('A', "a", 1));
    for wrong in ["G", "@", "/", ":", "`", " ", "-", "+", "\u{0}", "x"] {
        is_17(&CASE_1.replacen('E', wrong, 1));
    }
    let mut bytes = CASE_1.as_bytes().to_vec();
    for byte in [0x80, 0xB0, 0xC1, 0xFF] {
        bytes[3] = byte;
        assert_eq!(number(&bytes, 0, 20480), 17);
    }
}

#[test]
fn every_prefix_of_a_text_is_17() {
    for length in 0..CASE_1.len() {
        is_17(&CASE_1[..length]);
    }
}

/// One changed byte gives 17, or a text that the writer gives back for what was read.
#[test]
fn every_change_of_a_byte() {
    let case = CASE_1.as_bytes();
    let (mut accepted, mut refused) = (0, 0);
    for place in 0..case.len() {
        for byte in 0..=255 {
            let mut changed = case.to_vec();
            changed[place] = byte;
            match read(&changed) {
                Some(object) => {
                    assert_eq!(text_of(&object), changed);
                    accepted += 1;
                }
                None => refused += 1,
            }
        }
    }
    // Free digits: 14, 16 and 8 bytes of content with 16 values for each digit, and the places where from and to may go.
    assert!(accepted >= 2 * (14 + 16 + 8) * 16, "{accepted}");
    assert!(refused > 200 * case.len(), "{refused}");
}

#[test]
fn every_line_left_out_doubled_or_exchanged_is_17() {
    let object = text(&[0x18; 40], &[data(vec![1; 33], 16, 20), data(vec![2; 17], 0, 17), data(vec![3; 2], 0, 0)]);
    let object = String::from_utf8(object).unwrap();
    let all: Vec<&str> = object.lines().collect();
    is_0(&lines(&all));
    for i in 0..all.len() {
        let mut without = all.clone();
        without.remove(i);
        // Without the last head and its only content frame the text would be whole; without one of them it is not.
        is_17(&lines(&without));
        let mut doubled = all.clone();
        doubled.insert(i, all[i]);
        is_17(&lines(&doubled));
        for j in 0..i {
            let mut exchanged = all.clone();
            exchanged.swap(i, j);
            is_17(&lines(&exchanged));
        }
    }
}

#[test]
fn reading_gives_back_what_was_written() {
    for (program, one, two) in [(0, 0, 0), (1, 7, 15), (16, 16, 16), (17, 32, 33), (4096, 4095, 4096)] {
        let bytes = |length: usize| (0..length).map(|i| (7 * i + 3) as u8).collect::<Vec<u8>>();
        let object = ObjectText {
            program: bytes(program),
            data: vec![data(bytes(one), one / 3, one / 2), data(bytes(two), 0, two)],
        };
        assert_eq!(read(&text_of(&object)), Some(object));
    }
}

#[test]
fn refusal_18_for_every_code_over_3() {
    for cc in [0, 1, 2, 3] {
        assert_eq!(number(CASE_1.as_bytes(), cc, 20480), 0);
    }
    for cc in [4, 5, 255, 256, 257, 65536, 1 << 32, (1 << 32) + 3, u64::MAX] {
        assert_eq!(number(CASE_1.as_bytes(), cc, 20480), 18, "{cc}");
    }
}

#[test]
fn refusal_19_for_storage_under_20480() {
    for length in [0, 1, 4096, 8192, 16384, 20476, 20478, 20479] {
        assert_eq!(number(CASE_1.as_bytes(), 0, length), 19, "{length}");
    }
    for length in [20480, 20481, 65536] {
        assert_eq!(number(CASE_1.as_bytes(), 0, length), 0, "{length}");
    }
}

#[test]
fn refusals_in_order() {
    assert_eq!(number(b"", 4, 0), 17);
    assert_eq!(number(b"", 0, 0), 17);
    assert_eq!(number(b"FF\n", 4, 20480), 17);
    assert_eq!(number(CASE_1.as_bytes(), 4, 0), 18);
    assert_eq!(number(CASE_1.as_bytes(), 9, 20479), 18);
    assert_eq!(number(CASE_1.as_bytes(), 3, 20479), 19);
}
