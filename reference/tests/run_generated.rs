//! What holds of every run, tried on generated ones, and that the generator brings up every answer.
use reference::genrun::{cases, histogram};
use reference::objread::{read, DataSegment};
use reference::runcase::{Case, STORAGE_BEFORE};
use reference::runner::STORAGE_NEEDED;

const SEED: u64 = 2024;

/// Every refusal and every stop comes at least 1 time in 50.
#[test]
fn every_answer_is_well_represented() {
    let count = 10_000;
    let (mut numbers, mut stops) = ([0; 20], [0; 5]);
    for case in cases(SEED).take(count) {
        let (answer, _) = case.run();
        numbers[answer.number as usize] += 1;
        if answer.number == 0 {
            stops[answer.stop as usize] += 1;
        }
    }
    for number in [17, 18, 19] {
        assert!(numbers[number] >= count / 50, "refusal {number}: {}", numbers[number]);
    }
    for (stop, &times) in stops.iter().enumerate() {
        assert!(times >= count / 50, "stop {stop}: {times}");
    }
}

/// Each listed opcode but the end completes, with each condition code it can leave.
#[test]
fn every_opcode_with_every_code() {
    let text = histogram(SEED, 20_000);
    let never: [(&str, &[usize]); 16] = [
        ("10", &[1]),
        ("11", &[2, 3]),
        ("14", &[2, 3]),
        ("16", &[2, 3]),
        ("17", &[2, 3]),
        ("19", &[3]),
        ("1F", &[0]), //
        ("49", &[3]),
        ("54", &[2, 3]),
        ("56", &[2, 3]),
        ("57", &[2, 3]),
        ("59", &[3]),
        ("5F", &[0]),
        ("8A", &[3]),
        ("12", &[3]),
        ("95", &[3]),
    ];
    let rows: Vec<&str> = text.lines().filter(|line| line.starts_with("opcode")).collect();
    assert_eq!(rows.len(), 43);
    for row in rows {
        let opcode = &row[7..9];
        let times: Vec<u64> = row.split(": ").nth(1).unwrap().split(' ').map(|n| n.parse().unwrap()).collect();
        for (code, &times) in times.iter().enumerate() {
            let impossible = never.iter().any(|(op, codes)| *op == opcode && codes.contains(&code));
            assert_eq!(times == 0, impossible, "{row}");
        }
    }
}

#[test]
fn the_same_seed_gives_the_same_cases() {
    let first: Vec<Case> = cases(7).take(500).collect();
    let again: Vec<Case> = cases(7).take(500).collect();
    let other: Vec<Case> = cases(8).take(500).collect();
    assert!(first == again);
    assert!(first != other);
}

#[test]
fn cases_are_read_back_as_written() {
    let mut bytes = Vec::new();
    let all: Vec<Case> = cases(11).take(500).collect();
    for case in &all {
        case.write(&mut bytes).unwrap();
    }
    let mut input = &bytes[..];
    for case in &all {
        assert_eq!(Case::read(&mut input).unwrap().as_ref(), Some(case));
    }
    assert_eq!(Case::read(&mut input).unwrap(), None);
}

/// With the count as budget the run is the same but for stop 0; with one more the instruction stops as before.
#[test]
fn the_count_is_the_number_of_completed_instructions() {
    for case in cases(SEED).take(3_000) {
        let (answer, storage) = case.run();
        if answer.number != 0 {
            continue;
        }
        assert!(answer.count <= case.budget);
        assert_eq!(answer.stop == 0, answer.count == case.budget);
        let (shorter, same_storage) = Case { budget: answer.count, ..case.clone() }.run();
        assert_eq!(
            (shorter.stop, shorter.counter, shorter.regs, shorter.cc, shorter.count),
            (0, answer.counter, answer.regs, answer.cc, answer.count)
        );
        assert!(storage == same_storage);
        if answer.stop != 0 {
            let (longer, same_storage) = Case { budget: answer.count + 1, ..case }.run();
            assert_eq!(longer, answer);
            assert!(storage == same_storage);
        }
    }
}

/// Only writable bytes change after loading; a refusal changes none.
#[test]
fn storage_outside_the_writable_parts_stays_as_loaded() {
    for case in cases(SEED).take(3_000) {
        let (answer, storage) = case.run();
        if answer.number != 0 {
            assert!(storage.iter().all(|&byte| byte == STORAGE_BEFORE));
            continue;
        }
        let (_, loaded) = Case { budget: 0, ..case.clone() }.run();
        let object = read(&case.object).unwrap();
        let writable = |address: usize| {
            let segment = |k: usize| object.data.get(k.wrapping_sub(2));
            let inside = |s: &DataSegment| (s.from..s.to).contains(&(address % 4096));
            segment(address / 4096).is_some_and(inside)
        };
        assert!((0..storage.len()).all(|a| storage[a] == loaded[a] || writable(a)));
        assert!(storage[STORAGE_NEEDED..].iter().all(|&byte| byte == STORAGE_BEFORE));
    }
}
