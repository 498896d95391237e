//! The stored runs: the papers' cases among them, enough of each answer, and every one answered as stored.
use reference::runcase::{answer_line, Case};
use reference::runvectors::{case_1, case_6, case_8, write};
use std::io::BufRead;

const CASE_1: &str = "0100000E\n000000000E5810E0105A10E0145010E0100A00\n0201001800100014\n\
    000100001000000000000000000000000000000000\n00010010080000000500000003\nFF\n";

/// The line after a case.
fn stored_answer(input: &mut &[u8]) -> String {
    let mut line = String::new();
    input.read_line(&mut line).unwrap();
    line.trim_end().to_string()
}

#[test]
fn case_1_is_the_papers_text() {
    assert_eq!(String::from_utf8(case_1()).unwrap(), CASE_1);
}

#[test]
fn cases_6_and_8_have_the_papers_code() {
    let code = |object: Vec<u8>| -> String {
        let program = reference::objread::read(&object).unwrap().program;
        program.iter().map(|byte| format!("{byte:02X}")).collect()
    };
    assert_eq!(code(case_6()), "47F0F00A18001A0107F54550F0040A00");
    assert_eq!(code(case_8()), "5810E0105910E0144720F0145A10E01847F0F0040A00");
}

#[test]
fn stored_runs_are_read_back_and_answered_as_stored() {
    let dir = std::env::temp_dir().join(format!("reference-runvectors-{}", std::process::id()));
    write(dir.to_str().unwrap()).unwrap();
    let (mut numbers, mut stops, mut total) = ([0; 20], [0; 5], 0);
    for name in ["runs", "hercules-runs"] {
        let bytes = std::fs::read(dir.join(name)).unwrap();
        assert!(bytes.len() < 3_000_000, "{name} has {} bytes", bytes.len());
        let mut input = &bytes[..];
        while let Some(case) = Case::read(&mut input).unwrap() {
            let (answer, storage) = case.run();
            assert_eq!(stored_answer(&mut input), answer_line(&answer, &storage));
            if name == "runs" {
                total += 1;
                numbers[answer.number as usize] += 1;
                if answer.number == 0 {
                    stops[answer.stop as usize] += 1;
                }
            }
        }
    }
    std::fs::remove_dir_all(dir).unwrap();
    assert!(total >= 3_000);
    assert!(numbers[17] >= 100 && numbers[18] >= 100 && numbers[19] >= 100, "{numbers:?}");
    assert!(stops.iter().all(|&times| times >= 100), "{stops:?}");
}
