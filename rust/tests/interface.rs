//! What the wrapper says of every lent byte, tried; and the examples of the repository through it.

use std::path::{Path, PathBuf};
use tautgaff::{run, translate, translated, End, Refusal, Stop, OBJECT_LIMIT, SOURCE_LIMIT, STORAGE_NEEDED};

const BEFORE: u8 = 165;

fn example(name: &str) -> PathBuf {
    Path::new(env!("CARGO_MANIFEST_DIR")).join("../examples").join(name)
}

fn read(name: &str) -> Vec<u8> {
    std::fs::read(example(name)).expect(name)
}

fn lines(name: &str) -> Vec<String> {
    let text = String::from_utf8(read(name)).expect("a text");
    text.lines().filter(|line| !line.starts_with('#')).map(str::to_string).collect()
}

/// One that stands at no line.
fn refusal(number: u8, place: usize) -> Refusal {
    Refusal { number, place, line: 0, column: 0 }
}

/// Sixteen registers, no two of them alike.
fn registers() -> [u32; 16] {
    let mut registers = [0; 16];
    (0..16).for_each(|i| registers[i as usize] = 0x8000_0000 + i);
    registers
}

#[test]
fn every_example_has_its_stored_answer() {
    for line in lines("texts") {
        let words: Vec<&str> = line.split(' ').collect();
        let source = read(words[0]);
        let answer = translated(&source).map(|object| object.len());
        let [number, place, line, column, length] = [1, 2, 3, 4, 5].map(|i| words[i].parse::<usize>().unwrap());
        let expected =
            if number == 0 { Ok(length) } else { Err(Refusal { number: number as u8, place, line, column }) };
        assert_eq!(answer, expected, "{}", words[0]);
    }
}

#[test]
fn the_object_texts_are_the_stored_ones() {
    for name in ["datum", "magic", "search", "sheet"] {
        assert_eq!(translated(&read(&format!("{name}.pl360"))), Ok(read(&format!("{name}.object"))), "{name}");
    }
}

#[test]
fn a_buffer_of_the_exact_length_is_filled_and_one_byte_less_stays() {
    let (source, object) = (read("datum.pl360"), read("datum.object"));
    for spare in [0, 1, 1000] {
        let mut buffer = vec![BEFORE; object.len() + spare];
        assert_eq!(translate(&source, &mut buffer), Ok(object.len()));
        assert_eq!(buffer[..object.len()], object[..]);
        assert!(buffer[object.len()..].iter().all(|byte| *byte == BEFORE));
    }
    for length in [0, 1, object.len() - 1] {
        let mut buffer = vec![BEFORE; length];
        assert_eq!(translate(&source, &mut buffer), Err(refusal(16, object.len())));
        assert!(buffer.iter().all(|byte| *byte == BEFORE));
    }
}

#[test]
fn a_refusal_leaves_the_buffer() {
    let mut buffer = vec![BEFORE; OBJECT_LIMIT];
    for source in [&b""[..], b"BEGIN", b"BEGIN RE := R1; END @", &[b' '; SOURCE_LIMIT + 1], &[0; 1_000_000]] {
        assert!(translate(source, &mut buffer).is_err());
        assert!(buffer.iter().all(|byte| *byte == BEFORE));
    }
}

#[test]
fn the_longest_sources_are_translated_on_a_small_stack() {
    let mut source = b"BEGIN END @".to_vec();
    source.resize(SOURCE_LIMIT, b'\n');
    let small = std::thread::Builder::new().stack_size(256 * 1024);
    let thread = small.spawn(move || {
        let whole = translated(&source).map(|object| object.len());
        source.push(b'\n');
        (whole, translated(&source))
    });
    let (whole, longer) = thread.expect("a thread").join().expect("an end");
    assert_eq!(whole, translated(b"BEGIN END @").map(|object| object.len()));
    assert_eq!(longer, Err(refusal(1, SOURCE_LIMIT)));
}

#[test]
fn the_largest_object_text_is_the_limit() {
    let fill = |name: &str| format!("ARRAY (1022) INTEGER {name}; INTEGER {name}X, {name}Y;");
    let cells = "ARRAY (1020) INTEGER A;";
    let more = format!("SEGMENT BASE RC; {} SEGMENT BASE RB; {}", fill("B"), fill("C"));
    let text = |loads: usize| format!("BEGIN {cells} {more} {} END @", "R1:=A;".repeat(loads));
    // two base declarations and the last instruction take 10 bytes: a load more than 1,021 is too many, and 4,094 bytes are left
    let most = translated(text(1021).as_bytes()).expect("accepted");
    assert_eq!(translated(text(1022).as_bytes()), Err(refusal(14, 0)));
    assert_eq!(most.len(), OBJECT_LIMIT - 4);
}

#[test]
fn the_sites_of_the_datum_program() {
    let object = translated(&read("datum.pl360")).unwrap();
    let mut sites = 0;
    for line in lines("datum.sites") {
        let numbers: Vec<i32> = line.split_ascii_whitespace().map(|word| word.parse().unwrap()).collect();
        let mut registers = [0; 16];
        registers[1] = numbers[0] as u32;
        registers[3] = numbers[1] as u32;
        registers[5] = numbers[2] as u32;
        let end = run(&object, 0, 100_000, &mut registers, &mut [BEFORE; STORAGE_NEEDED]).unwrap();
        assert_eq!(end.stop, Stop::AtEnd);
        assert_eq!([registers[5] as i32, registers[1] as i32, registers[3] as i32], numbers[3..], "{line}");
        sites += 1;
    }
    assert_eq!(sites, 17);
}

#[test]
fn a_run_leaves_storage_above_the_20480() {
    let object = translated(b"BEGIN INTEGER A; A := R1; R2 := A; END @").unwrap();
    let mut storage = vec![BEFORE; STORAGE_NEEDED + 1000];
    let mut left = registers();
    let end = run(&object, 2, 100, &mut left, &mut storage).unwrap();
    assert_eq!(end, End { stop: Stop::AtEnd, counter: 4096 + 8, code: 2, count: 2 });
    let mut expected = registers();
    expected[2] = expected[1];
    expected[14] = 8192;
    expected[15] = 4096;
    assert_eq!(left, expected);
    assert_eq!(storage[8192 + 16..8192 + 20], [0x80, 0, 0, 1]);
    assert!(storage[..4096].iter().all(|byte| *byte == 0));
    assert!(storage[STORAGE_NEEDED..].iter().all(|byte| *byte == BEFORE));
}

#[test]
fn a_refused_run_leaves_registers_and_storage() {
    let object = translated(b"BEGIN END @").unwrap();
    let mut storage = vec![BEFORE; STORAGE_NEEDED];
    let mut left = registers();
    let short = STORAGE_NEEDED - 1;
    assert_eq!(run(b"BEGIN END @", 4, 1, &mut left, &mut storage[..short]), Err(refusal(17, 0)));
    assert_eq!(run(b"", 0, 1, &mut left, &mut storage), Err(refusal(17, 0)));
    assert_eq!(run(&object, 4, 1, &mut left, &mut storage[..short]), Err(refusal(18, 0)));
    assert_eq!(run(&object, u64::MAX, 1, &mut left, &mut storage), Err(refusal(18, 0)));
    assert_eq!(run(&object, 3, 1, &mut left, &mut storage[..short]), Err(refusal(19, 0)));
    assert_eq!(run(&object, 3, 1, &mut left, &mut []), Err(refusal(19, 0)));
    assert_eq!(left, registers());
    assert!(storage.iter().all(|byte| *byte == BEFORE));
}

#[test]
fn each_stop() {
    let ends = |source: &str, budget: u32, first: u32| {
        let object = translated(source.as_bytes()).unwrap();
        let mut registers = [0; 16];
        registers[1] = first;
        run(&object, 0, budget, &mut registers, &mut [0; STORAGE_NEEDED]).unwrap()
    };
    let indexed = "BEGIN ARRAY (4) INTEGER A; R2 := A(R1); END @";
    assert_eq!(ends(indexed, 0, 0), End { stop: Stop::BudgetUsed, counter: 4096, code: 0, count: 0 });
    assert_eq!(ends(indexed, 9, 0), End { stop: Stop::AtEnd, counter: 4100, code: 0, count: 1 });
    assert_eq!(ends(indexed, 9, 4096), End { stop: Stop::ForbiddenOperand, counter: 4096, code: 0, count: 0 });
    assert_eq!(ends(indexed, 9, 2), End { stop: Stop::MisalignedOperand, counter: 4096, code: 0, count: 0 });
    let mut registers = [0; 16];
    let end = run(&read("refusals/stop-04-gets.object"), 0, 9, &mut registers, &mut [0; STORAGE_NEEDED]).unwrap();
    assert_eq!(end.stop, Stop::NoInstruction);
}

#[test]
fn from_many_threads_at_once() {
    let (source, object) = (read("datum.pl360"), read("datum.object"));
    std::thread::scope(|threads| {
        for _ in 0..8 {
            threads.spawn(|| {
                for _ in 0..50 {
                    assert_eq!(translated(&source).as_ref(), Ok(&object));
                }
            });
        }
    });
}

#[test]
fn lines_and_columns() {
    let stands = |source: &[u8]| translated(source).map(|_| ()).map_err(|at| (at.number, at.place, at.line, at.column));
    assert_eq!(stands(b"BEGIN\n  RE := R1; END @"), Err((10, 8, 2, 3)));
    assert_eq!(stands(b"BEGIN\r\nEND @"), Err((2, 5, 1, 6)));
    assert_eq!(stands(b"BEGIN END\n"), Err((4, 10, 2, 1)));
    assert_eq!(stands(b""), Err((4, 0, 1, 1)));
    assert_eq!(stands(&[b'\n'; SOURCE_LIMIT]), Err((4, SOURCE_LIMIT, SOURCE_LIMIT + 1, 1)));
    assert_eq!(stands(&[b'\n'; SOURCE_LIMIT + 1]), Err((1, SOURCE_LIMIT, 0, 0)));
}

#[test]
fn a_refusal_says_itself() {
    let said = |source: &[u8]| translated(source).unwrap_err().to_string();
    assert_eq!(
        said(b"BEGIN\n  RE := R1; END @"),
        "refusal 10 at line 2, column 3: a protected register is written"
    );
    assert_eq!(said(&[b' '; SOURCE_LIMIT + 1]), "refusal 1 at 32768: the source is too long");
}

#[test]
fn the_words_are_those_of_the_page_on_refusals() {
    let page = std::fs::read_to_string(example("../docs/REFUSALS.md")).unwrap();
    for number in 1..=19 {
        let row = format!("| refusal {number} | {} |", refusal(number, 0).meaning());
        assert!(page.contains(&row), "{row}");
    }
}
