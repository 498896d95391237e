//! The examples and the manual: what is said of them is so, and the datum program and the traverse compute what models of them do.

use reference::examples::{files, finished};
use reference::manual::{texts, wrong};
use reference::random::Random;
use reference::refusals::{entries, Answer};
use std::path::Path;

fn folder() -> &'static Path {
    Path::new(concat!(env!("CARGO_MANIFEST_DIR"), "/../examples"))
}

fn read(name: &str) -> String {
    std::fs::read_to_string(folder().join(name)).expect(name)
}

#[test]
fn the_stored_results_are_those_made_again() {
    for (name, content) in files(folder()).expect("examples") {
        let stored = std::fs::read(folder().join(&name)).unwrap_or_default();
        assert!(stored == content, "{name} differs: examples/make --write");
    }
}

#[test]
fn every_refusal_and_stop_is_given_by_its_text_and_not_by_the_other() {
    let entries = entries(&read("refusals.data")).expect("the form");
    let answers: Vec<String> = entries.iter().map(|entry| entry.answer()).collect();
    let all = (1..=19).map(|number| format!("refusal {number}")).chain((0..=4).map(|stop| format!("stop {stop}")));
    assert_eq!(answers, all.collect::<Vec<_>>());
    for entry in &entries {
        let is_it = |answer| match answer {
            Answer::Stop(stop) => entry.is_stop && stop == entry.number,
            Answer::Number { number, .. } => !entry.is_stop && number == entry.number,
        };
        assert!(!entry.title.is_empty() && !entry.means.is_empty(), "{}", entry.answer());
        for (name, example) in entry.files() {
            assert_eq!(Some(example.answer()), example.gives, "{name}");
            assert_eq!(is_it(example.answer()), example.gets, "{name}");
            assert!(!example.because.is_empty(), "{name}");
        }
        let in_turn = entry.examples.iter().enumerate().all(|(i, example)| example.gets == (i % 2 == 0));
        assert!(in_turn && entry.examples.len() >= 2 && entry.examples.len() % 2 == 0, "{}", entry.answer());
    }
}

#[test]
fn all_that_the_manual_says_of_its_texts_is_so() {
    let manual = read("../docs/LANGUAGE.md");
    let texts = texts(&manual);
    assert!(texts.len() > 30, "{}", texts.len());
    for told in &texts {
        assert!(!told.gives.is_empty(), "nothing is said of\n{}", told.text);
        assert_eq!(wrong(told), Vec::<String>::new(), "\n{}", told.text);
    }
}

#[test]
fn a_wrong_manual_is_found_out() {
    let said = |gives: &str| {
        let manual = format!("```pl360\nBEGIN R1 := 5; END @\n```\n\n```gives\n{gives}\n```\n");
        texts(&manual).iter().map(|told| wrong(told).len()).sum::<usize>()
    };
    let right = "5810E010 loads\n0A00 ends\nsegment 1 00000000 00000000 00000000 00000000 00000005\nrun : R1=5 stop=1";
    assert_eq!(said(right), 0);
    for (one, other) in
        [("5810", "5820"), ("00000005", "00000006"), ("R1=5", "R1=6"), ("0A00 ends", "ends"), ("run", "object FF\nrun")]
    {
        assert!(said(&right.replace(one, other)) > 0, "{other}");
    }
    assert!(said("refusal 10 at 6") > 0 && said("run R1 : R1") > 0);
}

/// The rests of the program's text, which the model shares with it.
fn rests(text: &str) -> Vec<i64> {
    let list = text.split("SHORT INTEGER REST").nth(1).and_then(|rest| rest.split(';').next()).expect("the list");
    let number = |word: &str| word.trim_matches(|c| c == '(' || c == ')').replace('_', "-").parse().expect("a number");
    list.split_ascii_whitespace().map(number).collect()
}

/// The model: whole numbers of any size, division that rounds down.
fn model(rests: &[i64], east: i64, north: i64, flag: i64) -> (i64, i64, i64) {
    let (x, y) = (east - 612_000, north - 287_000);
    let inside = (0..6 * 1024).contains(&x) && (0..4 * 1024).contains(&y);
    let in_millimetres = |metres: i64| i64::from((metres * 1000) as i32);
    if flag != 0 || !inside {
        return (if flag != 0 { 1 } else { 2 }, in_millimetres(east), in_millimetres(north));
    }
    let rest = |list: &[i64]| {
        let node = |row: i64, column: i64| list[(7 * row + column) as usize];
        let (row, column) = (y / 1024, x / 1024);
        let (up, right) = (y % 1024, x % 1024);
        let south = node(row, column) * (1024 - right) + node(row, column + 1) * right;
        let north = node(row + 1, column) * (1024 - right) + node(row + 1, column + 1) * right;
        (south * (1024 - up) + north * up + (1 << 19)).div_euclid(1 << 20)
    };
    (0, in_millimetres(east) - 68_214 + rest(&rests[..35]), in_millimetres(north) + 43_907 + rest(&rests[35..]))
}

#[test]
fn the_datum_program_computes_what_the_model_does() {
    let text = read("datum.pl360");
    let rests = rests(&text);
    assert_eq!(rests.len(), 70);
    assert!(rests.iter().all(|rest| rest.abs() <= 900));
    let computed = |east: i64, north: i64, flag: i64| {
        let given = [("R1", east), ("R3", north), ("R5", flag)].map(|(name, value)| (name.to_string(), value)).to_vec();
        let end = finished(text.as_bytes(), &given).expect("accepted");
        assert_eq!(end.answer.stop, 1);
        let value = |name| end.value(name).expect("declared");
        assert_eq!((value("R5"), value("R1"), value("R3")), (value("ANSWER"), value("NEWEAST"), value("NEWNORTH")));
        (value("ANSWER"), value("NEWEAST"), value("NEWNORTH"))
    };
    let mut sites = 0;
    for line in read("datum.sites").lines().filter(|line| !line.starts_with('#')) {
        let fields: Vec<i64> = line.split_ascii_whitespace().map(|word| word.parse().expect("a number")).collect();
        let (east, north, flag) = (fields[0], fields[1], fields[2]);
        assert_eq!((fields[3], fields[4], fields[5]), model(&rests, east, north, flag), "{line}");
        sites += 1;
    }
    assert!(sites > 15);
    let mut random = Random::new(1938, 1984);
    let mut answers = [0; 3];
    for number in 0..4_000 {
        let any = |random: &mut Random| i64::from(random.next() as i32);
        let far = number % 20 == 0;
        let east = if far { any(&mut random) } else { 611_500 + random.below(7_200) as i64 };
        let north = if far { any(&mut random) } else { 286_700 + random.below(4_800) as i64 };
        let flag = if random.chance(1, 10) { any(&mut random) } else { 0 };
        let found = computed(east, north, flag);
        assert_eq!(found, model(&rests, east, north, flag), "{east} {north} {flag}");
        answers[found.0 as usize] += 1;
    }
    assert!(answers.iter().all(|&times| times > 300), "{answers:?}");
}

/// The corners of the field.
const CORNERS: [(i64, i64); 4] = [(0, 0), (60_000, 0), (60_000, 40_000), (0, 40_000)];

/// The model of the traverse: where it ends, how many legs there were, and how many of them meant nothing.
fn traverse(codes: &[i64], lengths: &[i64], first: usize) -> [i64; 4] {
    let (mut east, mut north, mut legs, mut nothing) = (0, 0, 0, 0);
    for (&code, &length) in codes.iter().zip(lengths).skip(first) {
        legs += 1;
        match code {
            1 => north += length,
            2 => east += length,
            3 => north -= length,
            4 => east -= length,
            5 if (1..=4).contains(&length) => (east, north) = CORNERS[length as usize - 1],
            6 => break,
            _ => nothing += 1,
        }
    }
    [east, north, legs, nothing].map(|number: i64| i64::from(number as i32))
}

/// The values of an array in the program's text, and the text with others in their place.
fn values(text: &str, array: &str) -> Vec<i64> {
    let list = text.split(array).nth(1).and_then(|rest| rest.split(';').next()).expect("the list");
    let number = |word: &str| word.trim_matches(|c| c == '(' || c == ')').replace('_', "-").parse().expect("a number");
    list.split_ascii_whitespace().map(number).collect()
}

fn with_values(text: &str, array: &str, values: &[i64]) -> String {
    let at = text.find(array).expect("the array") + array.len();
    let end = at + text[at..].find(';').expect("its end");
    let list: String = values.iter().map(|value| format!(" ({})", value.to_string().replace('-', "_"))).collect();
    format!("{}{list}{}", &text[..at], &text[end..])
}

#[test]
fn the_traverse_ends_where_the_model_does() {
    let text = read("legs.pl360");
    let (codes, lengths) = (values(&text, "BYTE CODE"), values(&text, "INTEGER LENGTH"));
    assert_eq!((codes.len(), lengths.len()), (14, 14));
    let ended = |text: &str, first: usize| {
        let end = finished(text.as_bytes(), &vec![("R3".to_string(), first as i64)]).expect("accepted");
        assert_eq!(end.answer.stop, 1, "{text}");
        ["EAST", "NORTH", "LEGS", "NOTHING"].map(|name| end.value(name).expect("declared"))
    };
    for first in 0..codes.len() {
        assert_eq!(ended(&text, first), traverse(&codes, &lengths, first), "{first}");
    }
    let (mut random, mut nothing) = (Random::new(1966, 3), 0);
    for _ in 0..300 {
        let mut codes: Vec<i64> = (0..14).map(|_| *random.of(&[1, 2, 3, 4, 5, 5, 0, 7, 8, 255])).collect();
        codes[random.range(3, 13)] = 6;
        codes[13] = 6;
        let lengths: Vec<i64> = codes
            .iter()
            .map(|code| match code {
                5 => *random.of(&[1, 2, 3, 4, 0, 5, -1, 1 << 30, (1 << 30) + 1, -(1 << 31)]),
                _ => i64::from(random.next() as i32),
            })
            .collect();
        let other = with_values(&with_values(&text, "BYTE CODE", &codes), "INTEGER LENGTH", &lengths);
        let first = random.below(3);
        let expected = traverse(&codes, &lengths, first);
        assert_eq!(ended(&other, first), expected, "{other}");
        nothing += expected[3];
    }
    assert!(nothing > 300, "{nothing}");
}
