//! The texts of the manual, `docs/LANGUAGE.md`, each with what is said of it: a fence `pl360` with the text, then a fence `gives`.
//!
//! In the second stand the program's instructions, a line of bytes with words behind them each; `segment K` with a segment's bytes;
//! `object` with a line of the object text;
//! `refusal N at PLACE, line LINE column COLUMN`; or `run NAME=VALUE … : NAME=VALUE …`, what a run is given and what it ends with.

use crate::examples::{finished, pairs, Given};
use crate::objread;
use crate::translate::translate;

pub struct Told {
    pub text: String,
    pub gives: Vec<String>,
}

/// Every text of the manual in order; a text without a fence `gives` has nothing told of it.
pub fn texts(manual: &str) -> Vec<Told> {
    let mut texts: Vec<Told> = Vec::new();
    let mut fence = None;
    for line in manual.lines() {
        match (fence, line.strip_prefix("```")) {
            (None, Some(kind)) => {
                fence = Some(kind);
                if kind == "pl360" {
                    texts.push(Told { text: String::new(), gives: Vec::new() });
                }
            }
            (Some(_), Some(_)) => fence = None,
            (Some("pl360"), None) => {
                let told = texts.last_mut().expect("a fence has opened one");
                told.text += line;
                told.text.push('\n');
            }
            (Some("gives"), None) => texts.last_mut().expect("a text stands before").gives.push(line.to_string()),
            _ => {}
        }
    }
    texts
}

fn is_bytes(word: &str) -> bool {
    !word.is_empty() && word.len() % 2 == 0 && word.bytes().all(|byte| matches!(byte, b'0'..=b'9' | b'A'..=b'F'))
}

fn hexadecimal(bytes: &[u8]) -> String {
    bytes.iter().map(|byte| format!("{byte:02X}")).collect()
}

/// What is told of a text and is not so.
pub fn wrong(told: &Told) -> Vec<String> {
    let answer = translate(told.text.as_bytes(), None);
    let segments: Vec<String> = match objread::read(&answer.object) {
        Some(object) => std::iter::once(hexadecimal(&object.program))
            .chain(object.data.iter().map(|segment| hexadecimal(&segment.bytes)))
            .collect(),
        None => Vec::new(),
    };
    let mut wrong = Vec::new();
    let (mut code, mut object) = (String::new(), String::new());
    let mut refused = false;
    for line in &told.gives {
        let words: Vec<&str> = line.split_ascii_whitespace().collect();
        match words.as_slice() {
            ["refusal", ..] => {
                refused = true;
                let found = format!("refusal {} at {}", answer.number, answer.spot);
                if found != *line {
                    wrong.push(format!("{line}: it is {found}"));
                }
            }
            ["segment", number, bytes @ ..] => {
                let found = number.parse().ok().and_then(|number: usize| segments.get(number).cloned());
                if found.as_deref() != Some(&bytes.concat()) {
                    wrong.push(format!("{line}: it is {found:?}"));
                }
            }
            ["object", line] => {
                object += line;
                object.push('\n');
            }
            ["run", ..] => wrong.extend(wrong_run(told, line)),
            [bytes, ..] if is_bytes(bytes) => code += bytes,
            _ => wrong.push(format!("{line}: not understood")),
        }
    }
    if !object.is_empty() && object.as_bytes() != answer.object {
        wrong.push("another object text".to_string());
    }
    if !refused && (answer.number != 0 || segments.first() != Some(&code)) {
        wrong.push(format!("answer {} at {}, program {:?}", answer.number, answer.spot, segments.first()));
    }
    wrong
}

/// What a line `run` gives the text, and what it says of its end.
pub fn run(line: &str) -> Option<(Given, Given)> {
    let (given, end) = line.strip_prefix("run ")?.split_once(':')?;
    Some((pairs(given).ok()?, pairs(end).ok()?))
}

fn wrong_run(told: &Told, line: &str) -> Vec<String> {
    let ended = run(line).and_then(|(given, said)| Some((finished(told.text.as_bytes(), &given)?, said)));
    match ended {
        Some((end, said)) => said
            .iter()
            .filter(|(name, value)| end.value(name) != Some(*value))
            .map(|(name, _)| format!("{line}: {name} is {:?}", end.value(name)))
            .collect(),
        None => vec![format!("{line}: not understood")],
    }
}
