//! The examples in `examples/`: what they are answered, run and show, in the plain form in which the results are stored beside them.

use crate::grammar::{program, Block, Declaration, Item, Statement, Type};
use crate::help;
use crate::layout::{layout, Place};
use crate::machine::origin;
use crate::manual;
use crate::refusals::{entries, page, Entry, Example};
use crate::runcase::{answer_line, Case};
use crate::runner::{RunAnswer, STORAGE_NEEDED};
use crate::spot::Spot;
use crate::token::{spelling, tokens, Spelling};
use crate::translate::{translate, Answer};
use crate::vectors::{self, UNLIMITED};
use crate::violations::Violations;
use std::collections::HashMap;
use std::io::{self, Write};
use std::path::Path;

/// Instructions that a run may take unless its line says otherwise.
const BUDGET: u32 = 1_000_000;

/// A declared cell or array: where it begins, and of what type it is.
type Cells = HashMap<Spelling, (Place, Type)>;

/// The cells of an accepted text; of several with one name the first.
fn cells(text: &[u8]) -> Option<Cells> {
    let tokens = &tokens(text).ok()?;
    let program = program(tokens).ok()?;
    let layout = layout(&program, tokens, &mut Violations::new(tokens));
    let mut cells = HashMap::new();
    declared(&program, &mut |name, of| {
        if let Some(place) = layout.cells[name] {
            cells.entry(tokens[name].name).or_insert((place, of));
        }
    });
    Some(cells)
}

/// Every declared cell of a block and of those inside it, in text order.
fn declared(block: &Block, each: &mut dyn FnMut(usize, Type)) {
    for declaration in &block.declarations {
        match declaration {
            Declaration::Cells(cells) => cells.items.iter().for_each(|item| each(item.name, cells.of)),
            Declaration::Procedure(procedure) => inside(&procedure.body, each),
            Declaration::Registers(_) | Declaration::Base(_) => {}
        }
    }
    for item in &block.items {
        if let Item::Statement(statement) = item {
            inside(statement, each);
        }
    }
}

fn inside(statement: &Statement, each: &mut dyn FnMut(usize, Type)) {
    match statement {
        Statement::Block(block) => declared(block, each),
        Statement::If { then, otherwise, .. } => {
            inside(then, each);
            otherwise.iter().for_each(|other| inside(other, each));
        }
        Statement::While { body, .. } | Statement::For { body, .. } => inside(body, each),
        Statement::Case(case) => case.statements.iter().for_each(|statement| inside(statement, each)),
        _ => {}
    }
}

/// A finished run of a text.
pub struct Finished {
    pub answer: RunAnswer,
    storage: Vec<u8>,
    cells: Cells,
}

impl Finished {
    /// What `stop`, `count`, `code`, a register, a cell or an element is at the end.
    pub fn value(&self, name: &str) -> Option<i64> {
        match name {
            "stop" => return Some(i64::from(self.answer.stop)),
            "count" => return Some(i64::from(self.answer.count)),
            "code" => return Some(self.answer.cc as i64),
            _ => {}
        }
        if let Some(register) = register(name) {
            return Some(i64::from(self.answer.regs[register] as i32));
        }
        let (name, offset) = match name.split_once('(') {
            Some((name, offset)) => (name, offset.strip_suffix(')')?.parse().ok()?),
            None => (name, 0),
        };
        let (place, of) = self.cells.get(&spelling(name.as_bytes()))?;
        let at = origin(place.segment) as usize + place.offset + offset;
        let bytes = self.storage.get(at..)?;
        Some(match of {
            Type::Integer => i64::from(i32::from_be_bytes(bytes.get(..4)?.try_into().ok()?)),
            Type::Short => i64::from(i16::from_be_bytes(bytes.get(..2)?.try_into().ok()?)),
            Type::Byte | Type::Character => i64::from(*bytes.first()?),
        })
    }
}

/// R0 to R9, RA to RF.
fn register(name: &str) -> Option<usize> {
    let mut letters = name.chars();
    match (letters.next(), letters.next().and_then(|digit| digit.to_digit(16)), letters.next()) {
        (Some('R'), Some(number), None) => Some(number as usize),
        _ => None,
    }
}

/// What a run may be given: registers, `budget` and `code`; all others are 0.
pub type Given = Vec<(String, i64)>;

/// A run of an accepted text.
fn case(text: &[u8], given: &Given) -> Option<Case> {
    let object = translate(text, None).object;
    let mut case = Case { object, budget: BUDGET, cc: 0, storage_length: STORAGE_NEEDED, regs: [0; 16] };
    for (name, value) in given {
        match name.as_str() {
            "budget" => case.budget = *value as u32,
            "code" => case.cc = *value as u64,
            name => case.regs[register(name)?] = *value as u32,
        }
    }
    Some(case)
}

/// The end of that run.
pub fn finished(text: &[u8], given: &Given) -> Option<Finished> {
    let (answer, storage) = case(text, given)?.run();
    Some(Finished { answer, storage, cells: cells(text)? })
}

fn broken(what: String) -> io::Error {
    io::Error::new(io::ErrorKind::InvalidData, what)
}

/// `NAME=VALUE` pairs.
pub fn pairs(words: &str) -> io::Result<Given> {
    let pair = |word: &str| {
        let (name, value) = word.split_once('=')?;
        Some((name.to_string(), value.parse().ok()?))
    };
    words.split_ascii_whitespace().map(|word| pair(word).ok_or_else(|| broken(format!("no pair: {word}")))).collect()
}

/// A line of `runs` that is one: the text, what it is given, and what is asked for.
fn run_line<'a>(dir: &Path, line: &'a str) -> io::Result<Option<(Vec<u8>, Given, &'a str)>> {
    let (before, after) = match line.split_once(" :") {
        Some(halves) if !line.starts_with('#') => halves,
        _ => return Ok(None),
    };
    let (file, given) = before.split_once(' ').unwrap_or((before, ""));
    Ok(Some((std::fs::read(dir.join(file))?, pairs(given)?, after)))
}

/// `runs` made again: each line `FILE NAME=VALUE … : NAME=VALUE …` with the values that the run gives after the colon.
pub fn runs(dir: &Path) -> io::Result<String> {
    let mut made = String::new();
    for line in std::fs::read_to_string(dir.join("runs"))?.lines() {
        let (text, given, after) = match run_line(dir, line)? {
            Some(run) => run,
            None => {
                made += &format!("{line}\n");
                continue;
            }
        };
        let end = finished(&text, &given).ok_or_else(|| broken(line.to_string()))?;
        made += line.strip_suffix(after).unwrap_or(line);
        for name in after.split_ascii_whitespace().map(|word| word.split('=').next().unwrap_or(word)) {
            let value = end.value(name).ok_or_else(|| broken(format!("{name} in {line}")))?;
            made += &format!(" {name}={value}");
        }
        made.push('\n');
    }
    Ok(made)
}

/// What a line of `datum.sites` gives the program.
fn site(line: &str) -> io::Result<Option<Given>> {
    match line.split_ascii_whitespace().collect::<Vec<_>>().as_slice() {
        [east, north, flag, ..] if !line.starts_with('#') => {
            pairs(&format!("R1={east} R3={north} R5={flag}")).map(Some)
        }
        _ => Ok(None),
    }
}

/// `datum.sites` made again: `east north flag`, then what the program answers.
pub fn sites(dir: &Path) -> io::Result<String> {
    let text = std::fs::read(dir.join("datum.pl360"))?;
    let mut made = String::new();
    for line in std::fs::read_to_string(dir.join("datum.sites"))?.lines() {
        if let Some(given) = site(line)? {
            let end =
                finished(&text, &given).filter(|end| end.answer.stop == 1).ok_or_else(|| broken(line.to_string()))?;
            let (east, north, flag) = (given[0].1, given[1].1, given[2].1);
            let value = |name| end.value(name).unwrap_or(0);
            let (answer, east_new, north_new) = (value("ANSWER"), value("NEWEAST"), value("NEWNORTH"));
            made += &format!("{east:>11} {north:>11} {flag:>4} {answer:>6} {east_new:>11} {north_new:>11}\n");
        } else {
            made += &format!("{line}\n");
        }
    }
    Ok(made)
}

/// The texts in the folders, by name.
fn sources(dir: &Path) -> io::Result<Vec<(String, Vec<u8>)>> {
    let mut sources = Vec::new();
    for folder in ["", "blanks", "refusals"] {
        let mut names: Vec<String> = std::fs::read_dir(dir.join(folder))?
            .filter_map(|entry| entry.ok()?.file_name().into_string().ok())
            .filter(|name| name.ends_with(".pl360"))
            .collect();
        names.sort();
        for name in names {
            let file = if folder.is_empty() { name } else { format!("{folder}/{name}") };
            let text = std::fs::read(dir.join(&file))?;
            sources.push((file, text));
        }
    }
    Ok(sources)
}

/// `texts` made again: a line `FILE number place line column length` for each text.
pub fn texts(dir: &Path) -> io::Result<String> {
    let line = |(file, text): &(String, Vec<u8>)| {
        let Answer { number, spot: Spot { place, line, column }, object } = translate(text, None);
        format!("{file} {number} {place} {line} {column} {}\n", object.len())
    };
    Ok(sources(dir)?.iter().map(line).collect())
}

/// All texts, the manual's too, in the form of the stored vectors.
fn text_vectors(dir: &Path, entries: &[Entry], manual: &[manual::Told]) -> io::Result<Vec<u8>> {
    let mut cases: Vec<_> = sources(dir)?.into_iter().map(|(_, text)| vectors::case(text, UNLIMITED)).collect();
    for example in entries.iter().flat_map(|entry| &entry.examples) {
        cases.extend(example.with("room").map(|room| vectors::case(example.text(), room as usize)));
    }
    cases.extend(manual.iter().map(|told| vectors::case(told.text.clone().into_bytes(), UNLIMITED)));
    Ok(vectors::records(&cases))
}

/// All runs, the manual's too, in the form of the stored vectors.
fn run_vectors(dir: &Path, entries: &[Entry], manual: &[manual::Told]) -> io::Result<Vec<u8>> {
    let datum = std::fs::read(dir.join("datum.pl360"))?;
    let mut cases = Vec::new();
    for line in std::fs::read_to_string(dir.join("runs"))?.lines() {
        cases.extend(run_line(dir, line)?.and_then(|(text, given, _)| case(&text, &given)));
    }
    for line in std::fs::read_to_string(dir.join("datum.sites"))?.lines() {
        cases.extend(site(line)?.and_then(|given| case(&datum, &given)));
    }
    cases.extend(entries.iter().flat_map(|entry| &entry.examples).filter_map(Example::case));
    for told in manual {
        for (given, _) in told.gives.iter().filter_map(|line| manual::run(line)) {
            cases.extend(case(told.text.as_bytes(), &given));
        }
    }
    let mut records = Vec::new();
    for case in &cases {
        let (answer, storage) = case.run();
        case.write(&mut records)?;
        writeln!(records, "{}", answer_line(&answer, &storage))?;
    }
    Ok(records)
}

/// Every file of `examples/` that is made, with its content; the page on refusals and the gate's cases by their way from there.
pub fn files(dir: &Path) -> io::Result<Vec<(String, Vec<u8>)>> {
    let entries = entries(&std::fs::read_to_string(dir.join("refusals.data"))?).map_err(broken)?;
    let mut files = vec![("../docs/REFUSALS.md".to_string(), page(&entries).into_bytes())];
    let usage = std::fs::read_to_string(dir.join("../command/usage"))?;
    files.push(("../crates/helping/specs/Pages.antt".to_string(), help::definition(&entries, &usage).into_bytes()));
    files.push(("../crates/helping/src/pages.rt".to_string(), help::code(&entries, &usage).into_bytes()));
    for (name, example) in entries.iter().flat_map(Entry::files) {
        files.push((format!("refusals/{name}"), example.text()));
    }
    for text in ["datum", "legs", "magic", "search", "sheet"] {
        let source = std::fs::read(dir.join(format!("{text}.pl360")))?;
        files.push((format!("{text}.object"), translate(&source, None).object));
    }
    files.push(("datum.sites".to_string(), sites(dir)?.into_bytes()));
    files.push(("runs".to_string(), runs(dir)?.into_bytes()));
    files.push(("texts".to_string(), texts(dir)?.into_bytes()));
    let manual = manual::texts(&std::fs::read_to_string(dir.join("../docs/LANGUAGE.md"))?);
    files.push(("../crates/translate_vectors/data/examples".to_string(), text_vectors(dir, &entries, &manual)?));
    files.push(("../crates/run_vectors/data/examples".to_string(), run_vectors(dir, &entries, &manual)?));
    Ok(files)
}
