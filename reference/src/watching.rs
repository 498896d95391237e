//! Watched runs in numbers: accepted texts, generated or hunted, under any translator and runner; and trials of the watcher
//! itself on object texts changed by one byte and on wrong translators.

use crate::gen;
use crate::hunt::hunted;
use crate::meant::{meant, Does, InStorage, Named};
use crate::objread;
use crate::random::Random;
use crate::runcase::Case;
use crate::slips::{Slip, SLIPS};
use crate::translate::{translate, translate_with};
use crate::watch::{given, watch, Clause, Cry, Given, Seen, Text, Watched, CLAUSES};
use std::collections::BTreeMap;
use std::fmt::Write;

/// Which texts.
#[derive(Clone, Copy, PartialEq, Eq, Debug)]
pub enum Texts {
    /// Those of `gen`, of every kind.
    Generated,
    /// Those of `hunt`.
    Hunted,
    /// Those of `gen` that are rich in CASE.
    Cases,
}

impl Texts {
    pub fn named(word: &str) -> Option<Texts> {
        match word {
            "generated" => Some(Texts::Generated),
            "hunted" => Some(Texts::Hunted),
            "cases" => Some(Texts::Cases),
            _ => None,
        }
    }

    /// The text with this number under the seed, a hunted one made for a slip, and further random numbers.
    fn text(self, seed: u64, number: u64, slip: Option<Slip>) -> (Vec<u8>, Random) {
        let mut random = Random::new(!seed, number);
        match self {
            Texts::Generated => (gen::case(seed, number), random),
            Texts::Cases => (gen::right_cases(&mut Random::new(seed, number)), random),
            Texts::Hunted => {
                let any = if random.chance(1, 2) { Slip::None } else { *random.of(&SLIPS) };
                (hunted(&mut random, slip.unwrap_or(any)), random)
            }
        }
    }
}

/// The number that answers a text, and its object text.
pub type Translator<'a> = &'a mut dyn FnMut(&[u8]) -> (u64, Vec<u8>);

/// A run's answer and all of storage after.
pub type Runner<'a> = &'a mut dyn FnMut(&Case) -> Seen;

pub fn reference_translator(text: &[u8]) -> (u64, Vec<u8>) {
    let answer = translate(text, None);
    (u64::from(answer.number), answer.object)
}

pub fn reference_runner(case: &Case) -> Seen {
    let (answer, storage) = case.run();
    Seen { answer, storage }
}

#[derive(Default)]
pub struct Tally {
    pub programs: u64,
    /// Programs in whose run a CASE was come to, and those of which it chose a statement.
    pub with_case: u64,
    pub with_choice: u64,
    /// Texts that were refused, by number.
    pub refused: BTreeMap<u64, u64>,
    /// Runs by stop.
    pub stops: BTreeMap<u32, u64>,
    /// Programs by the most procedures under way at once.
    pub depths: BTreeMap<u64, u64>,
    /// How often the runner was called.
    pub calls: u64,
    pub sum: Watched,
    pub cries: Vec<String>,
}

impl Tally {
    fn add(&mut self, one: Watched) {
        *self.stops.entry(one.stop).or_insert(0) += 1;
        *self.depths.entry(one.deepest).or_insert(0) += 1;
        self.with_case += u64::from(one.chosen + one.passed_over > 0);
        self.with_choice += u64::from(one.chosen > 0);
        let sum = &mut self.sum;
        sum.instructions += one.instructions;
        sum.cells += one.cells;
        sum.literals += one.literals;
        sum.entries += one.entries;
        sum.indexed += one.indexed;
        sum.taken += one.taken;
        sum.not_taken += one.not_taken;
        sum.calls += one.calls;
        sum.returns += one.returns;
        sum.chosen += one.chosen;
        sum.passed_over += one.passed_over;
        sum.deepest = sum.deepest.max(one.deepest);
    }

    pub fn report(&self) -> String {
        let Watched { instructions, cells, literals, entries, indexed, taken, not_taken, calls, returns, .. } =
            self.sum;
        let Watched { chosen, passed_over, .. } = self.sum;
        let mut text = format!(
            "{} accepted programs, {instructions} instructions watched by {} runs: {} cries\n",
            self.programs,
            self.calls,
            self.cries.len()
        );
        text += &format!(
            "operands: {cells} cells, {literals} literals, {entries} table entries, {indexed} indexed\n\
             branches: {taken} taken, {not_taken} not taken; {calls} calls, {returns} returns\n"
        );
        text += &format!(
            "cases: {chosen} statements chosen, {passed_over} passed over; programs that came to a CASE {}, that chose {}\n",
            self.with_case, self.with_choice
        );
        for (title, counts) in [
            ("stop", self.stops.iter().map(|(stop, times)| (u64::from(*stop), *times)).collect::<Vec<_>>()),
            ("procedures under way", self.depths.iter().map(|(depth, times)| (*depth, *times)).collect()),
            ("refused", self.refused.iter().map(|(number, times)| (*number, *times)).collect()),
        ] {
            let counts: Vec<String> = counts.iter().map(|(key, times)| format!("{key}: {times}")).collect();
            text += &format!("{title} {}\n", counts.join(", "));
        }
        for cry in &self.cries {
            text += cry;
            text += "\n";
        }
        text
    }
}

fn case_of(object: &[u8], given: &Given, budget: u32) -> Case {
    let Given { regs, cc, storage_length, .. } = *given;
    Case { object: object.to_vec(), budget, cc, storage_length, regs }
}

/// The text as the watcher knows it, with the bytes of the translator with a slip: by these alone nothing is wrong. None where
/// the text is refused.
fn known(text: &[u8], slip: Slip) -> Option<Text> {
    let object = translate_with(slip, text, None).object;
    Some(Text { meant: meant(text)?, code: objread::read(&object)?.program })
}

fn watched(text: &Text, object: &[u8], given: &Given, runner: Runner) -> Result<Watched, Cry> {
    let mut case = case_of(object, given, 0);
    let mut run = |budget| {
        case.budget = budget;
        runner(&case)
    };
    watch(text, object, given, &mut run).map(|(told, _)| told)
}

/// Watches runs until `count` accepted texts have been run, one run each.
pub fn campaign(texts: Texts, seed: u64, count: u64, translator: Translator, runner: Runner) -> Tally {
    let mut tally = Tally::default();
    let mut number = 0;
    while tally.programs < count {
        let (text, mut random) = texts.text(seed, number, None);
        let (answer, object) = translator(&text);
        let given = given(&mut random);
        number += 1;
        if answer != 0 {
            *tally.refused.entry(answer).or_insert(0) += 1;
            continue;
        }
        tally.programs += 1;
        let known = match known(&text, Slip::None) {
            Some(known) => known,
            None => {
                tally.cries.push(format!("text {}: accepted, but not by the reference", number - 1));
                continue;
            }
        };
        let mut calls = 0;
        let told = watched(&known, &object, &given, &mut |case: &Case| {
            calls += 1;
            runner(case)
        });
        tally.calls += calls;
        match told {
            Ok(told) => tally.add(told),
            Err(cry) => tally.cries.push(format!("text {}: {cry}", number - 1)),
        }
    }
    tally
}

/// How a trial of the watcher went, by clause that it cried out for.
#[derive(Default)]
pub struct Trial {
    /// Wrong object texts that were run.
    pub wrong: u64,
    pub cries: BTreeMap<Clause, u64>,
    /// Those at which it had nothing to cry about, and those at which it should have.
    pub harmless: u64,
    pub missed: Vec<String>,
    /// Right object texts on the way, and cries at them.
    pub right: u64,
    pub false_cries: Vec<String>,
}

impl Trial {
    pub fn cried(&self) -> u64 {
        self.cries.values().sum()
    }

    pub fn report(&self, what: &str) -> String {
        let mut text = format!("{what}: {} wrong object texts, {} cried out", self.wrong, self.cried());
        for clause in CLAUSES {
            if let Some(times) = self.cries.get(&clause) {
                let _ = write!(text, ", {clause:?} {times}");
            }
        }
        let (silent, missed, wrongly) = (self.harmless, self.missed.len(), self.false_cries.len());
        let _ = write!(text, "; silent {silent}, missed {missed}; {} right ones, {wrongly} cries", self.right);
        for line in self.missed.iter().chain(&self.false_cries) {
            let _ = write!(text, "\n  {line}");
        }
        text + "\n"
    }
}

/// Runs that each wrong program is given, to bring out what is wrong.
const TRIES: usize = 8;

/// `count` texts under a wrong translator, run by the reference: at those that the right one answers as it does, the watcher
/// may not cry out; at the others it should, if what is wrong comes up.
pub fn try_slip(slip: Slip, texts: Texts, seed: u64, count: u64) -> Trial {
    let mut trial = Trial::default();
    for number in 0..count {
        let (text, mut random) = texts.text(seed, number, Some(slip));
        let (right, wrong) = (translate(&text, None), translate_with(slip, &text, None));
        let known = match known(&text, slip) {
            Some(known) => known,
            None => continue,
        };
        let tries: Vec<Given> = (0..TRIES).map(|_| given(&mut random)).collect();
        let is_right = right == wrong;
        let cry = tries
            .iter()
            .take(if is_right { 1 } else { TRIES })
            .find_map(|given| watched(&known, &wrong.object, given, &mut reference_runner).err());
        match (is_right, cry) {
            (true, None) => trial.right += 1,
            (true, Some(cry)) => trial.false_cries.push(format!("text {number}: {cry}")),
            (false, None) => {
                trial.wrong += 1;
                trial.harmless += 1;
            }
            (false, Some(cry)) => {
                trial.wrong += 1;
                *trial.cries.entry(cry.clause).or_insert(0) += 1;
            }
        }
    }
    trial
}

/// Object texts of `count` accepted texts, each with one byte changed: the watcher has to cry out wherever the byte is part of
/// the form, of an instruction that is come to, or of a literal that is read.
pub fn try_changed_bytes(texts: Texts, seed: u64, count: u64) -> Trial {
    let mut trial = Trial::default();
    let mut number = 0;
    while trial.right < count {
        let (text, mut random) = texts.text(seed, number, None);
        number += 1;
        let (right, known) = match (translate(&text, None), known(&text, Slip::None)) {
            (right, Some(known)) if right.number == 0 => (right.object, known),
            _ => continue,
        };
        trial.right += 1;
        let given = given(&mut random);
        let at = random.below(right.len());
        let mut object = right.clone();
        object[at] = loop {
            let byte = if random.chance(3, 4) { *random.of(b"0123456789ABCDEF") } else { random.next() as u8 };
            if byte != right[at] {
                break byte;
            }
        };
        let mut come_to = Vec::new();
        let told = watched(&known, &object, &given, &mut |case: &Case| {
            let seen = reference_runner(case);
            come_to.push(seen.answer.counter.wrapping_sub(4096) as usize);
            seen
        });
        trial.wrong += 1;
        match told {
            Err(cry) => *trial.cries.entry(cry.clause).or_insert(0) += 1,
            Ok(told) if matters(&known, &right, at, &come_to, told) => {
                trial.missed.push(format!("text {}: byte {at} of the object text", number - 1));
            }
            Ok(_) => trial.harmless += 1,
        }
    }
    trial
}

/// Does the byte at `at` of the object text matter in a run that came to these offsets, in that order?
fn matters(text: &Text, object: &[u8], at: usize, come_to: &[usize], told: Watched) -> bool {
    let start = object[..at].iter().rposition(|&byte| byte == b'\n').map_or(0, |end| end + 1);
    let digit = |position: usize| (object[position] as char).to_digit(16).unwrap_or(0) as usize;
    let byte = |position: usize| digit(start + 2 * position) * 16 + digit(start + 2 * position + 1);
    let in_content = object[start..].starts_with(b"00") && at >= start + 10 && object[at] != b'\n';
    if !in_content {
        return true;
    }
    let offset = byte(2) * 256 + byte(3) + (at - start) / 2 - 5;
    // The first is the whole run's; the last is only looked at where it stops the run.
    let completed = &come_to[1..come_to.len() - usize::from(told.stop == 0)];
    let instructions = completed.iter().filter_map(|&offset| text.meant.instruction(offset));
    if byte(1) == 0 {
        return instructions.into_iter().any(|one| (one.offset..one.offset + one.length).contains(&offset));
    }
    if byte(1) != 1 || !text.meant.literals.contains(&offset) {
        return false;
    }
    let position = |value: u32| {
        let word = object_word(object, text, value);
        word.map_or(false, |word| word / 4 == offset / 4)
    };
    instructions.into_iter().any(|one| match one.does {
        Does::WithOperand(InStorage { named: Named::Number(value), .. }) => position(value),
        _ => false,
    })
}

/// Where the literal of this value lies in segment 1.
fn object_word(object: &[u8], text: &Text, value: u32) -> Option<usize> {
    let bytes = &objread::read(object)?.data[0].bytes;
    text.meant.literals.clone().step_by(4).find(|&offset| bytes[offset..offset + 4] == value.to_be_bytes())
}
