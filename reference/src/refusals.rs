//! The refusals and stops in words, read from `examples/refusals.data`, each with texts that get it, and beside each one that does
//! not; the page that is made of them; and what the texts are answered.

use crate::runcase::Case;
use crate::runner::STORAGE_NEEDED;
use crate::spot::Spot;
use crate::translate::translate;
use std::fmt::Write;

/// What a translation or a run answers.
#[derive(Clone, Copy, PartialEq, Eq, Debug)]
pub enum Answer {
    /// 0 for a text that is accepted.
    Number {
        number: u32,
        spot: Spot,
    },
    Stop(u32),
}

/// A line of a text and how often it stands there.
pub struct Line {
    pub times: usize,
    pub text: String,
}

#[derive(Default)]
pub struct Example {
    /// Whether it gets what it is an example of.
    pub gets: bool,
    pub lines: Vec<Line>,
    pub is_object: bool,
    /// `name=value`, as in the line `with`.
    pub with: Vec<(String, u64)>,
    pub gives: Option<Answer>,
    pub because: String,
}

/// A refusal or a stop.
pub struct Entry {
    pub is_stop: bool,
    pub number: u32,
    pub title: String,
    pub means: String,
    pub place: String,
    /// In turn one that gets it and one that does not.
    pub examples: Vec<Example>,
}

impl Example {
    pub fn text(&self) -> Vec<u8> {
        let mut text = String::new();
        for line in &self.lines {
            for _ in 0..line.times {
                text += &line.text;
                text.push('\n');
            }
        }
        text.into_bytes()
    }

    pub fn with(&self, name: &str) -> Option<u64> {
        self.with.iter().find(|(given, _)| given == name).map(|&(_, value)| value)
    }

    /// The run, where the example gives what only a run can.
    pub fn case(&self) -> Option<Case> {
        let of_run = matches!(self.gives, Some(Answer::Stop(_) | Answer::Number { number: 17..=19, .. }));
        (self.is_object || of_run).then(|| Case {
            object: if self.is_object { self.text() } else { translate(&self.text(), None).object },
            budget: self.with("budget").unwrap_or(1_000_000) as u32,
            cc: self.with("code").unwrap_or(0),
            storage_length: self.with("storage").unwrap_or(STORAGE_NEEDED as u64) as usize,
            regs: [0; 16],
        })
    }

    pub fn answer(&self) -> Answer {
        match self.case().map(|case| case.run().0) {
            Some(told) if told.number == 0 => Answer::Stop(told.stop),
            Some(told) => Answer::Number { number: told.number, spot: told.spot },
            None => {
                let told = translate(&self.text(), self.with("room").map(|room| room as usize));
                Answer::Number { number: told.number, spot: told.spot }
            }
        }
    }

    /// The example's lines as they are shown, those that stand often only once.
    pub fn shown(&self) -> String {
        let mut shown = String::new();
        for line in &self.lines {
            let times = if line.times > 1 { format!("   ... {} times", line.times) } else { String::new() };
            let text = if line.text.is_empty() { "(an empty line)" } else { line.text.as_str() };
            let _ = writeln!(shown, "    {text}{times}");
        }
        shown
    }
}

impl Entry {
    pub fn answer(&self) -> String {
        format!("{} {}", if self.is_stop { "stop" } else { "refusal" }, self.number)
    }

    /// The examples, each with its file's name: those of the second pair are numbered 2.
    pub fn files(&self) -> impl Iterator<Item = (String, &Example)> + '_ {
        let kind = if self.is_stop { "stop-" } else { "" };
        self.examples.iter().enumerate().map(move |(i, example)| {
            let answer = if example.gets { "gets" } else { "not" };
            let pair = if i < 2 { String::new() } else { format!("-{}", i / 2 + 1) };
            let ending = if example.is_object { "object" } else { "pl360" };
            (format!("{kind}{:02}-{answer}{pair}.{ending}", self.number), example)
        })
    }
}

/// The entries of the data file, or what is wrong with a line of it.
pub fn entries(data: &str) -> Result<Vec<Entry>, String> {
    let mut entries: Vec<Entry> = Vec::new();
    for (number, line) in data.lines().enumerate() {
        let wrong = || format!("line {}: {line}", number + 1);
        if line.is_empty() || line.starts_with('#') {
            continue;
        }
        let (word, rest) = line.split_once(' ').unwrap_or((line, ""));
        if word == "refusal" || word == "stop" {
            entries.push(Entry {
                is_stop: word == "stop",
                number: rest.parse().map_err(|_| wrong())?,
                title: String::new(),
                means: String::new(),
                place: String::new(),
                examples: Vec::new(),
            });
            continue;
        }
        let entry = entries.last_mut().ok_or_else(wrong)?;
        match word {
            "title" => entry.title = rest.to_string(),
            "means" => {
                let separator = if entry.means.is_empty() { "" } else { "\n" };
                entry.means = format!("{}{separator}{rest}", entry.means);
            }
            "place" => entry.place = rest.to_string(),
            "gets" | "not" => entry.examples.push(Example { gets: word == "gets", ..Example::default() }),
            _ => entry.examples.last_mut().and_then(|example| part(example, word, rest)).ok_or_else(wrong)?,
        }
    }
    Ok(entries)
}

/// A line of an example; None where it is none.
fn part(example: &mut Example, word: &str, rest: &str) -> Option<()> {
    match word {
        "object" => example.is_object = true,
        "|" => example.lines.push(Line { times: 1, text: rest.to_string() }),
        "times" => {
            let (times, text) = rest.split_once(" |")?;
            let text = text.strip_prefix(' ').unwrap_or(text).to_string();
            example.lines.push(Line { times: times.parse().ok()?, text });
        }
        "with" => {
            for pair in rest.split(' ') {
                let (name, value) = pair.split_once('=')?;
                example.with.push((name.to_string(), value.parse().ok()?));
            }
        }
        "gives" => {
            let words: Vec<&str> = rest.split(' ').collect();
            example.gives = Some(match words.as_slice() {
                ["stop", stop] => Answer::Stop(stop.parse().ok()?),
                [number, spot @ ..] => Answer::Number { number: number.parse().ok()?, spot: spot_of(spot)? },
                [] => return None,
            });
        }
        "because" => example.because = rest.to_string(),
        _ => return None,
    }
    Some(())
}

/// Where an answer stands, as it is told; of 0 nothing is.
fn spot_of(words: &[&str]) -> Option<Spot> {
    let number = |word: &str| word.parse().ok();
    match words {
        [] => Some(Spot::NONE),
        ["at", place] => Some(Spot::without_line(number(place)?)),
        ["at", place, "line", line, "column", column] => {
            Some(Spot { place: number(place.strip_suffix(',')?)?, line: number(line)?, column: number(column)? })
        }
        _ => None,
    }
}

fn told(answer: Option<Answer>) -> String {
    match answer {
        Some(Answer::Number { number: 0, .. }) => "is accepted".to_string(),
        Some(Answer::Number { number, spot }) => format!("gets refusal {number} at {spot}"),
        Some(Answer::Stop(stop)) => format!("runs and gets stop {stop}"),
        None => String::new(),
    }
}

fn example(page: &mut String, example: &Example) {
    let with: Vec<String> = example.with.iter().map(|(name, value)| format!("{name} {value}")).collect();
    let with = if with.is_empty() { String::new() } else { format!(", with {},", with.join(", ")) };
    let kind = if example.is_object { "This object text" } else { "This" };
    let _ = write!(page, "{kind}{with} {}: {}.\n\n{}\n", told(example.gives), example.because, example.shown());
}

/// What is said of a refusal or a stop.
pub fn section(entry: &Entry) -> String {
    let place = if entry.place.is_empty() { String::new() } else { format!("\nPlace: {}.", entry.place) };
    let mut text = entry.answer();
    text[..1].make_ascii_uppercase();
    let _ = write!(text, ": {}\n\n{}{place}\n\n", entry.title, entry.means);
    entry.examples.iter().for_each(|each| example(&mut text, each));
    text.truncate(text.trim_end().len());
    text.push('\n');
    text
}

/// `docs/REFUSALS.md`.
pub fn page(entries: &[Entry]) -> String {
    let mut page = "# Refusals and stops\n\nMade from `examples/refusals.data` by `examples/make`; the texts stand in `examples/refusals/`.\n\n\
        A translation answers a number, a place, a line, a column and a length. Number 0 means accepted; 1 to 16 say why not, and the place is the offset of the\n\
        byte from which on the matter stands, counted from 0; line and column of that byte are counted from 1, and are 0 for 0, 1 and 14 to 16. When several apply,\n\
        the first of these groups decides: 1; 2, 3; 4, 5; 6 to 13; 14; 15; 16; inside a group the smallest place, then the smaller number. A run answers 17 to 19,\n\
        asked in this order, with line and column 0, or it ran and says why it stopped: 0 to 4. A stopped instruction has changed nothing and is not counted.\n\n\
        | | |\n|---|---|\n"
        .to_string();
    for entry in entries {
        let _ = writeln!(page, "| {} | {} |", entry.answer(), entry.title);
    }
    for entry in entries {
        let _ = write!(page, "\n## {}", section(entry));
    }
    page
}
