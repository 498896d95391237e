//! The commands about runs.

use crate::runcase::{answer_line, Case, STORAGE_BEFORE};
use crate::runner::{run, RunAnswer, STORAGE_NEEDED};
use crate::{cmd_text, cmd_watch, codetable, genrun, hercules, runspeed, runvectors};
use std::io::{self, BufReader, BufWriter, Write};

const USAGE: &str =
    "  reference run OBJECT [--budget N] [--cc N] [--reg N=V]... [--storage BYTES] [--dump]   the result in words
  reference runbatch         cases from standard input, a line of the result for each
  reference genrun SEED COUNT   generated runs as cases for `runbatch`
  reference genrun-histogram SEED COUNT   how these are answered
  reference runspeed         million instructions in a second
  reference runvectors DIR   runs with their answers into DIR
  reference codetable        every row of the code table with its bytes, for the outside check
  reference codesample SEED COUNT   the instructions of translated texts, for the same check
  reference hercules-image FILE, reference hercules-compare FILE   the two halves of the outside check";

/// Carries out a command; the exit status is 0, 1 for a refused run, or 2 for a command or input that makes no sense.
pub fn main(args: &[String]) -> i32 {
    let words: Vec<&str> = args.iter().map(String::as_str).collect();
    let done = match words.as_slice() {
        ["run", object, options @ ..] => run_command(object, options),
        ["runbatch"] => runbatch().map(|()| 0),
        ["genrun", seed, count] => numbers(seed, count).and_then(|(s, c)| generate(s, c)).map(|()| 0),
        ["genrun-histogram", seed, count] => numbers(seed, count).map(|(s, c)| {
            print!("{}", genrun::histogram(s, c));
            0
        }),
        ["runspeed"] => {
            print!("{}", runspeed::report());
            Ok(0)
        }
        ["runvectors", dir] => runvectors::write(dir).map(|manifest| {
            print!("{manifest}");
            0
        }),
        ["codetable"] => {
            print!("{}", codetable::lines());
            Ok(0)
        }
        ["codesample", seed, count] => numbers(seed, count).map(|(s, c)| {
            print!("{}", codetable::sample(s, c));
            0
        }),
        ["hercules-image", file] => hercules::write_image(file).map(|report| {
            print!("{report}");
            0
        }),
        ["hercules-compare", file] => hercules::compare(file).map(|(report, equal)| {
            print!("{report}");
            !equal as i32
        }),
        [command, ..] if cmd_watch::COMMANDS.contains(command) => cmd_watch::main(&words),
        _ => Err(wrong(&format!("{}\n{USAGE}\n{}", cmd_text::USAGE, cmd_watch::USAGE))),
    };
    done.unwrap_or_else(|error| {
        eprintln!("{error}");
        2
    })
}

fn wrong(what: &str) -> io::Error {
    io::Error::new(io::ErrorKind::InvalidInput, what)
}

fn number<N: std::str::FromStr>(word: &str) -> io::Result<N> {
    word.parse().map_err(|_| wrong(&format!("{word} is no number, or too large")))
}

fn numbers(seed: &str, count: &str) -> io::Result<(u64, u64)> {
    Ok((number(seed)?, number(count)?))
}

fn generate(seed: u64, count: u64) -> io::Result<()> {
    let mut out = BufWriter::new(io::stdout().lock());
    for case in genrun::cases(seed).take(count as usize) {
        case.write(&mut out)?;
    }
    out.flush()
}

fn runbatch() -> io::Result<()> {
    let mut input = BufReader::new(io::stdin().lock());
    let mut out = BufWriter::new(io::stdout().lock());
    let mut storage = Vec::new();
    while let Some(case) = Case::read(&mut input)? {
        storage.clear();
        storage.resize(case.storage_length, STORAGE_BEFORE);
        let answer = run(&case.object, case.regs, case.cc, case.budget, &mut storage);
        writeln!(out, "{}", answer_line(&answer, &storage))?;
    }
    out.flush()
}

/// `run`: storage is zero before, 20,480 bytes and a budget of a million unless the options say otherwise.
fn run_command(object: &str, options: &[&str]) -> io::Result<i32> {
    let object = std::fs::read(object).map_err(|error| wrong(&format!("{object}: {error}")))?;
    let (mut budget, mut cc, mut regs, mut storage_length, mut dump) = (1_000_000, 0, [0; 16], STORAGE_NEEDED, false);
    let mut options = options.iter();
    while let Some(&option) = options.next() {
        if option == "--dump" {
            dump = true;
            continue;
        }
        let value = options.next().ok_or_else(|| wrong(USAGE))?;
        match option {
            "--budget" => budget = number(value)?,
            "--cc" => cc = number(value)?,
            "--storage" => storage_length = number(value)?,
            "--reg" => {
                let (register, value) = value.split_once('=').ok_or_else(|| wrong(USAGE))?;
                let register: usize = number(register)?;
                *regs.get_mut(register).ok_or_else(|| wrong("registers are 0 to 15"))? = word(value)?;
            }
            _ => return Err(wrong(USAGE)),
        }
    }
    let mut storage = vec![0; storage_length];
    let answer = run(&object, regs, cc, budget, &mut storage);
    print!("{}", report(&answer));
    if dump {
        print!("{}", dumped(&storage));
    }
    Ok(if answer.number == 0 { 0 } else { 1 })
}

/// A register's value: 0 to 4294967295, or negative down to -2147483648.
fn word(value: &str) -> io::Result<u32> {
    if value.starts_with('-') {
        Ok(number::<i32>(value)? as u32)
    } else {
        number(value)
    }
}

fn report(answer: &RunAnswer) -> String {
    if answer.number != 0 {
        let why = match answer.number {
            17 => "the object text is not of the form",
            18 => "the condition code is over 3",
            _ => "storage is under 20,480 bytes",
        };
        return format!("refusal {} at {}: {why}\n", answer.number, answer.spot);
    }
    let why = match answer.stop {
        0 => "budget used",
        1 => "at 0A 00",
        2 => "forbidden operand",
        3 => "misaligned operand",
        _ => "no instruction to carry out",
    };
    let mut text = format!(
        "stop {}: {why}\ncounter {} ({:06X})\ncondition code {}\ninstructions {}\n",
        answer.stop, answer.counter, answer.counter, answer.cc, answer.count
    );
    for (i, register) in answer.regs.iter().enumerate() {
        text += &format!("R{i:X} {register:08X} {}\n", *register as i32);
    }
    text
}

/// Sixteen bytes a line, lines of zeros left out.
fn dumped(storage: &[u8]) -> String {
    let mut text = String::new();
    for (i, line) in storage.chunks(16).enumerate() {
        if line.iter().any(|&byte| byte != 0) {
            let hex: Vec<String> = line.chunks(4).map(|w| w.iter().map(|b| format!("{b:02X}")).collect()).collect();
            text += &format!("{:06X}  {}\n", 16 * i, hex.join(" "));
        }
    }
    text
}
