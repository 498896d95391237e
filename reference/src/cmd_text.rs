//! The commands on source texts.

use crate::examples;
use crate::gen;
use crate::random::Random;
use crate::spot::Spot;
use crate::translate::{translate, Answer};
use crate::vectors;
use std::io::{self, Read, Write};
use std::path::Path;
use std::time::Instant;

pub const USAGE: &str = "usage:
  reference translate FILE   the object text, or `refused NUMBER at PLACE, line LINE column COLUMN` and exit status 1
  reference batch            cases from standard input, a line `number place line column length hash` for each
  reference gen SEED COUNT   generated texts as cases for `batch`
  reference gen --histogram SEED COUNT   how these are answered
  reference sized LENGTH SEED   an accepted text of about that length
  reference speed            megabytes translated in a second, for texts of 1, 8 and 32 KB
  reference vectors DIR      texts with their answers into DIR/texts, and DIR/MANIFEST.md
  reference examples --compare|--write DIR   the results that stand beside the examples in DIR";

/// The commands on texts; all others are about runs.
pub const COMMANDS: [&str; 7] = ["translate", "batch", "gen", "sized", "speed", "vectors", "examples"];

/// Carries out a command on texts and gives the exit status.
pub fn main(args: &[String]) -> i32 {
    match command(args) {
        Ok(status) => status,
        Err(error) => {
            eprintln!("{error}");
            2
        }
    }
}

fn command(args: &[String]) -> io::Result<i32> {
    let words: Vec<&str> = args.iter().map(String::as_str).collect();
    match words.as_slice() {
        ["translate", file] => translate_file(file),
        ["batch"] => batch(),
        ["gen", seed, count] => generate(parse(seed)?, parse(count)?),
        ["gen", "--histogram", seed, count] => histogram(parse(seed)?, parse(count)?),
        ["sized", length, seed] => {
            io::stdout().write_all(&sized(parse(length)? as usize, parse(seed)?))?;
            Ok(0)
        }
        ["speed"] => speed(),
        ["vectors", dir] => store_vectors(Path::new(dir)),
        ["examples", "--compare", dir] => compare_examples(Path::new(dir)),
        ["examples", "--write", dir] => write_examples(Path::new(dir)),
        _ => Err(io::Error::new(io::ErrorKind::InvalidInput, USAGE)),
    }
}

fn parse(word: &str) -> io::Result<u64> {
    word.parse().map_err(|_| io::Error::new(io::ErrorKind::InvalidInput, format!("no number: {word}")))
}

fn translate_file(file: &str) -> io::Result<i32> {
    let answer = translate(&std::fs::read(file)?, None);
    if answer.number == 0 {
        io::stdout().write_all(&answer.object)?;
        return Ok(0);
    }
    eprintln!("refused {} at {}", answer.number, answer.spot);
    Ok(1)
}

/// "each a line with its length in decimal, the bytes, a newline"
pub fn read_case<'a>(input: &mut &'a [u8]) -> Option<&'a [u8]> {
    let line_end = input.iter().position(|&byte| byte == 10)?;
    let length: usize = std::str::from_utf8(&input[..line_end]).ok()?.parse().ok()?;
    let text = input.get(line_end + 1..line_end + 1 + length)?;
    if *input.get(line_end + 1 + length)? != 10 {
        return None;
    }
    *input = &input[line_end + length + 2..];
    Some(text)
}

pub fn write_case(output: &mut impl Write, text: &[u8]) -> io::Result<()> {
    writeln!(output, "{}", text.len())?;
    output.write_all(text)?;
    output.write_all(b"\n")
}

/// FNV-1a, 64 bits.
pub fn fnv1a(bytes: &[u8]) -> u64 {
    bytes.iter().fold(0xcbf2_9ce4_8422_2325, |hash, &byte| (hash ^ u64::from(byte)).wrapping_mul(0x100_0000_01b3))
}

/// "and writes a line `number place line column length hash` for each, the room unlimited"
fn batch() -> io::Result<i32> {
    let mut input = Vec::new();
    io::stdin().lock().read_to_end(&mut input)?;
    let mut output = io::BufWriter::new(io::stdout().lock());
    let mut rest = input.as_slice();
    while !rest.is_empty() {
        let text = match read_case(&mut rest) {
            Some(text) => text,
            None => {
                output.flush()?;
                eprintln!("no case at byte {}", input.len() - rest.len());
                return Ok(2);
            }
        };
        let Answer { number, spot, object } = translate(text, None);
        let Spot { place, line, column } = spot;
        writeln!(output, "{number} {place} {line} {column} {} {:016x}", object.len(), fnv1a(&object))?;
    }
    output.flush()?;
    Ok(0)
}

fn generate(seed: u64, count: u64) -> io::Result<i32> {
    let mut output = io::BufWriter::new(io::stdout().lock());
    for number in 0..count {
        write_case(&mut output, &gen::case(seed, number))?;
    }
    output.flush()?;
    Ok(0)
}

/// Numbers of answers, with the room unlimited, and how many of them are reported on a later line than the first, and there in a
/// later column; 16 is counted with rooms at, one below and far below the length needed.
fn histogram(seed: u64, count: u64) -> io::Result<i32> {
    let (mut answers, mut later_lines, mut later_columns) = ([0u64; 17], [0u64; 17], [0u64; 17]);
    let mut lengths = Vec::new();
    for number in 0..count {
        let text = gen::case(seed, number);
        let answer = translate(&text, None);
        let class = answer.number as usize;
        answers[class] += 1;
        later_lines[class] += u64::from(answer.spot.line > 1);
        later_columns[class] += u64::from(answer.spot.line > 1 && answer.spot.column > 1);
        lengths.push(text.len());
        if answer.number == 0 {
            let needed = answer.object.len();
            let room = [needed, needed - 1, number as usize % needed][number as usize % 3];
            answers[16] += u64::from(translate(&text, Some(room)).number == 16);
        }
    }
    for (number, times) in answers.iter().enumerate() {
        let share = *times as f64 * 100.0 / count as f64;
        println!("{number:2} {times:8} {share:7.3} % {:8} {:8}", later_lines[number], later_columns[number]);
    }
    lengths.sort_unstable();
    let (total, median) = (lengths.iter().sum::<usize>(), lengths[lengths.len() / 2]);
    println!("median length {median}, average {:.0}", total as f64 / count as f64);
    Ok(0)
}

fn store_vectors(dir: &Path) -> io::Result<i32> {
    std::fs::create_dir_all(dir)?;
    let cases = vectors::cases();
    std::fs::write(dir.join("texts"), vectors::records(&cases))?;
    std::fs::write(dir.join("MANIFEST.md"), vectors::manifest(&cases))?;
    Ok(0)
}

fn compare_examples(dir: &Path) -> io::Result<i32> {
    let files = examples::files(dir)?;
    let mut status = 0;
    for (name, content) in &files {
        if std::fs::read(dir.join(name)).ok().as_ref() != Some(content) {
            println!("{name}: differs");
            status = 1;
        }
    }
    println!("{} files made again", files.len());
    Ok(status)
}

/// Twice, since one file may be told of in another.
fn write_examples(dir: &Path) -> io::Result<i32> {
    for _ in 0..2 {
        for (name, content) in examples::files(dir)? {
            std::fs::write(dir.join(name), content)?;
        }
    }
    Ok(0)
}

fn sized(length: usize, seed: u64) -> Vec<u8> {
    gen::sized_text(&mut Random::new(seed, length as u64), length)
}

/// Translates texts of a length in turn for at least `SECONDS`.
fn speed() -> io::Result<i32> {
    const SECONDS: f64 = 1.0;
    const TEXTS: u64 = 20;
    for length in [1_000, 8_000, 32_000] {
        let texts: Vec<Vec<u8>> = (0..TEXTS).map(|seed| sized(length, seed)).collect();
        if let Some(refused) = texts.iter().position(|text| translate(text, None).number != 0) {
            let error = format!("text {refused} of length {length} is refused");
            return Err(io::Error::new(io::ErrorKind::Other, error));
        }
        let start = Instant::now();
        let mut bytes = 0;
        while start.elapsed().as_secs_f64() < SECONDS {
            for text in &texts {
                assert_eq!(translate(text, None).number, 0);
                bytes += text.len();
            }
        }
        let speed = bytes as f64 / start.elapsed().as_secs_f64() / 1e6;
        println!("{length:6} bytes: {speed:6.1} MB/s");
    }
    Ok(0)
}
