//! A site from the old datum to the new one, by `datum.pl360`, through the library: `datum SOURCE EAST NORTH [FLAG]`, in metres.
//! Writes the program's answer (0 shifted, 1 new already, 2 outside the grid) and the site in millimetres.

use std::error::Error;

/// Instructions that a site may take; it takes some hundred.
const BUDGET: u32 = 100_000;

fn shifted(words: &[String]) -> Result<String, Box<dyn Error>> {
    let source = std::fs::read(words.first().ok_or("datum SOURCE EAST NORTH [FLAG]")?)?;
    let metres = |word: &String| word.parse().map(|value: i32| value as u32);
    let given = words[1..].iter().map(metres).collect::<Result<Vec<u32>, _>>()?;
    let object = tautgaff::translated(&source)?;
    let mut registers = [0; 16];
    for (register, value) in [1, 3, 5].into_iter().zip(given) {
        registers[register] = value;
    }
    let end = tautgaff::run(&object, 0, BUDGET, &mut registers, &mut [0; tautgaff::STORAGE_NEEDED])?;
    if end.stop != tautgaff::Stop::AtEnd {
        return Err(format!("{:?} at {} after {} instructions", end.stop, end.counter, end.count).into());
    }
    Ok(format!("{} {} {}", registers[5], registers[1] as i32, registers[3] as i32))
}

fn main() {
    let words: Vec<String> = std::env::args().skip(1).collect();
    match shifted(&words) {
        Ok(line) => println!("{line}"),
        Err(error) => {
            eprintln!("{error}");
            std::process::exit(1);
        }
    }
}
