//! A case for the runner in the format of `runbatch`, and the line that answers it.

use crate::cmd_text::fnv1a;
use crate::runner::{run, RunAnswer};
use crate::spot::Spot;
use std::io::{self, BufRead, Write};

/// Every byte of storage before a run.
pub const STORAGE_BEFORE: u8 = 165;

/// What a run is given; storage is `storage_length` bytes of 165.
#[derive(Clone, Debug, PartialEq, Eq)]
pub struct Case {
    pub object: Vec<u8>,
    pub budget: u32,
    pub cc: u64,
    pub storage_length: usize,
    pub regs: [u32; 16],
}

impl Case {
    /// The answer and all of storage after.
    pub fn run(&self) -> (RunAnswer, Vec<u8>) {
        let mut storage = vec![STORAGE_BEFORE; self.storage_length];
        let answer = run(&self.object, self.regs, self.cc, self.budget, &mut storage);
        (answer, storage)
    }

    /// `length budget cc storage-length r0 … r15`, the object text, a newline.
    pub fn write(&self, out: &mut impl Write) -> io::Result<()> {
        let regs = words(&self.regs);
        writeln!(out, "{} {} {} {} {}", self.object.len(), self.budget, self.cc, self.storage_length, regs)?;
        out.write_all(&self.object)?;
        out.write_all(b"\n")
    }

    /// The next case, or `None` at the end of the input.
    pub fn read(input: &mut impl BufRead) -> io::Result<Option<Case>> {
        let mut line = String::new();
        if input.read_line(&mut line)? == 0 {
            return Ok(None);
        }
        let numbers: Vec<u64> = line
            .strip_suffix('\n')
            .ok_or_else(|| broken("a line without an end"))?
            .split(' ')
            .map(|word| word.parse().map_err(|_| broken("a word that is no number")))
            .collect::<io::Result<_>>()?;
        if numbers.len() != 20 {
            return Err(broken("a line without exactly 20 numbers"));
        }
        let mut regs = [0; 16];
        for (register, &number) in regs.iter_mut().zip(&numbers[4..]) {
            *register = number.try_into().map_err(|_| broken("a register of more than 32 bits"))?;
        }
        let mut object = vec![0; numbers[0] as usize];
        input.read_exact(&mut object)?;
        let mut newline = [0];
        input.read_exact(&mut newline)?;
        if newline != *b"\n" {
            return Err(broken("no newline after the object text"));
        }
        let budget = numbers[1].try_into().map_err(|_| broken("a budget of more than 32 bits"))?;
        Ok(Some(Case { object, budget, cc: numbers[2], storage_length: numbers[3] as usize, regs }))
    }
}

/// `number place line column stop counter cc count r0 … r15 hash`, the hash of all storage after.
pub fn answer_line(answer: &RunAnswer, storage: &[u8]) -> String {
    let RunAnswer { number, spot: Spot { place, line, column }, stop, counter, regs, cc, count } = answer;
    let (regs, hash) = (words(regs), fnv1a(storage));
    format!("{number} {place} {line} {column} {stop} {counter} {cc} {count} {regs} {hash:016x}")
}

fn words(regs: &[u32; 16]) -> String {
    regs.map(|register| register.to_string()).join(" ")
}

fn broken(what: &str) -> io::Error {
    io::Error::new(io::ErrorKind::InvalidData, what)
}
