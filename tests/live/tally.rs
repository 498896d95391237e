//! What a comparison counts, and what it says at the end.

use std::collections::BTreeMap;

/// The numbers that a program is called with.
pub fn numbers() -> Vec<u64> {
    std::env::args().skip(1).map(|word| word.parse().expect("a number")).collect()
}

#[derive(Default)]
pub struct Tally {
    differences: u64,
    answers: BTreeMap<String, u64>,
}

impl Tally {
    pub fn answered(&mut self, answer: String) {
        *self.answers.entry(answer).or_insert(0) += 1;
    }

    pub fn differs(&mut self, how: String) {
        self.differences += 1;
        println!("{how}");
    }

    /// The exit status.
    pub fn report(&self, what: String) -> i32 {
        println!("{what}: {} differences", self.differences);
        for (answer, times) in &self.answers {
            println!("{answer}: {times}");
        }
        (self.differences != 0) as i32
    }
}
