//! The commands that watch runs, under the reference's own runner; `tests/watch` does it under the proved one.

use crate::slips::SLIPS;
use crate::watching::{campaign, reference_runner, reference_translator, try_changed_bytes, try_slip, Texts};
use std::io;

pub const USAGE: &str =
    "  reference watch generated|hunted|cases SEED COUNT   watched runs of accepted texts, by the reference's runner
  reference watch-changed SEED COUNT   the watcher on object texts changed by one byte
  reference watch-slips SEED COUNT   the watcher on wrong translators";

pub const COMMANDS: [&str; 3] = ["watch", "watch-changed", "watch-slips"];

/// Carries out a command; the exit status is 1 where the watcher cried out or was wrongly silent.
pub fn main(words: &[&str]) -> io::Result<i32> {
    let wrong = || io::Error::new(io::ErrorKind::InvalidInput, USAGE);
    let number = |word: &str| word.parse::<u64>().map_err(|_| wrong());
    match words {
        ["watch", texts, seed, count] => {
            let texts = Texts::named(texts).ok_or_else(wrong)?;
            let tally =
                campaign(texts, number(seed)?, number(count)?, &mut reference_translator, &mut reference_runner);
            print!("{}", tally.report());
            Ok(i32::from(!tally.cries.is_empty()))
        }
        ["watch-changed", seed, count] => {
            let mut status = 0;
            for texts in [Texts::Generated, Texts::Hunted] {
                let trial = try_changed_bytes(texts, number(seed)?, number(count)?);
                print!("{}", trial.report(&format!("{texts:?}, one byte changed")));
                status |= i32::from(!trial.missed.is_empty());
            }
            Ok(status)
        }
        ["watch-slips", seed, count] => {
            let mut status = 0;
            for slip in SLIPS {
                for texts in [Texts::Generated, Texts::Hunted] {
                    let trial = try_slip(slip, texts, number(seed)?, number(count)?);
                    print!("{}", trial.report(&format!("{slip:?}, {texts:?}")));
                    status |= i32::from(!trial.false_cries.is_empty());
                }
            }
            Ok(status)
        }
        _ => Err(wrong()),
    }
}
