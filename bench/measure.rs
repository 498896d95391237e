//! Two sides in turn on the same input: seconds of the processor, medians, ratio.

use std::fmt::Debug;

extern "C" {
    /// Of C's library: seconds and their billionths.
    fn clock_gettime(clock: i32, time: *mut [i64; 2]) -> i32;
}

/// CLOCK_PROCESS_CPUTIME_ID: what else runs on the machine is not counted.
const PROCESSOR_TIME: i32 = 2;

fn seconds() -> f64 {
    let mut time = [0; 2];
    unsafe { clock_gettime(PROCESSOR_TIME, &mut time) };
    time[0] as f64 + time[1] as f64 / 1e9
}

pub struct Medians {
    pub proved: f64,
    pub reference: f64,
    /// Of the reference's seconds to the proved side's: above 1 the proved side is faster.
    pub ratio: f64,
}

impl Medians {
    /// Both sides' speeds in millions, of so many units in one time.
    pub fn speeds(&self, units: usize, millions: &str) -> String {
        let speed = |seconds: f64| units as f64 / seconds / 1e6;
        let (ours, theirs) = (speed(self.proved), speed(self.reference));
        format!("proved {ours:.1}, reference {theirs:.1} {millions}/s, ratio {:.2}", self.ratio)
    }
}

/// Medians of so many rounds, in each of which either side works so many times; both have to answer the same.
pub fn in_turn<T: PartialEq + Debug>(
    rounds: usize,
    times: usize,
    mut proved: impl FnMut() -> T,
    mut reference: impl FnMut() -> T,
) -> Medians {
    let (mut ours, mut theirs, mut ratios) = (Vec::new(), Vec::new(), Vec::new());
    for _ in 0..rounds {
        let (our_time, answer) = timed(times, &mut proved);
        let (their_time, expected) = timed(times, &mut reference);
        assert_eq!(answer, expected);
        ours.push(our_time);
        theirs.push(their_time);
        ratios.push(their_time / our_time);
    }
    Medians { proved: median(ours), reference: median(theirs), ratio: median(ratios) }
}

/// Seconds for one time, and the last answer.
fn timed<T>(times: usize, mut work: impl FnMut() -> T) -> (f64, T) {
    let start = seconds();
    for _ in 1..times {
        work();
    }
    let answer = work();
    ((seconds() - start) / times as f64, answer)
}

fn median(mut values: Vec<f64>) -> f64 {
    values.sort_by(f64::total_cmp);
    values[values.len() / 2]
}
