//! Two loops and how fast the runner goes through them.

use crate::assemble::{data, four, text, two};
use crate::runcase::Case;
use crate::runner::STORAGE_NEEDED;
use std::time::Instant;

/// Instructions of one measured run.
const BUDGET: u32 = 100_000_000;
/// Measured runs of each loop; the median counts.
const RUNS: usize = 5;

/// `FOR R1 := 0 STEP 1 UNTIL …` that never ends: 5A, 59, 47.
pub fn counting_loop() -> Case {
    let program = [
        four(0x5A, 1, 0, 14, 16), // R1 := R1 + 1
        four(0x59, 1, 0, 14, 20), // compare with the limit
        four(0x47, 15, 0, 15, 0), // always back
    ]
    .concat();
    let mut cells = vec![0; 16];
    cells.extend(1u32.to_be_bytes());
    cells.extend(0x7FFF_FFFFu32.to_be_bytes());
    case(&program, cells, 24)
}

/// Loads, stores, calls, products, shifts, half words and an indexed walk over an array, without end.
pub fn mixed_loop() -> Case {
    let body = 4u16; // the called procedure lies behind the first branch
    let program = [
        four(0x47, 15, 0, 15, body + 18), // around the procedure
        // the procedure, return register 5
        four(0x4A, 2, 0, 14, 24), // R2 := R2 + half word
        four(0x5F, 3, 0, 14, 16), // R3 := R3 -- word
        four(0x40, 3, 0, 14, 26), // half word := R3
        two(0x17, 4, 3),          // R4 := R4 XOR R3
        two(0x16, 4, 2),          // R4 := R4 OR R2
        two(0x07, 15, 5),         // return
        // the loop
        four(0x58, 7, 0, 14, 16),  // R7 := word
        four(0x5C, 6, 0, 14, 20),  // R7 := R7 * word
        four(0x48, 8, 0, 14, 24),  // R8 := half word
        four(0x4C, 8, 0, 14, 26),  // R8 := R8 * half word
        two(0x1A, 7, 8),           // R7 := R7 + R8
        four(0x8B, 7, 0, 0, 3),    // SHLA 3
        four(0x88, 7, 0, 0, 1),    // SHRL 1
        four(0x50, 7, 9, 14, 32),  // array(R9) := R7
        four(0x45, 5, 0, 15, 4),   // the call
        two(0x1C, 10, 9),          // RB := RB * R9
        four(0x8A, 11, 0, 9, 0),   // SHRA by R9
        four(0x5A, 9, 0, 14, 28),  // R9 := R9 + 4
        four(0x54, 9, 0, 14, 96),  // R9 := R9 AND 60
        four(0x59, 9, 0, 14, 28),  // compare with 4
        four(0x47, 13, 0, 15, 22), // unless greater, round again
        two(0x10, 3, 7),           // R3 := ABS R7
        two(0x13, 2, 3),           // R2 := NEG R3
        four(0x47, 15, 0, 15, 22),
    ]
    .concat();
    assert_eq!(body + 18, 22);
    let mut cells = vec![0; 16];
    for value in [0x0000_1235u32, 0xFFFF_FFF9, 0x0017_FFE5, 4] {
        cells.extend(value.to_be_bytes());
    }
    cells.extend([0; 64]);
    cells.extend(60u32.to_be_bytes());
    case(&program, cells, 96)
}

fn case(program: &[u8], cells: Vec<u8>, to: usize) -> Case {
    Case {
        object: text(program, &[data(cells, 16, to)]),
        budget: BUDGET,
        cc: 0,
        storage_length: STORAGE_NEEDED,
        regs: [0; 16],
    }
}

/// The median over the runs of each loop, in million instructions a second.
pub fn report() -> String {
    let mut text = String::new();
    for (name, case) in [("A/C/BC", counting_loop()), ("mix", mixed_loop())] {
        let mut speeds: Vec<f64> = (0..RUNS).map(|_| speed(&case)).collect();
        speeds.sort_by(f64::total_cmp);
        text +=
            &format!("{name}: {:.0} million instructions/s (median of {RUNS} runs of {BUDGET})\n", speeds[RUNS / 2]);
    }
    text
}

fn speed(case: &Case) -> f64 {
    let start = Instant::now();
    let (answer, _) = case.run();
    let seconds = start.elapsed().as_secs_f64();
    assert_eq!((answer.number, answer.stop, answer.count), (0, 0, case.budget), "the loop has to fill its budget");
    answer.count as f64 / seconds / 1e6
}
