//! Runs of programs that come to a CASE with whatever its register holds at the start: the programs, the values at which its tests
//! turn, and what document 02, 3/13, says of them.

use crate::random::Random;
use crate::runcase::Case;
use crate::runner::STORAGE_NEEDED;
use crate::spell::text;

/// More than any of the programs takes.
const BUDGET: u32 = 10_000;

/// How far around each edge values are tried.
const AROUND: u32 = 6;

/// What the case register may hold: everything near 0, the count, 2^30 (of which four times is near 0), 2^31 and 2^32, each once.
pub fn near(count: usize) -> Vec<u32> {
    let edges = [0, count as u32, 1 << 30, 1 << 31, 3 << 30];
    let around = |edge: u32| (0..=2 * AROUND).map(move |step| edge.wrapping_sub(AROUND).wrapping_add(step));
    let mut values: Vec<u32> = edges.into_iter().flat_map(around).collect();
    values.sort_unstable();
    values.dedup();
    values
}

/// "Numbering starts at 1. Any other value executes nothing": the number of the statement that is executed.
pub fn chosen(value: u32, count: usize) -> Option<usize> {
    (1..=count).find(|&number| number as u32 == value)
}

/// "Any other value executes nothing and leaves the register"; in the chosen statement, and after it, it is multiplied by 4.
pub fn left(value: u32, count: usize) -> u32 {
    chosen(value, count).map_or(value, |number| 4 * number as u32)
}

/// The condition code where the chosen statement begins or, with none, behind the CASE: that of the compare, or of the LTR.
pub fn code(value: u32, count: usize) -> u64 {
    let signed = value as i32;
    if i64::from(signed) > count as i64 {
        return 2;
    }
    match signed {
        i32::MIN..=-1 => 1,
        0 => 0,
        _ => 2,
    }
}

/// A program that comes to a CASE of so many statements once, or once first, with its register as given.
pub struct Program {
    pub text: Vec<u8>,
    pub register: u8,
    pub count: usize,
}

impl Program {
    /// A run of its object text in which the case register holds this value; all else is random.
    pub fn case(&self, object: Vec<u8>, value: u32, random: &mut Random) -> Case {
        let mut regs = std::array::from_fn(|_| match random.below(3) {
            0 => random.next() as u32,
            _ => random.below(40) as u32,
        });
        regs[usize::from(self.register)] = value;
        Case { object, budget: BUDGET, cc: random.below(4) as u64, storage_length: STORAGE_NEEDED, regs }
    }
}

pub fn program(random: &mut Random) -> Program {
    let register = random.range(1, 13) as u8;
    // Returns from a procedure around the CASE, or counts; no statement writes it.
    let other = 1 + (register + random.below(12) as u8) % 13;
    let count = match random.below(30) {
        0 => random.range(60, 300),
        1..=3 => random.range(7, 60),
        _ => random.below(7),
    };
    let mut writer = Statements { random, register, other, short: count > 60 };
    let case = writer.case(register, count, 2);
    let (before, first) = match random.below(6) {
        // A GOTO finds no label past the edge of a procedure body.
        0 => (format!("PROCEDURE S ( R{other:X} ) ; {} ; ", case.replace("GOTO L", "NULL")), "S".to_string()),
        1 => (String::new(), format!("IF R{other:X} = R{other:X} THEN {case} ELSE NULL")),
        2 => (String::new(), format!("FOR R{other:X} := 1 STEP 1 UNTIL 1 DO {case}")),
        3 => (String::new(), format!("BEGIN INTEGER I ; {case} ; END")),
        _ => (String::new(), case),
    };
    let phrase = format!("BEGIN {DECLARED} {before}{first} ; L : R{other:X} := R{other:X} ; END @");
    let tokens: Vec<String> = phrase.split_ascii_whitespace().map(str::to_string).collect();
    Program { text: text(random, &tokens), register, count }
}

/// What the statements name.
const DECLARED: &str = "INTEGER I ( 7 ) ; ARRAY ( 4 ) BYTE A ( 1 ) ( 2 ) ; ARRAY ( 4 ) SHORT INTEGER H ; \
    PROCEDURE P ( R8 ) ; R0 := R0 + 1 ;";

struct Statements<'a> {
    random: &'a mut Random,
    register: u8,
    other: u8,
    /// Only of few bytes.
    short: bool,
}

impl Statements<'_> {
    fn case(&mut self, register: u8, count: usize, depth: usize) -> String {
        let list: String = (0..count).map(|_| self.statement(depth) + " ; ").collect();
        format!("CASE R{register:X} OF BEGIN {list}END")
    }

    /// A statement of the list; it may read and write the case register, too.
    fn statement(&mut self, depth: usize) -> String {
        let (register, other) = (self.register, self.other);
        let target = 1 + (other + self.random.below(12) as u8) % 13;
        let value = self.random.below(1000);
        match self.random.below(if self.short { 6 } else { 18 }) {
            0..=1 => "NULL".to_string(),
            2..=5 => format!("R{target:X} := {value}"),
            6 => format!("R{register:X} := R{register:X} SHRL 2"),
            7 => format!("I := R{register:X}"),
            8 => format!("STC ( R{register:X} ) ( A ( {} ) )", value % 4),
            9 => format!("H ( R{register:X} ) := R{target:X}"),
            10 => "GOTO L".to_string(),
            11 => format!("IF > THEN R{target:X} := {value} ELSE R0 := {value}"),
            12 => format!("IF R{register:X} = {} THEN BEGIN NULL ; SET ( A ) ; END ELSE RESET ( A )", 4 * (value % 8)),
            13 if other != 8 => "P".to_string(),
            14 if depth > 0 => self.case(register, value % 6, depth - 1),
            15 if depth > 0 => {
                let inner = self.case(target, value % 4, depth - 1);
                format!("BEGIN R{target:X} := {} ; {inner} ; END", value % 5)
            }
            16 => format!("R{register:X} := {value} - R{register:X}"),
            _ => format!("R{target:X} := R{target:X} + R{register:X}"),
        }
    }
}
