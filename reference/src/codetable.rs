//! Every row of document 01's "Code" as instructions with many fields, beside what an assembler is told.

use crate::assemble::{four, two};
use crate::gen::right_text;
use crate::objread;
use crate::random::Random;
use crate::translate::translate;

/// What stands in the text, IBM's name of the instruction, the opcode.
type Row = (&'static str, &'static str, u8);

/// The column "register".
const REGISTER: [Row; 10] = [
    (":=", "lr", 0x18),
    ("+", "ar", 0x1A),
    ("-", "sr", 0x1B),
    ("*", "mr", 0x1C),
    ("++", "alr", 0x1E),
    ("--", "slr", 0x1F),
    ("AND", "nr", 0x14),
    ("OR", "or", 0x16),
    ("XOR", "xr", 0x17),
    ("compare", "cr", 0x19),
];

/// The column "integer cell, number".
const INTEGER_CELL: [Row; 11] = [
    (":=", "l", 0x58),
    ("+", "a", 0x5A),
    ("-", "s", 0x5B),
    ("*", "m", 0x5C),
    ("++", "al", 0x5E),
    ("--", "sl", 0x5F),
    ("AND", "n", 0x54),
    ("OR", "o", 0x56),
    ("XOR", "x", 0x57),
    ("compare", "c", 0x59),
    ("store", "st", 0x50),
];

/// The column "short cell".
const SHORT_CELL: [Row; 6] = [
    (":=", "lh", 0x48),
    ("+", "ah", 0x4A),
    ("-", "sh", 0x4B),
    ("*", "mh", 0x4C),
    ("compare", "ch", 0x49),
    ("store", "sth", 0x40),
];

const SHIFTS: [Row; 4] = [("SHLL", "sll", 0x89), ("SHRL", "srl", 0x88), ("SHLA", "sla", 0x8B), ("SHRA", "sra", 0x8A)];
const SIGNS: [Row; 3] = [("ABS", "lpr", 0x10), ("NEG", "lcr", 0x13), ("NEG ABS", "lnr", 0x11)];
/// Document 02, 1/13: on registers, with a cell that may be indexed, with a number and a cell.
const ON_REGISTERS: [Row; 1] = [("LTR", "ltr", 0x12)];
const WITH_REGISTER: [Row; 3] = [("IC", "ic", 0x43), ("STC", "stc", 0x42), ("LA", "la", 0x41)];
const WITH_NUMBER: [Row; 2] = [("MVI", "mvi", 0x92), ("CLI", "cli", 0x95)];
const NUMBERS: [u8; 8] = [0x00, 0x01, 0x10, 0x7F, 0x80, 0xC1, 0xFE, 0xFF];

const BRANCH: Row = ("branch", "bc", 0x47);
const RETURN: Row = ("return", "bcr", 0x07);
const CALL: Row = ("call", "bal", 0x45);
const END: Row = ("end", "svc", 0x0A);

const DISPLACEMENTS: [u16; 8] = [0, 1, 16, 255, 256, 2048, 4094, 4095];
const INDEXES: [u8; 4] = [0, 1, 9, 15];
const BASES: [u8; 5] = [0, 1, 12, 14, 15];

/// IBM's name for a listed opcode.
pub fn mnemonic(opcode: u8) -> Option<&'static str> {
    let rows = REGISTER.iter().chain(&INTEGER_CELL).chain(&SHORT_CELL).chain(&SHIFTS).chain(&SIGNS);
    let functions = ON_REGISTERS.iter().chain(&WITH_REGISTER).chain(&WITH_NUMBER);
    let rows = rows.chain(functions).chain(&[BRANCH, RETURN, CALL, END]);
    rows.clone().find(|row| row.2 == opcode).map(|row| row.1)
}

/// Lines `bytes, name, assembler's line`, tabs between them.
pub fn lines() -> String {
    let mut text = String::new();
    let mut line = |bytes: Vec<u8>, name: &str, operands: String| {
        let hex: String = bytes.iter().map(|byte| format!("{byte:02X}")).collect();
        text += &format!("{hex}\t{name}\t{name} {operands}\n");
    };
    for target in 0..16 {
        for &(construct, name, opcode) in REGISTER.iter().chain(&SIGNS) {
            if let Some(r) = field(construct, target) {
                for s in 0..16 {
                    line(two(opcode, r, s), name, format!("{r},{s}"));
                }
            }
        }
        for &(construct, name, opcode) in INTEGER_CELL.iter().chain(&SHORT_CELL).chain(&[BRANCH, CALL]) {
            let half_product = opcode == 0x4C;
            if let Some(r) = if half_product { Some(target) } else { field(construct, target) } {
                for (index, base, displacement) in addresses() {
                    let operands = format!("{r},{displacement}({index},{base})");
                    line(four(opcode, r, index, base, displacement), name, operands);
                }
            }
        }
        for &(_, name, opcode) in &SHIFTS {
            for n in 0..64 {
                line(vec![opcode, 16 * target, 0, n], name, format!("{target},{n}(0)"));
            }
            for s in 1..16 {
                line(vec![opcode, 16 * target, 16 * s, 0], name, format!("{target},0({s})"));
            }
        }
        for mask in 0..16 {
            line(two(RETURN.2, mask, target), RETURN.1, format!("{mask},{target}"));
        }
    }
    functions(&mut line);
    line(two(END.2, 0, 0), END.1, "0".to_string());
    text
}

/// The instructions of the standard functions.
fn functions(line: &mut impl FnMut(Vec<u8>, &str, String)) {
    for r in 0..16 {
        for &(_, name, opcode) in &ON_REGISTERS {
            (0..16).for_each(|s| line(two(opcode, r, s), name, format!("{r},{s}")));
        }
        for &(_, name, opcode) in &WITH_REGISTER {
            for (index, base, displacement) in addresses() {
                let operands = format!("{r},{displacement}({index},{base})");
                line(four(opcode, r, index, base, displacement), name, operands);
            }
        }
    }
    for &(_, name, opcode) in &WITH_NUMBER {
        for number in NUMBERS {
            for base in 0..16 {
                for displacement in DISPLACEMENTS {
                    let operands = format!("{displacement}({base}),{number}");
                    line(four(opcode, number / 16, number % 16, base, displacement), name, operands);
                }
            }
        }
    }
}

/// Lines `bytes, name` for every instruction of the programs that `count` generated texts translate to.
pub fn sample(seed: u64, count: u64) -> String {
    let object = |number| translate(&right_text(&mut Random::new(seed, number)), None).object;
    (0..count).map(|number| named(&object(number))).collect()
}

/// Lines `bytes, name` for every instruction of the program in an object text.
pub fn named(object: &[u8]) -> String {
    let mut text = String::new();
    let program = objread::read(object).expect("the object text of an accepted text").program;
    let mut rest = &program[..];
    while !rest.is_empty() {
        let (instruction, behind) = rest.split_at(if rest[0] < 0x40 { 2 } else { 4 });
        let hex: String = instruction.iter().map(|byte| format!("{byte:02X}")).collect();
        text += &format!("{hex}\t{}\n", mnemonic(instruction[0]).expect("a listed opcode"));
        rest = behind;
    }
    text
}

/// "1C and 5C name the register below the target", which is odd.
fn field(construct: &str, target: u8) -> Option<u8> {
    match construct {
        "*" if target % 2 == 0 => None,
        "*" => Some(target - 1),
        _ => Some(target),
    }
}

fn addresses() -> impl Iterator<Item = (u8, u8, u16)> {
    INDEXES.into_iter().flat_map(|index| {
        BASES
            .into_iter()
            .flat_map(move |base| DISPLACEMENTS.into_iter().map(move |displacement| (index, base, displacement)))
    })
}
