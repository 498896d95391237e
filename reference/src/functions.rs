//! "the standard functions of source document 001, section 2.8, that move them: IC 43, STC 42, LA 41, MVI 92, CLI 95, SET
//! (MVI with FF), RESET (MVI with 00), TEST (CLI with FF). LTR 12 becomes standard too." (Document 02, 1/13.)

use crate::token::{spelling, Spelling};

/// What a function takes, each argument in its own parentheses.
#[derive(Clone, Copy, PartialEq, Eq, Debug)]
pub enum Takes {
    /// "IC, STC and LA take a register, then a cell that may be indexed"
    RegisterAndCell,
    /// "LTR takes two registers"
    TwoRegisters,
    /// "MVI and CLI take a number 0 to 255, else 11, then a cell"
    NumberAndCell,
    /// "the others of that family only a cell": with this number.
    Cell(u8),
}

#[derive(Clone, Copy, PartialEq, Eq, Debug)]
pub struct Function {
    pub name: &'static str,
    pub opcode: u8,
    pub takes: Takes,
    /// "IC, LA and LTR write the first, so the protected rule counts it."
    pub writes_first: bool,
    /// What its cell is: read, stored into, or only named.
    pub cell: Cell,
}

/// What a function does with its cell.
#[derive(Clone, Copy, PartialEq, Eq, Debug)]
pub enum Cell {
    None,
    Read,
    Stored,
    Named,
}

impl Function {
    pub fn arguments(&self) -> usize {
        match self.takes {
            Takes::Cell(_) => 1,
            _ => 2,
        }
    }
}

const fn function(name: &'static str, opcode: u8, takes: Takes, writes_first: bool, cell: Cell) -> Function {
    Function { name, opcode, takes, writes_first, cell }
}

pub const FUNCTIONS: [Function; 9] = [
    function("IC", 0x43, Takes::RegisterAndCell, true, Cell::Read),
    function("STC", 0x42, Takes::RegisterAndCell, false, Cell::Stored),
    function("LA", 0x41, Takes::RegisterAndCell, true, Cell::Named),
    function("MVI", 0x92, Takes::NumberAndCell, false, Cell::Stored),
    function("CLI", 0x95, Takes::NumberAndCell, false, Cell::Read),
    function("SET", 0x92, Takes::Cell(0xFF), false, Cell::Stored),
    function("RESET", 0x92, Takes::Cell(0x00), false, Cell::Stored),
    function("TEST", 0x95, Takes::Cell(0xFF), false, Cell::Read),
    function("LTR", 0x12, Takes::TwoRegisters, true, Cell::None),
];

/// The standard function of this name.
pub fn standard(name: Spelling) -> Option<Function> {
    let of_name = |function: &&Function| spelling(function.name.as_bytes()) == name;
    FUNCTIONS.iter().find(of_name).copied()
}
