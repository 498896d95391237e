//! Kinds and types, registers and their protection, values. Refusals 8, 9, 10 and 11.
//!
//! A rule that hangs on a refused declaration is judged with any meaning of it: what it could add lies later.

use crate::functions::{Function, Takes};
use crate::grammar::*;
use crate::layout::COUNT_LIMIT;
use crate::names::Found;
use crate::slips::Slip;
use crate::token::{Kind, Token};
use crate::violations::Violations;

/// "Program base is register 15."
pub const PROGRAM_BASE: u8 = 15;
/// "Data base is 14"
pub const DATA_BASE: u8 = 14;

/// A set of registers, register n as the bit 2^n.
pub type RegisterSet = u16;

pub fn only(register: u8) -> RegisterSet {
    1 << register
}

/// What a declared name stands for.
#[derive(Clone, Copy, PartialEq, Eq, Debug)]
pub enum Meaning {
    Unknown,
    Register(u8),
    /// `count` is the number of elements of an array, None for a cell that is none.
    Cell {
        of: Type,
        count: Option<usize>,
    },
    /// `writes` is all that a call writes.
    Procedure {
        register: u8,
        writes: RegisterSet,
    },
    Function(Function),
}

/// The meaning of every declared name, by its token.
pub fn meanings(
    program: &Block,
    tokens: &[Token],
    found: &[Found],
    slip: Slip,
    violations: &mut Violations,
) -> Vec<Meaning> {
    let meanings = vec![Meaning::Unknown; tokens.len()];
    let mut judge = Judge { tokens, found, slip, meanings, violations, bases: 0, written: 0 };
    judge.block(program, only(PROGRAM_BASE) | only(DATA_BASE));
    judge.meanings
}

/// The meaning of the name that stands at a token.
pub fn meaning(found: &[Found], meanings: &[Meaning], name: TokenNo) -> Meaning {
    match found[name] {
        Found::Nothing => Meaning::Unknown,
        Found::Standard(register) => Meaning::Register(register),
        Found::Function(function) => Meaning::Function(function),
        Found::Declared(declaration) => meanings[declaration],
    }
}

struct Judge<'a, 'b> {
    tokens: &'a [Token],
    found: &'a [Found],
    slip: Slip,
    meanings: Vec<Meaning>,
    violations: &'a mut Violations<'b>,
    /// The bases of enclosing blocks.
    bases: RegisterSet,
    /// What the text of the innermost procedure body has written so far.
    written: RegisterSet,
}

impl Judge<'_, '_> {
    fn meaning(&self, name: TokenNo) -> Meaning {
        meaning(self.found, &self.meanings, name)
    }

    /// "Protected at a point: 15, 14, the bases of enclosing blocks declared so far, the return registers of enclosing
    /// procedures": `protected` is what holds where the block begins.
    fn block(&mut self, block: &Block, mut protected: RegisterSet) {
        let outer_bases = self.bases;
        if self.slip == Slip::BasesFreeInside {
            protected &= !outer_bases;
        }
        for declaration in &block.declarations {
            match declaration {
                Declaration::Registers(items) => items.iter().for_each(|item| self.register_item(item)),
                Declaration::Cells(cells) => self.cells(cells),
                Declaration::Procedure(procedure) => self.procedure(procedure, protected),
                Declaration::Base(name) => {
                    let register = self.register_but_zero(*name);
                    let before = self.written;
                    self.writes(only(register), *name, protected);
                    if self.slip == Slip::BasesForgotten {
                        self.written = before;
                    }
                    protected |= only(register);
                    self.bases |= only(register);
                }
            }
        }
        for item in &block.items {
            if let Item::Statement(statement) = item {
                self.statement(statement, protected);
            }
        }
        self.bases = outer_bases;
    }

    /// "No statement, base declaration or call may write a protected register."
    fn writes(&mut self, registers: RegisterSet, at: TokenNo, protected: RegisterSet) {
        self.violations.add_if(registers & protected != 0, 10, at);
        self.written |= registers;
    }

    /// The register that a name must mean, 0 where it means none.
    fn register(&mut self, name: TokenNo) -> u8 {
        match self.meaning(name) {
            Meaning::Register(register) => register,
            Meaning::Unknown => 0,
            _ => {
                self.violations.add(8, name);
                0
            }
        }
    }

    /// "0 as base, return, index, shift"; under CASE "Register 0 is refusal 9" too.
    fn register_but_zero(&mut self, name: TokenNo) -> u8 {
        let register = self.register(name);
        self.violations.add_if(self.meaning(name) == Meaning::Register(0), 9, name);
        register
    }

    /// "register not 0 to 15"
    fn register_item(&mut self, item: &RegisterItem) {
        let number = self.tokens[item.number].signed();
        self.violations.add_if(!(0..=15).contains(&number), 9, item.number);
        self.meanings[item.name] = Meaning::Register(number.clamp(0, 15) as u8);
    }

    /// "bad initial value or one too many, array count not 1 to 2,048"
    fn cells(&mut self, cells: &Cells) {
        let mut count = None;
        if let Some(token) = cells.count {
            let number = self.tokens[token].signed();
            self.violations.add_if(!(1..=COUNT_LIMIT).contains(&number), 11, token);
            count = Some(number.clamp(1, COUNT_LIMIT) as usize);
        }
        for item in &cells.items {
            self.meanings[item.name] = Meaning::Cell { of: cells.of, count };
            for (position, &value) in item.values.iter().enumerate() {
                let too_many = position >= count.unwrap_or(1);
                let bad = !is_value(cells.of, self.tokens[value].signed());
                self.violations.add_if(too_many || bad, 11, value);
            }
        }
    }

    /// "A call writes the procedure's return register and all that its body's text writes, nested procedures and base
    /// declarations included, through calls too." A call in the own body finds the return register protected.
    fn procedure(&mut self, procedure: &Procedure, protected: RegisterSet) {
        // The name counts from its own token on, so it may stand, not fitting, for the register too.
        self.meanings[procedure.name] = Meaning::Procedure { register: 0, writes: 0 };
        let register = self.register_but_zero(procedure.register);
        let returns = only(register);
        self.meanings[procedure.name] = Meaning::Procedure { register, writes: returns };
        let outside = std::mem::take(&mut self.written);
        let kept = if self.slip == Slip::ReturnsFree { 0 } else { returns };
        self.statement(&procedure.body, protected | kept);
        self.meanings[procedure.name] = Meaning::Procedure { register, writes: returns | self.written };
        self.written = if self.slip == Slip::NestedForgotten { outside } else { outside | self.written };
    }

    fn statement(&mut self, statement: &Statement, protected: RegisterSet) {
        match statement {
            Statement::Assignment(assignment) => self.assignment(assignment, protected),
            Statement::Use(used) => self.used(used, protected),
            Statement::Block(block) => self.block(block, protected),
            Statement::Goto(_) | Statement::Null => {}
            Statement::Case(case) => self.case(case, protected),
            Statement::If { condition, then, otherwise, .. } => {
                self.condition(condition);
                self.statement(then, protected);
                if let Some(otherwise) = otherwise {
                    self.statement(otherwise, protected);
                }
            }
            Statement::While { condition, body, .. } => {
                self.condition(condition);
                self.statement(body, protected);
            }
            Statement::For { assignment, limit, body, .. } => {
                self.register(assignment.target.name);
                self.assignment(assignment, protected);
                self.operand(limit);
                self.statement(body, protected);
            }
        }
    }

    /// "Register 0 is refusal 9. The case register counts as written, refusal 10 at its name."
    fn case(&mut self, case: &Case, protected: RegisterSet) {
        self.register_but_zero(case.register);
        if let Meaning::Register(register) = self.meaning(case.register) {
            if self.slip != Slip::CasesForgotten {
                self.writes(only(register), case.register, protected);
            }
        }
        case.statements.iter().for_each(|statement| self.statement(statement, protected));
    }

    /// A call, or the use of a function. What else has arguments does not fit, nor has what has none and is no procedure.
    fn used(&mut self, used: &Use, protected: RegisterSet) {
        let name = used.name;
        match self.meaning(name) {
            Meaning::Function(function) => self.function(function, used, protected),
            Meaning::Procedure { register, writes } if used.arguments.is_empty() => {
                let before = self.written;
                self.writes(writes, name, protected);
                if self.slip == Slip::CallsForgotten {
                    self.written = before | only(register);
                }
            }
            Meaning::Unknown => {}
            _ => self.violations.add(8, name),
        }
    }

    /// "... is refusal 8, as is a wrong kind of argument, or a wrong count at the function's name."
    fn function(&mut self, function: Function, used: &Use, protected: RegisterSet) {
        if used.arguments.len() != function.arguments() {
            return self.violations.add(8, used.name);
        }
        let (first, last) = (&used.arguments[0], &used.arguments[used.arguments.len() - 1]);
        match function.takes {
            Takes::RegisterAndCell | Takes::TwoRegisters => {
                self.register_argument(first, function.writes_first, protected);
            }
            Takes::NumberAndCell => self.number_argument(first),
            Takes::Cell(_) => {}
        }
        match function.takes {
            Takes::TwoRegisters => self.register_argument(last, false, protected),
            Takes::RegisterAndCell => self.cell_argument(last, true),
            Takes::NumberAndCell | Takes::Cell(_) => self.cell_argument(last, false),
        }
    }

    /// "IC, LA and LTR write the first, so the protected rule counts it."
    fn register_argument(&mut self, argument: &Operand, written: bool, protected: RegisterSet) {
        match argument {
            Operand::Number(number) => self.violations.add(8, *number),
            Operand::Designator(designator) => {
                self.designator(designator);
                self.register(designator.name);
                if let Meaning::Register(register) = self.meaning(designator.name) {
                    if written && self.slip != Slip::FunctionsForgotten {
                        self.writes(only(register), designator.name, protected);
                    }
                }
            }
        }
    }

    /// "MVI and CLI take a number 0 to 255, else 11"
    fn number_argument(&mut self, argument: &Operand) {
        match argument {
            Operand::Number(number) => {
                let fits = is_value(Type::Byte, self.tokens[*number].signed());
                self.violations.add_if(!fits, 11, *number);
            }
            Operand::Designator(designator) => self.violations.add(8, designator.name),
        }
    }

    /// "a cell that may be indexed", or one of which "an index there is refusal 8": the index is what does not fit.
    fn cell_argument(&mut self, argument: &Operand, may_be_indexed: bool) {
        match argument {
            Operand::Number(number) => self.violations.add(8, *number),
            Operand::Designator(designator) => {
                let meaning = self.designator(designator);
                self.violations.add_if(matches!(meaning, Meaning::Register(_)), 8, designator.name);
                if let (Some(index), false) = (designator.index, may_be_indexed) {
                    self.violations.add(8, index);
                }
            }
        }
    }

    /// "A register target takes the whole chain, left to right, a cell target one register name only."
    fn assignment(&mut self, assignment: &Assignment, protected: RegisterSet) {
        match self.designator(&assignment.target) {
            Meaning::Register(target) => {
                self.writes(only(target), assignment.target.name, protected);
                self.operand(&assignment.first);
                for link in &assignment.chain {
                    self.link(link, target, protected);
                }
            }
            Meaning::Cell { of, .. } if of.is_byte() => self.violations.add(8, assignment.target.name),
            Meaning::Cell { .. } => self.store(assignment),
            Meaning::Procedure { .. } | Meaning::Function(_) | Meaning::Unknown => {}
        }
    }

    /// One register name only: any other token does not fit.
    fn store(&mut self, assignment: &Assignment) {
        if let Some(sign) = &assignment.sign {
            self.violations.add(8, sign.token);
        }
        match &assignment.first {
            Operand::Number(number) => self.violations.add(8, *number),
            Operand::Designator(source) => {
                self.designator(source);
                self.register(source.name);
            }
        }
        if let Some(link) = assignment.chain.first() {
            self.violations.add(8, link.operator);
        }
    }

    fn link(&mut self, link: &Link, target: u8, protected: RegisterSet) {
        match self.tokens[link.operator].kind {
            Kind::Shll | Kind::Shrl | Kind::Shla | Kind::Shra => self.shift(&link.operand),
            Kind::Times => {
                let operand = self.operand(&link.operand);
                self.product(link.operator, operand, target, protected);
            }
            Kind::And | Kind::Or | Kind::Xor | Kind::PlusPlus | Kind::MinusMinus => self.no_short(&link.operand),
            _ => {
                self.operand(&link.operand);
            }
        }
    }

    /// "Shift operands are a number 0 to 63 or a register."
    fn shift(&mut self, operand: &Operand) {
        match operand {
            Operand::Number(number) => {
                let amount = self.tokens[*number].signed();
                self.violations.add_if(!(0..=63).contains(&amount), 11, *number);
            }
            Operand::Designator(designator) => {
                self.designator(designator);
                self.register_but_zero(designator.name);
            }
        }
    }

    /// "`*` by a number, or by what begins with the name of a register or integer cell, needs an odd target and also
    /// writes the register below."
    fn product(&mut self, times: TokenNo, operand: Meaning, target: u8, protected: RegisterSet) {
        let by_pair = matches!(operand, Meaning::Register(_) | Meaning::Cell { of: Type::Integer, .. });
        if !by_pair {
            return;
        }
        if target % 2 == 0 {
            self.violations.add(9, times);
        } else {
            self.writes(only(target - 1), times, protected);
        }
    }

    /// "AND, OR, XOR, `++`, `--` take no short cell."
    fn no_short(&mut self, operand: &Operand) {
        let meaning = self.operand(operand);
        if let Operand::Designator(designator) = operand {
            let short = matches!(meaning, Meaning::Cell { of: Type::Short, .. });
            self.violations.add_if(short, 8, designator.name);
        }
    }

    /// "The first name in a condition, the FOR target and indexes are registers."
    fn condition(&mut self, condition: &Condition) {
        if let Condition::Comparison { register, operand, .. } = condition {
            self.register(*register);
            self.operand(operand);
        }
    }

    /// The meaning of the operand's name; a number has that of an integer cell. "A byte cell in an assignment or condition, or
    /// as a FOR limit, is refusal 8."
    fn operand(&mut self, operand: &Operand) -> Meaning {
        match operand {
            Operand::Number(_) => Meaning::Cell { of: Type::Integer, count: None },
            Operand::Designator(designator) => {
                let meaning = self.designator(designator);
                let byte = matches!(meaning, Meaning::Cell { of, .. } if of.is_byte());
                self.violations.add_if(byte, 8, designator.name);
                meaning
            }
        }
    }

    /// "A subscript is a byte offset, belongs only to arrays (else 8 at the name before it), is a multiple of the
    /// element size, and its element lies inside the array." The same array is asked for under an index.
    fn designator(&mut self, designator: &Designator) -> Meaning {
        let subscripted = designator.subscript.is_some() || designator.index.is_some();
        let meaning = self.meaning(designator.name);
        match meaning {
            Meaning::Unknown => {}
            Meaning::Procedure { .. } | Meaning::Function(_) => self.violations.add(8, designator.name),
            Meaning::Register(_) | Meaning::Cell { count: None, .. } => {
                self.violations.add_if(subscripted, 8, designator.name);
            }
            Meaning::Cell { of, count: Some(count) } => {
                if let Some(subscript) = designator.subscript {
                    let inside = is_element(self.tokens[subscript].signed(), of.size(), count);
                    self.violations.add_if(!inside, 11, subscript);
                }
            }
        }
        if let Some(index) = designator.index {
            self.register_but_zero(index);
        }
        meaning
    }
}

/// "A value for a short cell has signed value -32768 to 65535", one for a byte cell is "0 to 255".
fn is_value(of: Type, value: i32) -> bool {
    match of {
        Type::Integer => true,
        Type::Short => (-32768..=65535).contains(&value),
        Type::Byte | Type::Character => (0..=255).contains(&value),
    }
}

fn is_element(subscript: i32, size: usize, count: usize) -> bool {
    match usize::try_from(subscript) {
        Ok(offset) => offset % size == 0 && offset < size * count,
        Err(_) => false,
    }
}
