//! Code: the instructions of a program without violations, as records that say what they name, and their bytes.

use crate::functions::{Function, Takes};
use crate::grammar::*;
use crate::kinds::{meaning, Meaning, DATA_BASE, PROGRAM_BASE};
use crate::layout::{Layout, Place, FIRST_DATA, LAST_DATA};
use crate::names::Found;
use crate::slips::Slip;
use crate::token::{Kind, Token};
use std::collections::HashMap;

/// A point of the program, to be branched to: an index into `Code::points`.
pub type Point = usize;

#[derive(Clone, Copy, PartialEq, Eq, Debug)]
pub enum Address {
    Cell(Place),
    Literal(u32),
    /// The table's entry of a segment.
    Table(usize),
}

#[derive(Clone, Copy, PartialEq, Eq, Debug)]
pub enum Instruction {
    /// "Two bytes: opcode, r·16+s."
    Registers { opcode: u8, r: u8, s: u8 },
    /// "Four bytes: opcode, r·16+index, base·16 + displacement/256, displacement mod 256."
    Storage { opcode: u8, r: u8, index: u8, address: Address },
    /// Four bytes: opcode, the number, then base and displacement as above.
    Immediate { opcode: u8, number: u8, address: Address },
    /// "`89 r0 00 n`"
    ShiftByNumber { opcode: u8, r: u8, amount: u8 },
    /// "or by register `89 r0 s0 00`"
    ShiftByRegister { opcode: u8, r: u8, s: u8 },
    /// "Branch `47 m0` to a displacement from 15", "Call: `45 r0` to the body."; with an index only that of CASE, "`47 Fr` indexed by
    /// r".
    Branch { opcode: u8, field: u8, index: u8, to: Point },
}

pub struct Code {
    pub instructions: Vec<Instruction>,
    /// The address of each point, in bytes.
    pub points: Vec<usize>,
    pub length: usize,
    /// The registers of the segments: "Program base is register 15. Data base is 14 until a base declaration".
    pub bases: [u8; LAST_DATA + 1],
}

/// All that the passes before have found out.
pub struct Findings<'a> {
    pub tokens: &'a [Token],
    pub found: &'a [Found],
    pub meanings: &'a [Meaning],
    pub labels: &'a [Option<TokenNo>],
    pub layout: &'a Layout,
    pub slip: Slip,
}

/// The opcodes of one line of the code table: for a register, an integer cell or number, a short cell.
#[derive(Clone, Copy)]
struct Opcodes {
    register: u8,
    integer: u8,
    short: u8,
}

/// Stands where the code table has none; what would need it is refused.
const NONE: u8 = 0;

const fn opcodes(register: u8, integer: u8, short: u8) -> Opcodes {
    Opcodes { register, integer, short }
}

const LOAD: Opcodes = opcodes(0x18, 0x58, 0x48);
const ADD: Opcodes = opcodes(0x1A, 0x5A, 0x4A);
const SUBTRACT: Opcodes = opcodes(0x1B, 0x5B, 0x4B);
const MULTIPLY: Opcodes = opcodes(0x1C, 0x5C, 0x4C);
const ADD_LOGICAL: Opcodes = opcodes(0x1E, 0x5E, NONE);
const SUBTRACT_LOGICAL: Opcodes = opcodes(0x1F, 0x5F, NONE);
const AND: Opcodes = opcodes(0x14, 0x54, NONE);
const OR: Opcodes = opcodes(0x16, 0x56, NONE);
const XOR: Opcodes = opcodes(0x17, 0x57, NONE);
const COMPARE: Opcodes = opcodes(0x19, 0x59, 0x49);
const STORE: Opcodes = opcodes(NONE, 0x50, 0x40);

const BRANCH: u8 = 0x47;
const CALL: u8 = 0x45;
const RETURN: u8 = 0x07;
const LTR: u8 = 0x12;
const SHLL: u8 = 0x89;
/// "always is mask 15"
const ALWAYS: u8 = 15;

/// Of a line of the code table, the opcode for storage; it has no column for byte cells.
fn for_storage(opcodes: Opcodes, of: Type) -> u8 {
    match of {
        Type::Integer => opcodes.integer,
        Type::Short => opcodes.short,
        Type::Byte | Type::Character => NONE,
    }
}

/// "Masks when a condition is false: = 7, ^= 9, < 11, <= 3, >= 5, > 13, OVERFLOW 14."
fn false_mask(relation: Kind, slip: Slip) -> u8 {
    match relation {
        Kind::Equal => 7,
        Kind::NotEqual => 9,
        Kind::Less if slip == Slip::LessAsTen => 10,
        Kind::Less => 11,
        Kind::LessEqual => 3,
        Kind::GreaterEqual => 5,
        Kind::Greater => 13,
        _ => 14,
    }
}

/// "ABS 10, NEG 13, NEG ABS 11"
fn sign_opcode(sign: SignKind) -> u8 {
    match sign {
        SignKind::Abs => 0x10,
        SignKind::Neg => 0x13,
        SignKind::NegAbs => 0x11,
    }
}

/// "Shifts 89, 88, 8B, 8A for SHLL, SHRL, SHLA, SHRA"
fn shift_opcode(operator: Kind) -> Option<u8> {
    match operator {
        Kind::Shll => Some(SHLL),
        Kind::Shrl => Some(0x88),
        Kind::Shla => Some(0x8B),
        Kind::Shra => Some(0x8A),
        _ => None,
    }
}

fn operator_opcodes(operator: Kind) -> Opcodes {
    match operator {
        Kind::Plus => ADD,
        Kind::Minus => SUBTRACT,
        Kind::Times => MULTIPLY,
        Kind::PlusPlus => ADD_LOGICAL,
        Kind::MinusMinus => SUBTRACT_LOGICAL,
        Kind::And => AND,
        Kind::Or => OR,
        _ => XOR,
    }
}

/// An operand as instructions name it.
#[derive(Clone, Copy)]
enum Source {
    Register(u8),
    Storage { of: Type, index: u8, address: Address },
}

pub fn code(program: &Block, findings: Findings) -> Code {
    let mut writer = Writer {
        findings,
        instructions: Vec::new(),
        length: 0,
        points: Vec::new(),
        entries: HashMap::new(),
        bases: [PROGRAM_BASE, DATA_BASE, 0, 0],
    };
    writer.block(program);
    // "The last instruction is `0A 00`."
    writer.registers(0x0A, 0, 0);
    Code { instructions: writer.instructions, points: writer.points, length: writer.length, bases: writer.bases }
}

struct Writer<'a> {
    findings: Findings<'a>,
    instructions: Vec<Instruction>,
    length: usize,
    points: Vec<usize>,
    /// The points of labels and procedure bodies, by the token that sets the label or declares the procedure.
    entries: HashMap<TokenNo, Point>,
    bases: [u8; LAST_DATA + 1],
}

impl Writer<'_> {
    fn add(&mut self, instruction: Instruction) {
        self.instructions.push(instruction);
        self.length += instruction_length(instruction);
    }

    fn registers(&mut self, opcode: u8, r: u8, s: u8) {
        self.add(Instruction::Registers { opcode, r, s });
    }

    fn branch(&mut self, mask: u8, to: Point) {
        self.add(Instruction::Branch { opcode: BRANCH, field: mask, index: 0, to });
    }

    /// A point that is still to be set.
    fn new_point(&mut self) -> Point {
        self.points.push(0);
        self.points.len() - 1
    }

    fn set(&mut self, point: Point) {
        self.points[point] = self.length;
    }

    fn here(&mut self) -> Point {
        let point = self.new_point();
        self.set(point);
        point
    }

    fn entry(&mut self, token: TokenNo) -> Point {
        if let Some(&point) = self.entries.get(&token) {
            return point;
        }
        let point = self.new_point();
        self.entries.insert(token, point);
        point
    }

    fn kind(&self, token: TokenNo) -> Kind {
        self.findings.tokens[token].kind
    }

    fn value(&self, token: TokenNo) -> u32 {
        self.findings.tokens[token].value
    }

    fn meaning(&self, name: TokenNo) -> Meaning {
        meaning(self.findings.found, self.findings.meanings, name)
    }

    fn register_of(&self, name: TokenNo) -> u8 {
        match self.meaning(name) {
            Meaning::Register(register) => register,
            other => unreachable!("{other:?} where a register was judged to be"),
        }
    }

    fn block(&mut self, block: &Block) {
        for declaration in &block.declarations {
            match declaration {
                Declaration::Registers(_) | Declaration::Cells(_) => {}
                Declaration::Base(name) => self.base(*name),
                Declaration::Procedure(procedure) => self.procedure(procedure),
            }
        }
        for item in &block.items {
            match item {
                Item::Statement(statement) => self.statement(statement),
                Item::Label(label) => {
                    let point = self.entry(*label);
                    self.set(point);
                }
            }
        }
    }

    /// "Base declaration for segment k: `58 r0 E0`, 4k."
    fn base(&mut self, name: TokenNo) {
        let register = self.register_of(name);
        if let Some(segment) = self.findings.layout.bases[name] {
            self.bases[segment] = register;
            let address = Address::Table(segment);
            self.add(Instruction::Storage { opcode: LOAD.integer, r: register, index: 0, address });
        }
    }

    /// "Procedure: branch around, body, `07 Fr`."
    fn procedure(&mut self, procedure: &Procedure) {
        let around = self.new_point();
        self.branch(ALWAYS, around);
        let entry = self.entry(procedure.name);
        self.set(entry);
        self.statement(&procedure.body);
        let register = self.register_of(procedure.register);
        self.registers(RETURN, ALWAYS, register);
        self.set(around);
    }

    fn statement(&mut self, statement: &Statement) {
        match statement {
            Statement::Assignment(assignment) => self.assignment(assignment),
            Statement::Use(used) => match self.meaning(used.name) {
                Meaning::Function(function) => self.function(function, &used.arguments),
                _ => self.call(used.name),
            },
            Statement::Block(block) => self.block(block),
            Statement::Goto(name) => self.goto(*name),
            Statement::Null => {}
            Statement::Case(case) => self.case(case),
            Statement::If { condition, then, otherwise, .. } => {
                self.if_statement(condition, then, otherwise.as_deref())
            }
            Statement::While { condition, body, .. } => self.while_statement(condition, body),
            Statement::For { assignment, step, limit, body, .. } => self.for_statement(assignment, *step, limit, body),
        }
    }

    /// "Call: `45 r0` to the body."
    fn call(&mut self, name: TokenNo) {
        if let (Found::Declared(token), Meaning::Procedure { register, .. }) =
            (self.findings.found[name], self.meaning(name))
        {
            let to = self.entry(token);
            self.add(Instruction::Branch { opcode: CALL, field: register, index: 0, to });
        }
    }

    /// "IC 43, STC 42, LA 41, MVI 92, CLI 95, SET (MVI with FF), RESET (MVI with 00), TEST (CLI with FF). LTR 12".
    fn function(&mut self, function: Function, arguments: &[Operand]) {
        let opcode = function.opcode;
        let last = arguments.last().expect("a function has an argument");
        match (function.takes, &arguments[0], self.source(last)) {
            (Takes::TwoRegisters, first, Source::Register(s)) => {
                let r = self.register_argument(first);
                self.registers(opcode, r, s);
            }
            (Takes::RegisterAndCell, first, Source::Storage { index, address, .. }) => {
                let r = self.register_argument(first);
                self.add(Instruction::Storage { opcode, r, index, address });
            }
            (Takes::NumberAndCell, Operand::Number(number), Source::Storage { address, .. }) => {
                let number = self.value(*number) as u8;
                self.add(Instruction::Immediate { opcode, number, address });
            }
            (Takes::Cell(number), _, Source::Storage { address, .. }) => {
                self.add(Instruction::Immediate { opcode, number, address });
            }
            _ => unreachable!("an argument that was judged to fit"),
        }
    }

    fn register_argument(&self, argument: &Operand) -> u8 {
        match self.source(argument) {
            Source::Register(register) => register,
            Source::Storage { .. } => unreachable!("storage where a register was judged to be"),
        }
    }

    /// "GOTO is an always-branch."
    fn goto(&mut self, name: TokenNo) {
        if let Some(label) = self.findings.labels[name] {
            let to = self.entry(label);
            self.branch(ALWAYS, to);
        }
    }

    /// "compare with the count as a literal, branch mask 2 to the end; LTR, branch mask 12 to the end; SHLL by 2; `47 Fr` indexed by
    /// r at four bytes before the branch table; the table, one always-branch each; the statements, each followed by an
    /// always-branch to the end."
    fn case(&mut self, case: &Case) {
        let r = self.register_of(case.register);
        let end = self.new_point();
        let address = Address::Literal(case.statements.len() as u32);
        self.add(Instruction::Storage { opcode: COMPARE.integer, r, index: 0, address });
        self.branch(2, end);
        self.registers(LTR, r, r);
        self.branch(if self.findings.slip == Slip::CaseOfZero { 4 } else { 12 }, end);
        self.add(Instruction::ShiftByNumber { opcode: SHLL, r, amount: 2 });
        let before_table = self.new_point();
        self.add(Instruction::Branch { opcode: BRANCH, field: ALWAYS, index: r, to: before_table });
        let before = if self.findings.slip == Slip::CaseFromZero { 0 } else { 4 };
        self.points[before_table] = self.length - before;
        let entries: Vec<Point> = case.statements.iter().map(|_| self.new_point()).collect();
        entries.iter().for_each(|&entry| self.branch(ALWAYS, entry));
        for (statement, entry) in case.statements.iter().zip(entries) {
            self.set(entry);
            self.statement(statement);
            self.branch(ALWAYS, end);
        }
        self.set(end);
    }

    /// "IF and WHILE branch on false, past the true part (and its always-branch) or past the loop. With ELSE, the true
    /// part is followed by an always-branch past the other statement".
    fn if_statement(&mut self, condition: &Condition, then: &Statement, otherwise: Option<&Statement>) {
        let past_true = self.new_point();
        self.condition(condition, past_true);
        self.statement(then);
        match otherwise {
            None => self.set(past_true),
            Some(otherwise) => {
                let past_other = self.new_point();
                self.branch(ALWAYS, past_other);
                self.set(past_true);
                self.statement(otherwise);
                self.set(past_other);
            }
        }
    }

    /// "a WHILE body by one to the first instruction of the condition"
    fn while_statement(&mut self, condition: &Condition, body: &Statement) {
        let again = self.here();
        let past = self.new_point();
        self.condition(condition, past);
        self.statement(body);
        self.branch(ALWAYS, again);
        self.set(past);
    }

    /// "FOR: assignment; compare with limit; exit branch, mask 2, or 4 if the step is negative; statement; 5A of the
    /// step; branch to the compare."
    fn for_statement(&mut self, assignment: &Assignment, step: TokenNo, limit: &Operand, body: &Statement) {
        let control = self.register_of(assignment.target.name);
        self.assignment(assignment);
        let again = self.here();
        let past = self.new_point();
        self.operate(COMPARE, control, self.source(limit));
        let negative = self.findings.tokens[step].signed() < 0;
        self.branch(if negative { 4 } else { 2 }, past);
        self.statement(body);
        let address = Address::Literal(self.value(step));
        self.add(Instruction::Storage { opcode: ADD.integer, r: control, index: 0, address });
        self.branch(ALWAYS, again);
        self.set(past);
    }

    fn condition(&mut self, condition: &Condition, when_false: Point) {
        let relation = match condition {
            Condition::State(relation) => relation,
            Condition::Comparison { register, relation, operand } => {
                let register = self.register_of(*register);
                self.operate(COMPARE, register, self.source(operand));
                relation
            }
        };
        self.branch(false_mask(self.kind(*relation), self.findings.slip), when_false);
    }

    fn assignment(&mut self, assignment: &Assignment) {
        let target = &assignment.target;
        match self.designated(target) {
            Source::Register(r) => {
                self.first(r, &assignment.sign, self.source(&assignment.first));
                for link in &assignment.chain {
                    self.link(r, link);
                }
            }
            Source::Storage { of, index, address } => {
                if let Source::Register(r) = self.source(&assignment.first) {
                    self.add(Instruction::Storage { opcode: for_storage(STORE, of), r, index, address });
                }
            }
        }
    }

    /// "ABS 10, NEG 13, NEG ABS 11; a cell or number is loaded first, then the instruction names the target twice."
    fn first(&mut self, r: u8, sign: &Option<Sign>, source: Source) {
        match (sign, source) {
            (None, _) => self.operate(LOAD, r, source),
            (Some(sign), Source::Register(s)) => self.registers(sign_opcode(sign.kind), r, s),
            (Some(sign), Source::Storage { .. }) => {
                self.operate(LOAD, r, source);
                self.registers(sign_opcode(sign.kind), r, r);
            }
        }
    }

    fn link(&mut self, r: u8, link: &Link) {
        let operator = self.kind(link.operator);
        if let Some(opcode) = shift_opcode(operator) {
            return self.shift(opcode, r, &link.operand);
        }
        let source = self.source(&link.operand);
        // "1C and 5C name the register below the target."
        let by_short = matches!(source, Source::Storage { of: Type::Short, .. });
        let named = if operator == Kind::Times && !by_short { r - 1 } else { r };
        self.operate(operator_opcodes(operator), named, source);
    }

    fn shift(&mut self, opcode: u8, r: u8, operand: &Operand) {
        match operand {
            Operand::Number(number) => {
                let amount = self.value(*number) as u8;
                self.add(Instruction::ShiftByNumber { opcode, r, amount });
            }
            Operand::Designator(designator) => {
                let s = self.register_of(designator.name);
                self.add(Instruction::ShiftByRegister { opcode, r, s });
            }
        }
    }

    fn operate(&mut self, opcodes: Opcodes, r: u8, source: Source) {
        match source {
            Source::Register(s) => self.registers(opcodes.register, r, s),
            Source::Storage { of, index, address } => {
                self.add(Instruction::Storage { opcode: for_storage(opcodes, of), r, index, address });
            }
        }
    }

    fn source(&self, operand: &Operand) -> Source {
        match operand {
            Operand::Number(number) => {
                Source::Storage { of: Type::Integer, index: 0, address: Address::Literal(self.value(*number)) }
            }
            Operand::Designator(designator) => self.designated(designator),
        }
    }

    /// "An array name alone is its first element."
    fn designated(&self, designator: &Designator) -> Source {
        let index = designator.index.map_or(0, |index| self.register_of(index));
        let subscript = designator.subscript.map_or(0, |subscript| self.value(subscript) as usize);
        match (self.meaning(designator.name), self.findings.found[designator.name]) {
            (Meaning::Register(register), _) => Source::Register(register),
            (Meaning::Cell { of, .. }, Found::Declared(token)) => {
                let cell = self.findings.layout.cells[token].expect("every cell has a place");
                let place = Place { segment: cell.segment, offset: cell.offset + subscript };
                Source::Storage { of, index, address: Address::Cell(place) }
            }
            (other, _) => unreachable!("{other:?} where a register or cell was judged to be"),
        }
    }
}

fn instruction_length(instruction: Instruction) -> usize {
    match instruction {
        Instruction::Registers { .. } => 2,
        _ => 4,
    }
}

/// "Each distinct 32-bit value that an instruction takes from storage as a number is one 4-byte literal, in the order
/// in which the code first needs it".
pub fn literals(instructions: &[Instruction]) -> Vec<u32> {
    let mut seen = std::collections::HashSet::new();
    let mut in_order = Vec::new();
    for instruction in instructions {
        if let Instruction::Storage { address: Address::Literal(value), .. } = instruction {
            if seen.insert(*value) {
                in_order.push(*value);
            }
        }
    }
    in_order
}

/// The bytes of a program of at most 4,096 bytes whose literals lie from offset `first_literal` of segment 1 on.
pub fn program_bytes(code: &Code, literals: &[u32], first_literal: usize) -> Vec<u8> {
    let offsets: HashMap<u32, usize> =
        literals.iter().enumerate().map(|(position, &value)| (value, first_literal + 4 * position)).collect();
    let placed = |address| match address {
        Address::Cell(place) => place,
        Address::Literal(value) => Place { segment: FIRST_DATA, offset: offsets[&value] },
        Address::Table(segment) => Place { segment: FIRST_DATA, offset: 4 * segment },
    };
    let mut bytes = Vec::with_capacity(code.length);
    for instruction in &code.instructions {
        match *instruction {
            Instruction::Registers { opcode, r, s } => bytes.extend([opcode, r * 16 + s]),
            Instruction::Storage { opcode, r, index, address } => {
                let place = placed(address);
                bytes.extend(four_bytes(opcode, r, index, code.bases[place.segment], place.offset));
            }
            Instruction::Immediate { opcode, number, address } => {
                let place = placed(address);
                bytes.extend(four_bytes(opcode, number / 16, number % 16, code.bases[place.segment], place.offset));
            }
            Instruction::ShiftByNumber { opcode, r, amount } => bytes.extend([opcode, r * 16, 0, amount]),
            Instruction::ShiftByRegister { opcode, r, s } => bytes.extend([opcode, r * 16, s * 16, 0]),
            Instruction::Branch { opcode, field, index, to } => {
                bytes.extend(four_bytes(opcode, field, index, PROGRAM_BASE, code.points[to]));
            }
        }
    }
    bytes
}

fn four_bytes(opcode: u8, r: u8, index: u8, base: u8, displacement: usize) -> [u8; 4] {
    [opcode, r * 16 + index, base * 16 + (displacement / 256) as u8, (displacement % 256) as u8]
}
