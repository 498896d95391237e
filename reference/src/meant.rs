//! What a text means, instruction by instruction, for the watcher of runs: where each instruction stands, what it names,
//! which registers it may write and where control goes from it. Read off the tree by document 01's "Code", with neither
//! opcodes nor masks nor displacements.

use crate::functions::{Cell, Function, Takes};
use crate::grammar::*;
use crate::kinds::{meaning, meanings, only, Meaning, RegisterSet};
use crate::labels::labels;
use crate::layout::{layout, next_multiple, Layout, Place, FIRST_DATA, TABLE_LENGTH};
use crate::names::{names, Found};
use crate::slips::Slip;
use crate::token::{tokens, Kind, Token};
use crate::violations::Violations;
use std::collections::{HashMap, HashSet};
use std::ops::Range;

/// A set of condition codes.
pub type Codes = &'static [u64];

/// What an operand in storage is by the text.
#[derive(Clone, Copy, PartialEq, Eq, Debug)]
pub enum Named {
    /// A cell, or the element of an array.
    Cell(Place),
    /// A number, which is one of the literals.
    Number(u32),
    /// The table's entry of a segment.
    Entry(usize),
}

#[derive(Clone, Copy, PartialEq, Eq, Debug)]
pub struct InStorage {
    pub named: Named,
    /// In bytes: 4, 2 for a short cell, 1 under a function, whatever its cell is.
    pub size: usize,
    /// What is named is only where an index register counts from.
    pub indexed: bool,
    pub stored: bool,
    /// The instruction has a number in place of register and index.
    pub immediate: bool,
}

#[derive(Clone, Copy, PartialEq, Eq, Debug)]
pub enum Does {
    OnRegisters,
    WithOperand(InStorage),
    /// Puts the address of what is named into this register and touches no storage.
    Address {
        operand: InStorage,
        register: u8,
    },
    /// Goes to a point (None where the text names no label there is) unless the condition code is one of these.
    Branch {
        unless: Codes,
        to: Option<usize>,
    },
    /// Goes to a point where what the case register holds is above the count of the statements, or where it is below 1.
    PassesOver {
        register: u8,
        above: Option<u32>,
        to: usize,
    },
    /// Multiplies the case register, whose number is that of one of so many statements, by 4.
    Chooses {
        register: u8,
        count: u32,
    },
    /// Goes to the entry of the branch table, which begins at this point, for the statement that was chosen.
    EntersTable(usize),
    /// Calls the procedure of this number.
    Call(usize),
    /// Returns from the procedure of this number.
    Return(usize),
    End,
}

#[derive(Clone, Copy, Debug)]
pub struct Written {
    /// Where it begins in the program.
    pub offset: usize,
    pub length: usize,
    pub does: Does,
    /// All registers that it may write.
    pub writes: RegisterSet,
}

#[derive(Clone, Copy, Debug)]
pub struct Body {
    /// Where it begins in the program.
    pub offset: usize,
    pub register: u8,
}

/// A data segment: its length, and the cells, which alone are writable.
#[derive(Clone, PartialEq, Eq, Debug)]
pub struct Extent {
    pub length: usize,
    pub cells: Range<usize>,
}

pub struct Meant {
    pub written: Vec<Written>,
    /// The number of the instruction that begins at each offset.
    pub at: HashMap<usize, usize>,
    /// The offset of each point that is branched to.
    pub points: Vec<usize>,
    pub procedures: Vec<Body>,
    /// Segments 1 and further.
    pub data: Vec<Extent>,
    /// Where the literals lie in segment 1.
    pub literals: Range<usize>,
}

impl Meant {
    /// The instruction that begins at an offset.
    pub fn instruction(&self, offset: usize) -> Option<&Written> {
        self.at.get(&offset).map(|&number| &self.written[number])
    }

    /// The program's length.
    pub fn length(&self) -> usize {
        self.written.last().map_or(0, |last| last.offset + last.length)
    }
}

/// What an accepted text means; None if it is no program.
pub fn meant(text: &[u8]) -> Option<Meant> {
    let tokens = &tokens(text).ok()?;
    let program = &program(tokens).ok()?;
    let mut ignored = Violations::new(tokens);
    let found = &names(program, tokens, &mut ignored);
    let labels = &labels(program, tokens, Slip::None, &mut ignored);
    let layout = &layout(program, tokens, &mut ignored);
    let meanings = &meanings(program, tokens, found, Slip::None, &mut ignored);
    let mut reader = Reader {
        tokens,
        found,
        labels,
        layout,
        meanings,
        offset: 0,
        written: Vec::new(),
        points: Vec::new(),
        of_labels: HashMap::new(),
        of_names: HashMap::new(),
        procedures: Vec::new(),
    };
    reader.block(program);
    reader.add(2, Does::End, 0);
    let Reader { written, points, procedures, .. } = reader;
    let at = written.iter().enumerate().map(|(number, one)| (one.offset, number)).collect();
    let literals = literals(&written, layout);
    let data = extents(layout, &literals);
    Some(Meant { written, at, points, procedures, data, literals })
}

/// "Each distinct 32-bit value that an instruction takes from storage as a number is one 4-byte literal, ... from the
/// next multiple of 4 after segment 1's cells."
fn literals(written: &[Written], layout: &Layout) -> Range<usize> {
    let numbers: HashSet<u32> = written.iter().filter_map(|one| number(one.does)).collect();
    let from = next_multiple(layout.ends[FIRST_DATA], 4);
    from..from + 4 * numbers.len()
}

fn number(does: Does) -> Option<u32> {
    match does {
        Does::WithOperand(InStorage { named: Named::Number(value), .. }) => Some(value),
        _ => None,
    }
}

/// "Segment 1 ends with its last literal; with none, with its last cell, or at 16. Segments 2 and 3 end with their last
/// cell, or at 0."
fn extents(layout: &Layout, literals: &Range<usize>) -> Vec<Extent> {
    let extent = |segment: usize| {
        let (from, end) = (if segment == FIRST_DATA { TABLE_LENGTH } else { 0 }, layout.ends[segment]);
        let length = if segment == FIRST_DATA && !literals.is_empty() { literals.end } else { end };
        Extent { length, cells: from..end }
    };
    (FIRST_DATA..=layout.last).map(extent).collect()
}

/// The codes in which a relation holds: 0 equal, 1 less, 2 greater; in state 3 only OVERFLOW does.
fn holds_in(relation: Kind) -> Codes {
    match relation {
        Kind::Equal => &[0],
        Kind::NotEqual => &[1, 2],
        Kind::Less => &[1],
        Kind::LessEqual => &[0, 1],
        Kind::GreaterEqual => &[0, 2],
        Kind::Greater => &[2],
        _ => &[3],
    }
}

struct Reader<'a> {
    tokens: &'a [Token],
    found: &'a [Found],
    labels: &'a [Option<TokenNo>],
    layout: &'a Layout,
    meanings: &'a [Meaning],
    offset: usize,
    written: Vec<Written>,
    points: Vec<usize>,
    /// The points of labels, by the token that sets them.
    of_labels: HashMap<TokenNo, usize>,
    /// The procedures, by the token that declares them.
    of_names: HashMap<TokenNo, usize>,
    procedures: Vec<Body>,
}

impl Reader<'_> {
    fn add(&mut self, length: usize, does: Does, writes: RegisterSet) {
        self.written.push(Written { offset: self.offset, length, does, writes });
        self.offset += length;
    }

    fn point(&mut self) -> usize {
        self.points.push(self.offset);
        self.points.len() - 1
    }

    fn set(&mut self, point: usize) {
        self.points[point] = self.offset;
    }

    fn go(&mut self, point: usize) {
        self.add(4, Does::Branch { unless: &[], to: Some(point) }, 0);
    }

    fn label(&mut self, token: TokenNo) -> usize {
        if let Some(&point) = self.of_labels.get(&token) {
            return point;
        }
        let point = self.point();
        self.of_labels.insert(token, point);
        point
    }

    fn meaning(&self, name: TokenNo) -> Meaning {
        meaning(self.found, self.meanings, name)
    }

    fn register(&self, name: TokenNo) -> u8 {
        match self.meaning(name) {
            Meaning::Register(register) => register,
            _ => 0,
        }
    }

    fn block(&mut self, block: &Block) {
        for declaration in &block.declarations {
            match declaration {
                Declaration::Registers(_) | Declaration::Cells(_) => {}
                Declaration::Base(name) => self.base(*name),
                Declaration::Procedure(procedure) => self.procedure(procedure),
            }
        }
        for item in &block.items {
            match item {
                Item::Statement(statement) => self.statement(statement),
                Item::Label(token) => {
                    let point = self.label(*token);
                    self.set(point);
                }
            }
        }
    }

    /// "Base declaration for segment k: `58 r0 E0`, 4k."
    fn base(&mut self, name: TokenNo) {
        let segment = self.layout.bases[name].unwrap_or(FIRST_DATA);
        let entry = whole(Named::Entry(segment));
        self.add(4, Does::WithOperand(entry), only(self.register(name)));
    }

    /// "Procedure: branch around, body, `07 Fr`."
    fn procedure(&mut self, procedure: &Procedure) {
        let around = self.point();
        self.go(around);
        let number = self.procedures.len();
        self.procedures.push(Body { offset: self.offset, register: self.register(procedure.register) });
        self.of_names.insert(procedure.name, number);
        self.statement(&procedure.body);
        self.add(2, Does::Return(number), 0);
        self.set(around);
    }

    fn statement(&mut self, statement: &Statement) {
        match statement {
            Statement::Assignment(assignment) => self.assignment(assignment),
            Statement::Use(used) => match self.meaning(used.name) {
                Meaning::Function(function) => self.function(function, &used.arguments),
                _ => self.call(used.name),
            },
            Statement::Block(block) => self.block(block),
            Statement::Goto(name) => {
                let to = self.labels[*name].map(|label| self.label(label));
                self.add(4, Does::Branch { unless: &[], to }, 0);
            }
            Statement::Null => {}
            Statement::Case(case) => self.case(case),
            Statement::If { condition, then, otherwise, .. } => {
                let on_false = self.condition(condition);
                self.statement(then);
                if let Some(otherwise) = otherwise {
                    let past = self.point();
                    self.go(past);
                    self.set(on_false);
                    self.statement(otherwise);
                    self.set(past);
                } else {
                    self.set(on_false);
                }
            }
            Statement::While { condition, body, .. } => {
                let again = self.point();
                let past = self.condition(condition);
                self.statement(body);
                self.go(again);
                self.set(past);
            }
            Statement::For { assignment, step, limit, body, .. } => self.for_statement(assignment, *step, limit, body),
        }
    }

    /// "compare with the count as a literal, branch mask 2 to the end; LTR, branch mask 12 to the end; SHLL by 2; `47 Fr` ...; the
    /// table, one always-branch each; the statements, each followed by an always-branch to the end." None but the shift writes the
    /// register, and where control goes is told by what the register holds: "Numbering starts at 1. Any other value executes nothing".
    fn case(&mut self, case: &Case) {
        let register = self.register(case.register);
        let count = case.statements.len() as u32;
        let end = self.point();
        self.add(4, Does::WithOperand(whole(Named::Number(count))), 0);
        self.add(4, Does::PassesOver { register, above: Some(count), to: end }, 0);
        self.add(2, Does::OnRegisters, 0);
        self.add(4, Does::PassesOver { register, above: None, to: end }, 0);
        self.add(4, Does::Chooses { register, count }, only(register));
        let table = self.point();
        self.add(4, Does::EntersTable(table), 0);
        self.set(table);
        let entries: Vec<usize> = case.statements.iter().map(|_| self.point()).collect();
        entries.iter().for_each(|&entry| self.go(entry));
        for (statement, entry) in case.statements.iter().zip(entries) {
            self.set(entry);
            self.statement(statement);
            self.go(end);
        }
        self.set(end);
    }

    /// "Call: `45 r0` to the body."
    fn call(&mut self, name: TokenNo) {
        if let Found::Declared(token) = self.found[name] {
            if let Some(&procedure) = self.of_names.get(&token) {
                self.add(4, Does::Call(procedure), only(self.procedures[procedure].register));
            }
        }
    }

    /// "FOR: assignment; compare with limit; exit branch, mask 2, or 4 if the step is negative; statement; 5A of the
    /// step; branch to the compare."
    fn for_statement(&mut self, assignment: &Assignment, step: TokenNo, limit: &Operand, body: &Statement) {
        self.assignment(assignment);
        let again = self.point();
        self.operand(limit, 0);
        let unless: Codes = if self.tokens[step].signed() < 0 { &[0, 2, 3] } else { &[0, 1, 3] };
        let past = self.point();
        self.add(4, Does::Branch { unless, to: Some(past) }, 0);
        self.statement(body);
        self.number(step, only(self.register(assignment.target.name)));
        self.go(again);
        self.set(past);
    }

    /// A compare, if there is one, and the branch on false, whose point is still to be set.
    fn condition(&mut self, condition: &Condition) -> usize {
        let relation = match condition {
            Condition::State(relation) => *relation,
            Condition::Comparison { relation, operand, .. } => {
                self.operand(operand, 0);
                *relation
            }
        };
        let on_false = self.point();
        let unless = holds_in(self.tokens[relation].kind);
        self.add(4, Does::Branch { unless, to: Some(on_false) }, 0);
        on_false
    }

    fn assignment(&mut self, assignment: &Assignment) {
        let target = match self.meaning(assignment.target.name) {
            Meaning::Register(target) => target,
            _ => return self.designator(&assignment.target, true, 0),
        };
        let writes = only(target);
        // "a cell or number is loaded first, then the instruction names the target twice"
        self.operand(&assignment.first, writes);
        if assignment.sign.is_some() && self.in_storage(&assignment.first) {
            self.add(2, Does::OnRegisters, writes);
        }
        for link in &assignment.chain {
            match self.tokens[link.operator].kind {
                Kind::Shll | Kind::Shrl | Kind::Shla | Kind::Shra => self.add(4, Does::OnRegisters, writes),
                Kind::Times if !self.is_short(&link.operand) => {
                    self.operand(&link.operand, writes | only(target.max(1) - 1));
                }
                _ => self.operand(&link.operand, writes),
            }
        }
    }

    fn is_short(&self, operand: &Operand) -> bool {
        match operand {
            Operand::Number(_) => false,
            Operand::Designator(designator) => {
                matches!(self.meaning(designator.name), Meaning::Cell { of: Type::Short, .. })
            }
        }
    }

    fn in_storage(&self, operand: &Operand) -> bool {
        match operand {
            Operand::Number(_) => true,
            Operand::Designator(designator) => matches!(self.meaning(designator.name), Meaning::Cell { .. }),
        }
    }

    /// One instruction that takes the operand.
    fn operand(&mut self, operand: &Operand, writes: RegisterSet) {
        match operand {
            Operand::Number(number) => self.number(*number, writes),
            Operand::Designator(designator) => self.designator(designator, false, writes),
        }
    }

    fn number(&mut self, number: TokenNo, writes: RegisterSet) {
        let named = Named::Number(self.tokens[number].value);
        self.add(4, Does::WithOperand(whole(named)), writes);
    }

    fn designator(&mut self, designator: &Designator, stored: bool, writes: RegisterSet) {
        match self.cell(designator) {
            Some(operand) => self.add(4, Does::WithOperand(InStorage { stored, ..operand }), writes),
            None => self.add(2, Does::OnRegisters, writes),
        }
    }

    /// "A subscript is a byte offset"; "An array name alone is its first element."
    fn cell(&self, designator: &Designator) -> Option<InStorage> {
        match (self.meaning(designator.name), self.found[designator.name]) {
            (Meaning::Cell { of, .. }, Found::Declared(token)) => {
                let Place { segment, offset } = self.layout.cells[token].expect("every cell has a place");
                let subscript = designator.subscript.map_or(0, |subscript| self.tokens[subscript].value as usize);
                let named = Named::Cell(Place { segment, offset: offset + subscript });
                Some(InStorage { size: of.size(), indexed: designator.index.is_some(), ..whole(named) })
            }
            _ => None,
        }
    }

    /// "IC, STC and LA take a register, then a cell that may be indexed; LTR takes two registers; IC, LA and LTR write the
    /// first", the others take a number or have one, then a cell. Of the cell they mean the first byte.
    fn function(&mut self, function: Function, arguments: &[Operand]) {
        let register = match arguments.first() {
            Some(Operand::Designator(designator)) => self.register(designator.name),
            _ => 0,
        };
        let writes = if function.writes_first { only(register) } else { 0 };
        let cell = match arguments.last() {
            Some(Operand::Designator(designator)) => self.cell(designator),
            _ => None,
        };
        let operand = match cell {
            Some(cell) => InStorage { size: 1, ..cell },
            None => return self.add(2, Does::OnRegisters, writes),
        };
        let stored = function.cell == Cell::Stored;
        let immediate = !matches!(function.takes, Takes::RegisterAndCell);
        let does = match function.cell {
            Cell::Named => Does::Address { operand, register },
            _ => Does::WithOperand(InStorage { stored, immediate, ..operand }),
        };
        self.add(4, does, writes);
    }
}

/// A word that is read, not indexed.
fn whole(named: Named) -> InStorage {
    InStorage { named, size: 4, indexed: false, stored: false, immediate: false }
}
