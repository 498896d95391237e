//! Programs that are right by construction, as lists of tokens: while it writes, the builder keeps account of the names
//! and labels in force, of protected and written registers, of room and of the code's length. A builder that is made
//! careless breaks a rule now and then.

use crate::functions::{Function, Takes, FUNCTIONS};
use crate::grammar::Type;
use crate::kinds::{only, RegisterSet, DATA_BASE, PROGRAM_BASE};
use crate::layout::next_multiple;
use crate::random::Random;
use crate::spell::{any_value, number};
use std::collections::HashSet;

/// Names to be declared.
const POOL: [&str; 53] = [
    "A",
    "B",
    "C",
    "D",
    "I",
    "J",
    "K",
    "N",
    "P",
    "Q",
    "S",
    "T",
    "X",
    "Y",
    "Z",
    "AA",
    "A1",
    "R1",
    "R2",
    "R5",
    "R7",
    "R9",
    "RA",
    "RC",
    "RD",
    "RE",
    "R10",
    "RG",
    "F0",
    "COUNT",
    "TOTAL",
    "REAL",
    "CASES",
    "OFF",
    "COMMENTS",
    "BEGINS",
    "ENDS",
    "IFS",
    "ABCDEFGHI",
    "ABCDEFGHIJ",
    "ABCDEFGHIJK",
    "ABCDEFGHIJL",
    "LONGESTNAME",
    "LONGESTNAMES",
    "B2",
    "IC",
    "LA",
    "SET",
    "TEST",
    "LTR",
    "MVC",
    "BYTES",
    "CHARACTERS",
];

const LABEL_POOL: [&str; 10] = ["L", "M", "N", "L1", "A", "R1", "LOOPSTARTS", "LOOPSTARTSX", "OUT", "P"];

/// No CASE is begun behind so many bytes of code, so that a program stays in its segment.
const CASE_ROOM: usize = 2500;

#[derive(Clone, Copy, PartialEq)]
pub enum Thing {
    Register(u8),
    Cell { of: Type, count: Option<usize> },
    Procedure { register: u8, writes: RegisterSet, open: bool },
    Function(Function),
}

/// A block, or the body of a procedure, which ends the search for labels.
#[derive(Default)]
struct Scope {
    names: Vec<(String, Thing)>,
    labels: Vec<String>,
    protected: RegisterSet,
    segment: usize,
    is_body: bool,
}

/// What a function takes in one of its parentheses.
#[derive(Clone, Copy, PartialEq)]
enum Argument {
    Register,
    Number,
    Cell,
}

/// What an operand is for the code table.
#[derive(Clone, Copy, PartialEq)]
enum Sort {
    Register(u8),
    Integer,
    Short,
}

pub struct Builder<'a> {
    pub random: &'a mut Random,
    pub tokens: Vec<String>,
    scopes: Vec<Scope>,
    /// What each open procedure body, and at the bottom the program, has written.
    written: Vec<RegisterSet>,
    /// The bytes of code so far.
    pub length: usize,
    pub ends: [usize; 4],
    last_segment: usize,
    pub literals: HashSet<u32>,
    /// Statements that may still be written.
    statements: usize,
    nesting: usize,
    /// In how many of 100 simple statements a CASE is written.
    cases: usize,
    /// In how many of 1,000 choices a rule is left aside.
    careless: usize,
}

/// The words that a type is declared by; INTEGER has LOGICAL beside it.
pub fn type_words(of: Type) -> &'static str {
    match of {
        Type::Integer => "INTEGER",
        Type::Short => "SHORT INTEGER",
        Type::Byte => "BYTE",
        Type::Character => "CHARACTER",
    }
}

/// The first 10 characters.
fn counted(name: &str) -> &str {
    &name[..name.len().min(10)]
}

impl<'a> Builder<'a> {
    pub fn new(random: &'a mut Random, statements: usize, careless: usize) -> Self {
        Builder {
            random,
            tokens: Vec::new(),
            scopes: Vec::new(),
            written: vec![0],
            length: 2,
            ends: [0, 16, 0, 0],
            last_segment: 1,
            literals: HashSet::new(),
            statements,
            nesting: 0,
            cases: 8,
            careless,
        }
    }

    /// The same with more of CASE.
    pub fn with_cases(self, cases: usize) -> Self {
        Builder { cases, ..self }
    }

    /// A whole program; `extra` may write further statements at its end.
    pub fn program(&mut self, extra: impl FnOnce(&mut Self)) {
        self.open_block();
        self.declarations();
        self.items();
        extra(self);
        self.close_block();
        self.put("@");
    }

    pub fn put(&mut self, token: &str) {
        self.tokens.push(token.to_string());
    }

    fn put_all(&mut self, tokens: &str) {
        tokens.split_ascii_whitespace().for_each(|token| self.put(token));
    }

    fn slips(&mut self) -> bool {
        let careless = self.careless;
        self.random.chance(careless, 1000)
    }

    // Blocks

    fn open_block(&mut self) {
        let segment = self.scopes.last().map_or(1, |scope| scope.segment);
        self.scopes.push(Scope { segment, ..Scope::default() });
        self.nesting += 1;
        self.put("BEGIN");
    }

    fn close_block(&mut self) {
        self.put("END");
        self.scopes.pop();
        self.nesting -= 1;
    }

    fn block(&mut self) {
        self.open_block();
        if self.random.chance(2, 3) {
            self.declarations();
        }
        self.items();
        self.close_block();
    }

    fn here(&mut self) -> &mut Scope {
        self.scopes.last_mut().expect("a block is open")
    }

    /// Statements with the labels that the block announces from its start on.
    fn items(&mut self) {
        let labels = if self.random.chance(1, 3) { self.random.range(1, 3) } else { 0 };
        for _ in 0..labels {
            let label = self.random.of(&LABEL_POOL).to_string();
            let slip = self.slips();
            if slip || self.here().labels.iter().all(|other| counted(other) != counted(&label)) {
                self.here().labels.push(label);
            }
        }
        let mut places: Vec<Option<String>> = self.here().labels.iter().cloned().map(Some).collect();
        let most = self.statements.min(8);
        places.extend((0..self.random.range(0, most)).map(|_| None));
        self.random.shuffle(&mut places);
        for place in places {
            match place {
                Some(label) => {
                    self.put(&label);
                    self.put(":");
                }
                None => {
                    self.statement();
                    self.put(";");
                }
            }
        }
    }

    // Declarations

    fn declarations(&mut self) {
        for _ in 0..self.random.below(5) {
            match self.random.below(20) {
                0..=2 => self.registers(),
                3..=13 => self.cells(),
                14..=18 => self.procedure(),
                _ => self.base(),
            }
        }
    }

    /// A name that the block does not declare yet.
    fn new_name(&mut self) -> String {
        loop {
            let name = match self.random.below(8) {
                0 => format!("V{}", self.random.below(1000)),
                _ => self.random.of(&POOL).to_string(),
            };
            let slip = self.slips();
            if slip || self.here().names.iter().all(|(other, _)| counted(other) != counted(&name)) {
                return name;
            }
        }
    }

    fn declare(&mut self, name: String, thing: Thing) {
        self.put(&name);
        self.here().names.push((name, thing));
    }

    fn registers(&mut self) {
        let word = *self.random.of(&["INTEGER", "LOGICAL"]);
        self.put(word);
        self.put("REGISTER");
        for item in 0..self.random.range(1, 3) {
            if item > 0 {
                self.put(",");
            }
            let name = self.new_name();
            let register = self.random.below(16);
            self.declare(name, Thing::Register(register as u8));
            let value = if self.slips() { any_value(self.random) } else { register as u32 };
            self.in_parentheses(value);
        }
        self.put(";");
    }

    fn in_parentheses(&mut self, value: u32) {
        self.put("(");
        let token = number(self.random, value);
        self.put(&token);
        self.put(")");
    }

    fn cells(&mut self) {
        let count = if self.random.chance(1, 2) { Some(self.array_count()) } else { None };
        let of = self.cell_type();
        let segment = self.here().segment;
        let size = of.size();
        let items = self.random.range(1, 3);
        let needed = items * (size * count.unwrap_or(1) + 3);
        if self.ends[segment] + needed > 3000 && !self.slips() {
            return;
        }
        if let Some(count) = count {
            self.put("ARRAY");
            let value = if self.slips() { any_value(self.random) } else { count as u32 };
            self.in_parentheses(value);
        }
        let words = if of == Type::Integer { *self.random.of(&["INTEGER", "LOGICAL"]) } else { type_words(of) };
        self.put_all(words);
        for item in 0..items {
            if item > 0 {
                self.put(",");
            }
            let name = self.new_name();
            self.declare(name, Thing::Cell { of, count });
            let offset = next_multiple(self.ends[segment], size);
            self.ends[segment] = offset + size * count.unwrap_or(1);
            self.values(of, count.unwrap_or(1));
        }
        self.put(";");
    }

    fn cell_type(&mut self) -> Type {
        if self.random.chance(2, 5) {
            return *self.random.of(&[Type::Byte, Type::Character]);
        }
        if self.random.chance(1, 2) {
            Type::Short
        } else {
            Type::Integer
        }
    }

    fn array_count(&mut self) -> usize {
        if self.slips() {
            return *self.random.of(&[1020, 1021, 1024, 1025, 2040, 2041, 2048]);
        }
        match self.random.below(12) {
            0 => self.random.range(1, 300),
            1..=3 => self.random.range(1, 40),
            _ => self.random.range(1, 6),
        }
    }

    fn values(&mut self, of: Type, count: usize) {
        let most = count.min(5) + usize::from(self.slips());
        let values = if self.random.chance(1, 2) { self.random.range(0, most) } else { 0 };
        for _ in 0..values {
            let value = match of {
                Type::Short if !self.slips() => (self.random.below(98304) as u32).wrapping_sub(32768),
                Type::Byte | Type::Character if !self.slips() => self.random.below(256) as u32,
                _ => any_value(self.random),
            };
            self.in_parentheses(value);
        }
    }

    fn procedure(&mut self) {
        if self.nesting >= 60 {
            return;
        }
        self.put("PROCEDURE");
        let name = self.new_name();
        self.put(&name);
        self.put("(");
        // The name is in force from its token on, so it may not be the register's.
        let placeholder = Thing::Procedure { register: 0, writes: 0, open: true };
        self.here().names.push((name, placeholder));
        let declared = self.here().names.len() - 1;
        let (spelled, register) = self.register(|register, _| register != 0);
        self.put(&spelled);
        self.put(")");
        self.put(";");
        self.here().names[declared].1 = Thing::Procedure { register, writes: only(register), open: true };
        let segment = self.here().segment;
        let protected = only(register);
        self.scopes.push(Scope { protected, segment, is_body: true, ..Scope::default() });
        self.written.push(0);
        self.nesting += 1;
        self.length += 4;
        self.statement();
        self.length += 2;
        self.nesting -= 1;
        self.scopes.pop();
        let writes = self.written.pop().unwrap_or(0);
        self.write(writes);
        self.here().names[declared].1 = Thing::Procedure { register, writes: writes | only(register), open: false };
        self.put(";");
    }

    fn base(&mut self) {
        if self.last_segment == 3 && !self.slips() {
            return;
        }
        self.put_all("SEGMENT BASE");
        let (name, register) = self.register(|register, protected| register != 0 && protected & only(register) == 0);
        self.put(&name);
        self.put(";");
        self.write(only(register));
        self.last_segment = (self.last_segment + 1).min(3);
        let segment = self.last_segment;
        self.here().segment = segment;
        self.here().protected |= only(register);
        self.length += 4;
    }

    // What is in force

    fn protected(&self) -> RegisterSet {
        self.scopes.iter().fold(only(DATA_BASE) | only(PROGRAM_BASE), |set, scope| set | scope.protected)
    }

    fn write(&mut self, registers: RegisterSet) {
        if let Some(written) = self.written.last_mut() {
            *written |= registers;
        }
    }

    /// All names in force, with what they stand for.
    fn in_force(&self) -> Vec<(String, Thing)> {
        let mut seen: HashSet<&str> = HashSet::new();
        let mut names = Vec::new();
        for scope in self.scopes.iter().rev() {
            for (name, thing) in scope.names.iter().rev() {
                if seen.insert(counted(name)) {
                    names.push((name.clone(), *thing));
                }
            }
        }
        for (register, digit) in "0123456789ABCDEF".chars().enumerate() {
            let name = format!("R{digit}");
            if !seen.contains(name.as_str()) {
                names.push((name, Thing::Register(register as u8)));
            }
        }
        let standard = FUNCTIONS.iter().filter(|function| !seen.contains(function.name));
        names.extend(standard.map(|function| (function.name.to_string(), Thing::Function(*function))));
        names
    }

    /// A name as it may be written: what comes after 10 characters does not count.
    fn spelled(&mut self, name: &str) -> String {
        if name.len() >= 10 && self.random.chance(1, 2) {
            return format!("{}{}", counted(name), self.random.of(&["", "K", "7", "XYZ"]));
        }
        name.to_string()
    }

    /// A name in force that is wanted, or any name if there is none or a rule is left aside.
    fn name(&mut self, wanted: impl Fn(&Thing) -> bool) -> Option<(String, Thing)> {
        let names = self.in_force();
        if self.slips() {
            let name = match self.random.below(3) {
                0 => self.random.of(&POOL).to_string(),
                _ => self.random.of(&names).0.clone(),
            };
            return Some((name, Thing::Register(self.random.below(16) as u8)));
        }
        let fitting: Vec<_> = names.into_iter().filter(|(_, thing)| wanted(thing)).collect();
        let (name, thing) = self.random.pick(&fitting)?.clone();
        Some((self.spelled(&name), thing))
    }

    /// A register that is wanted, told its number and what is protected.
    fn register(&mut self, wanted: impl Fn(u8, RegisterSet) -> bool) -> (String, u8) {
        let protected = self.protected();
        let fits = |thing: &Thing| matches!(thing, Thing::Register(register) if wanted(*register, protected));
        match self.name(fits) {
            Some((name, Thing::Register(register))) => (name, register),
            _ => ("R3".to_string(), 3),
        }
    }

    // Statements

    /// A statement of few parts with its `;`.
    pub fn small_statement(&mut self) {
        self.statements = 6;
        self.statement();
        self.put(";");
    }

    fn statement(&mut self) {
        self.statements = self.statements.saturating_sub(1);
        if self.nesting >= 62 || self.statements == 0 || self.random.chance(3, 5) {
            return self.simple();
        }
        self.nesting += 1;
        match self.random.below(10) {
            0..=4 => self.if_statement(),
            5..=6 => self.while_statement(),
            _ => self.for_statement(),
        }
        self.nesting -= 1;
    }

    fn simple(&mut self) {
        let cases = self.cases;
        if self.nesting < 60 && self.statements > 0 && self.length < CASE_ROOM && self.random.chance(cases, 100) {
            return self.case();
        }
        if self.random.chance(1, 4) {
            return self.function();
        }
        match self.random.below(20) {
            0..=7 => {
                self.assignment(false);
            }
            8..=11 => self.store(),
            12..=14 => self.call(),
            15..=16 if self.nesting < 62 && self.statements > 0 => self.block(),
            17..=18 => self.goto(),
            _ => self.put("NULL"),
        }
    }

    /// A CASE with its `;`.
    pub fn case_statement(&mut self) {
        self.statements = 4;
        self.case();
        self.put(";");
    }

    /// A CASE, its register mostly set just before, in a block of the two, to a number near the count.
    fn case(&mut self) {
        let count = match self.random.below(40) {
            0 => self.random.range(6, 40),
            1..=4 => 0,
            _ => self.random.range(1, 4),
        };
        let set_before = self.random.chance(2, 3);
        if set_before {
            self.open_block();
        }
        let (name, register) = self.register(|register, protected| register != 0 && protected & only(register) == 0);
        self.write(only(register));
        if set_before {
            let value = match self.random.below(5) {
                0 => count.wrapping_add(self.random.below(4)).wrapping_sub(self.random.below(count + 3)) as u32,
                _ => self.random.range(count.min(1), count) as u32,
            };
            let token = number(self.random, value);
            [&name, ":=", &token, ";"].iter().for_each(|token| self.put(token));
            self.literals.insert(value);
            self.length += 4;
        }
        ["CASE", &name, "OF", "BEGIN"].iter().for_each(|token| self.put(token));
        self.nesting += 1;
        for _ in 0..count {
            if count < 6 {
                self.statement();
            } else {
                self.put("NULL");
            }
            self.put(";");
        }
        self.nesting -= 1;
        self.put("END");
        self.literals.insert(count as u32);
        self.length += 22 + 8 * count;
        if set_before {
            self.put(";");
            self.close_block();
        }
    }

    fn if_statement(&mut self) {
        self.put("IF");
        self.condition();
        self.put("THEN");
        if self.random.chance(1, 2) {
            self.simple();
            self.put("ELSE");
            self.length += 4;
        }
        self.statement();
    }

    fn while_statement(&mut self) {
        self.put("WHILE");
        self.condition();
        self.put("DO");
        self.statement();
        self.length += 4;
    }

    fn for_statement(&mut self) {
        self.put("FOR");
        self.assignment(true);
        self.put("STEP");
        let step = any_value(self.random);
        let token = number(self.random, step);
        self.put(&token);
        self.put("UNTIL");
        self.operand(true);
        self.put("DO");
        self.length += 4;
        self.statement();
        self.literals.insert(step);
        self.length += 8;
    }

    fn condition(&mut self) {
        let relation = *self.random.of(&["=", "^=", "<", "<=", ">=", ">"]);
        self.length += 4;
        match self.random.below(6) {
            0 => self.put("OVERFLOW"),
            1 => self.put(relation),
            _ => {
                let (name, _) = self.register(|_, _| true);
                self.put(&name);
                self.put(relation);
                self.operand(true);
            }
        }
    }

    fn goto(&mut self) {
        let mut labels = Vec::new();
        for scope in self.scopes.iter().rev().take_while(|scope| !scope.is_body) {
            labels.extend(scope.labels.iter().cloned());
        }
        if self.slips() {
            labels = LABEL_POOL.iter().map(|label| label.to_string()).collect();
        }
        let label = match self.random.pick(&labels) {
            Some(label) => label.clone(),
            None => return self.put("NULL"),
        };
        let label = self.spelled(&label);
        self.put("GOTO");
        self.put(&label);
        self.length += 4;
    }

    fn call(&mut self) {
        let protected = self.protected();
        let slip = self.slips();
        let fits = |thing: &Thing| match thing {
            Thing::Procedure { writes, open, .. } => slip || (!open && writes & protected == 0),
            _ => false,
        };
        match self.name(fits) {
            Some((name, thing)) => {
                self.put(&name);
                self.length += 4;
                if let Thing::Procedure { writes, .. } = thing {
                    self.write(writes);
                }
            }
            None => self.put("NULL"),
        }
    }

    /// The use of a function; where no cell is in force, of one that takes none.
    fn function(&mut self) {
        let no_cell = !self.in_force().iter().any(|(_, thing)| matches!(thing, Thing::Cell { .. }));
        let fits = |thing: &Thing| match thing {
            Thing::Function(function) => function.takes == Takes::TwoRegisters || !no_cell,
            _ => false,
        };
        let (name, function) = match self.name(fits) {
            Some((name, Thing::Function(function))) => (name, function),
            Some((name, _)) => (name, *self.random.of(&FUNCTIONS)),
            None => return self.put("NULL"),
        };
        self.put(&name);
        let mut arguments = match function.takes {
            Takes::RegisterAndCell => vec![Argument::Register, Argument::Cell],
            Takes::TwoRegisters => vec![Argument::Register, Argument::Register],
            Takes::NumberAndCell => vec![Argument::Number, Argument::Cell],
            Takes::Cell(_) => vec![Argument::Cell],
        };
        if self.slips() {
            let other = *self.random.of(&[Argument::Register, Argument::Number, Argument::Cell]);
            match self.random.below(3) {
                0 => arguments.push(other),
                1 => arguments[0] = other,
                _ => drop(arguments.pop()),
            }
        }
        let may_be_indexed = function.takes == Takes::RegisterAndCell;
        for (position, argument) in arguments.into_iter().enumerate() {
            self.put("(");
            self.argument(argument, function.writes_first && position == 0, may_be_indexed);
            self.put(")");
        }
        self.length += if function.takes == Takes::TwoRegisters { 2 } else { 4 };
    }

    fn argument(&mut self, argument: Argument, written: bool, may_be_indexed: bool) {
        match argument {
            Argument::Register => {
                let (name, register) = self.register(|register, protected| !written || protected & only(register) == 0);
                if written {
                    self.write(only(register));
                }
                self.put(&name);
            }
            Argument::Number => {
                let value = if self.slips() { any_value(self.random) } else { self.random.below(256) as u32 };
                let token = number(self.random, value);
                self.put(&token);
            }
            Argument::Cell => match self.name(|thing| matches!(thing, Thing::Cell { .. })) {
                Some((name, Thing::Cell { of, count })) => self.designator(&name, of, count, may_be_indexed),
                Some((name, _)) => self.put(&name),
                None => self.put("R1"),
            },
        }
    }

    fn store(&mut self) {
        let bytes_too = self.slips();
        match self.name(|thing| matches!(thing, Thing::Cell { of, .. } if bytes_too || !of.is_byte())) {
            Some((name, Thing::Cell { of, count })) => {
                self.designator(&name, of, count, true);
                self.put(":=");
                let (name, _) = self.register(|_, _| true);
                self.put(&name);
                self.length += 4;
            }
            _ => {
                self.assignment(false);
            }
        }
    }

    /// A register assignment; its sorts decide the length.
    fn assignment(&mut self, of_for: bool) {
        let (name, target) = self.register(|register, protected| protected & only(register) == 0);
        self.write(only(target));
        self.put(&name);
        self.put(":=");
        let sign = if self.random.chance(1, 5) { *self.random.of(&["ABS", "NEG", "NEG ABS"]) } else { "" };
        self.put_all(sign);
        let first = self.operand(true);
        if !sign.is_empty() && !matches!(first, Sort::Register(_)) {
            self.length += 2;
        }
        let links = if of_for { self.random.below(2) } else { self.random.below(4) };
        for _ in 0..links {
            self.link(target);
        }
    }

    fn link(&mut self, target: u8) {
        let below_is_free = target % 2 == 1 && self.protected() & only(target - 1) == 0;
        match self.random.below(12) {
            0..=3 => {
                let operator = *self.random.of(&["+", "-"]);
                self.put(operator);
                self.operand(true);
            }
            4..=5 => {
                let operator = *self.random.of(&["AND", "OR", "XOR", "++", "--"]);
                self.put(operator);
                let short_too = self.slips();
                self.operand(short_too);
            }
            6..=8 => {
                let operator = *self.random.of(&["SHLL", "SHRL", "SHLA", "SHRA"]);
                self.put(operator);
                self.shift_amount();
            }
            _ if below_is_free || self.slips() => {
                self.put("*");
                if self.operand(true) != Sort::Short && target > 0 {
                    self.write(only(target - 1));
                }
            }
            _ => self.product_by_short(),
        }
    }

    fn shift_amount(&mut self) {
        if self.random.chance(1, 2) {
            let amount = if self.slips() { any_value(self.random) } else { self.random.below(64) as u32 };
            let token = number(self.random, amount);
            self.put(&token);
        } else {
            let (name, _) = self.register(|register, _| register != 0);
            self.put(&name);
        }
        self.length += 4;
    }

    fn product_by_short(&mut self) {
        if let Some((name, Thing::Cell { of: Type::Short, count })) =
            self.name(|thing| matches!(thing, Thing::Cell { of: Type::Short, .. }))
        {
            self.put("*");
            self.designator(&name, Type::Short, count, true);
            self.length += 4;
        }
    }

    fn operand(&mut self, short_too: bool) -> Sort {
        let sort = match self.random.below(10) {
            0..=2 => {
                let value = any_value(self.random);
                let token = number(self.random, value);
                self.put(&token);
                self.literals.insert(value);
                Sort::Integer
            }
            3..=5 => {
                let (name, register) = self.register(|_, _| true);
                self.put(&name);
                Sort::Register(register)
            }
            _ => self.cell_operand(short_too),
        };
        self.length += if matches!(sort, Sort::Register(_)) { 2 } else { 4 };
        sort
    }

    fn cell_operand(&mut self, short_too: bool) -> Sort {
        let bytes_too = self.slips();
        let fits = |thing: &Thing| match thing {
            Thing::Cell { of, .. } => (*of == Type::Integer) || (short_too && *of == Type::Short) || bytes_too,
            _ => false,
        };
        match self.name(fits) {
            Some((name, Thing::Cell { of, count })) => {
                self.designator(&name, of, count, true);
                if of == Type::Short {
                    Sort::Short
                } else {
                    Sort::Integer
                }
            }
            Some((name, _)) => {
                self.put(&name);
                Sort::Integer
            }
            None => {
                let (name, register) = self.register(|_, _| true);
                self.put(&name);
                Sort::Register(register)
            }
        }
    }

    fn designator(&mut self, name: &str, of: Type, count: Option<usize>, may_be_indexed: bool) {
        self.put(name);
        let slip = self.slips();
        if count.is_none() && !slip {
            return;
        }
        if self.random.chance(1, 2) {
            let element = of.size() as u32 * self.random.below(count.unwrap_or(2)) as u32;
            let value = if slip { element.wrapping_add(any_value(self.random)) } else { element };
            self.in_parentheses(value);
        }
        if (may_be_indexed || self.slips()) && self.random.chance(1, 3) {
            let (index, _) = self.register(|register, _| register != 0);
            self.put("(");
            self.put(&index);
            self.put(")");
        }
    }
}
