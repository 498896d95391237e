//! Texts that aim at protection: few registers for many uses, chains of calls as deep as they go, procedures in procedures,
//! bases and blocks in procedures, GOTOs out of blocks, return registers that siblings share. The hunter keeps account of
//! what is protected as a translator with a slip does: it writes what that one would let pass, and the right one may refuse.

use crate::kinds::{only, RegisterSet, DATA_BASE, PROGRAM_BASE};
use crate::random::Random;
use crate::slips::Slip;
use crate::spell::text;

/// How deep procedures and blocks may stand inside each other.
const DEPTH: usize = 9;

/// How many CASE statements may stand inside each other.
const CASES: usize = 4;

/// What a name in force stands for.
#[derive(Clone, Copy)]
enum Thing {
    Cell { elements: Option<usize>, size: usize },
    Procedure { register: u8, writes: RegisterSet },
}

#[derive(Default)]
struct Scope {
    things: Vec<(String, Thing)>,
    labels: Vec<String>,
    bases: RegisterSet,
    /// The return register of a procedure whose body this is.
    returns: RegisterSet,
    is_body: bool,
}

struct Hunter<'a> {
    random: &'a mut Random,
    tokens: Vec<String>,
    scopes: Vec<Scope>,
    /// What each open procedure body, and at the bottom the program, has written.
    written: Vec<RegisterSet>,
    /// The registers that this text uses.
    pool: Vec<u8>,
    bases: usize,
    fresh: usize,
    /// Statements that may still be written.
    statements: usize,
    /// CASE statements that are open.
    cases: usize,
    slip: Slip,
}

/// A text that a translator with the slip accepts; the right one accepts it, or refuses it by 10 or, for a GOTO, by 6.
pub fn hunted(random: &mut Random, slip: Slip) -> Vec<u8> {
    let registers = random.range(4, 13);
    let mut pool: Vec<u8> = (1..=13).collect();
    random.shuffle(&mut pool);
    pool.truncate(registers);
    let statements = random.range(10, 60);
    let tokens = Vec::new();
    let (scopes, written) = (Vec::new(), vec![0]);
    let mut hunter = Hunter { random, tokens, scopes, written, pool, bases: 0, fresh: 0, statements, cases: 0, slip };
    hunter.block(true);
    hunter.put("@");
    let tokens = hunter.tokens;
    text(random, &tokens)
}

impl Hunter<'_> {
    fn put(&mut self, tokens: &str) {
        self.tokens.extend(tokens.split_ascii_whitespace().map(str::to_string));
    }

    fn here(&mut self) -> &mut Scope {
        self.scopes.last_mut().expect("a block is open")
    }

    fn name(&mut self, letter: char) -> String {
        self.fresh += 1;
        format!("{letter}{}", self.fresh)
    }

    fn protected(&self) -> RegisterSet {
        let innermost = self.scopes.len().max(1) - 1;
        let counted = |place: usize| self.slip != Slip::BasesFreeInside || place == innermost;
        let mut set = only(DATA_BASE) | only(PROGRAM_BASE);
        for (place, scope) in self.scopes.iter().enumerate() {
            set |= if self.slip == Slip::ReturnsFree { 0 } else { scope.returns };
            set |= if counted(place) { scope.bases } else { 0 };
        }
        set
    }

    fn write(&mut self, registers: RegisterSet) {
        *self.written.last_mut().expect("the program's") |= registers;
    }

    /// A register to write, None where all are protected.
    fn target(&mut self) -> Option<u8> {
        let protected = self.protected();
        let free: Vec<u8> = self.pool.iter().copied().filter(|&register| protected & only(register) == 0).collect();
        self.random.pick(&free).copied()
    }

    /// Any register, to read.
    fn source(&mut self) -> String {
        let register = *self.random.of(&self.pool);
        format!("R{register:X}")
    }

    // Declarations

    fn block(&mut self, declares: bool) {
        self.put("BEGIN");
        self.scopes.push(Scope::default());
        if declares {
            self.cells();
            if self.random.chance(1, 3) {
                self.base();
            }
            for _ in 0..self.random.range(1, 5) {
                match self.random.below(8) {
                    0 => self.base(),
                    1 => self.cells(),
                    2 => self.chain(),
                    _ => self.procedure(),
                }
            }
        }
        self.items();
        self.scopes.pop();
        self.put("END");
    }

    fn cells(&mut self) {
        let byte = self.random.chance(1, 3);
        let (words, size) = if byte { ("BYTE", 1) } else { *self.random.of(&[("INTEGER", 4), ("SHORT INTEGER", 2)]) };
        let name = self.name('C');
        let elements = if self.random.chance(1, 4) { Some(self.random.range(1, 8)) } else { None };
        if let Some(count) = elements {
            self.put(&format!("ARRAY ( {count} )"));
        }
        let value = self.random.below(100);
        self.put(&format!("{words} {name} ( {value} ) ;"));
        self.here().things.push((name, Thing::Cell { elements, size }));
    }

    fn base(&mut self) {
        let register = match self.target() {
            Some(register) if self.bases < 2 => register,
            _ => return,
        };
        self.bases += 1;
        self.put(&format!("SEGMENT BASE R{register:X} ;"));
        if self.slip != Slip::BasesForgotten {
            self.write(only(register));
        }
        self.here().bases |= only(register);
        self.cells();
    }

    /// Its return register is any of the pool that can be written here, so that siblings share it.
    fn procedure(&mut self) {
        if self.scopes.len() > DEPTH || self.statements == 0 {
            return;
        }
        let register = match self.target() {
            Some(register) => register,
            None => return,
        };
        let name = self.name('P');
        self.put(&format!("PROCEDURE {name} ( R{register:X} ) ;"));
        self.scopes.push(Scope { returns: only(register), is_body: true, ..Scope::default() });
        self.written.push(0);
        let declares = self.random.chance(1, 2);
        self.block(declares);
        self.put(";");
        let inside = self.written.pop().unwrap_or(0);
        self.scopes.pop();
        if self.slip != Slip::NestedForgotten {
            self.write(inside);
        }
        self.here().things.push((name, Thing::Procedure { register, writes: inside | only(register) }));
    }

    /// Procedures of which each calls the one before, with as many return registers as are left.
    fn chain(&mut self) {
        let mut earlier: Option<(String, RegisterSet)> = None;
        for _ in 0..self.random.range(3, 12) {
            let busy = self.protected() | earlier.as_ref().map_or(0, |(_, writes)| *writes);
            let free: Vec<u8> = self.pool.iter().copied().filter(|&register| busy & only(register) == 0).collect();
            let register = match self.random.pick(&free) {
                Some(register) => *register,
                None => return,
            };
            let name = self.name('P');
            self.put(&format!("PROCEDURE {name} ( R{register:X} ) ; BEGIN"));
            let mut writes = only(register);
            if let Some((callee, inside)) = earlier {
                let before = self.cell(false).unwrap_or_else(|| "0".to_string());
                self.put(&format!("R0 := {before} ; {callee} ; R0 := R0 + R{register:X} ;"));
                writes |= inside;
            }
            self.put("END ;");
            self.write(writes | only(0));
            self.here().things.push((name.clone(), Thing::Procedure { register, writes: writes | only(0) }));
            earlier = Some((name, writes));
        }
    }

    // Statements

    fn items(&mut self) {
        let label = if self.random.chance(1, 2) { Some(format!("L{}", self.random.below(2))) } else { None };
        self.here().labels.extend(label.clone());
        let count = self.random.range(2, 7);
        let at = self.random.below(count + 1);
        for number in 0..=count {
            match &label {
                Some(label) if number == at => {
                    let label = label.clone();
                    self.put(&format!("{label} :"));
                }
                _ => {
                    self.statement(true);
                    self.put(";");
                }
            }
        }
    }

    /// Inside IF only a simple one may stand before ELSE.
    fn statement(&mut self, any: bool) {
        self.statements = self.statements.saturating_sub(1);
        let often = if self.slip == Slip::FunctionsForgotten { 4 } else { 10 };
        if self.random.chance(1, often) {
            return self.function();
        }
        let often = if self.slip == Slip::CasesForgotten { 4 } else { 10 };
        if self.cases < CASES && self.statements > 0 && self.random.chance(1, often) {
            return self.case();
        }
        match self.random.below(20) {
            0..=5 => self.call(),
            6..=8 => self.load(),
            9..=10 => self.store(),
            11..=12 => self.spoil(),
            13..=14 => self.goto(),
            15..=16 if self.scopes.len() <= DEPTH && self.statements > 0 => {
                let declares = self.random.chance(1, 2);
                self.block(declares);
            }
            17 if any => self.count_to(),
            18..=19 if any => {
                let (register, relation) = (self.source(), *self.random.of(&["=", "<", ">", "^=", "<=", ">="]));
                let condition = match self.random.below(4) {
                    0 => "OVERFLOW".to_string(),
                    1 => relation.to_string(),
                    _ => format!("{register} {relation} {}", self.random.below(12)),
                };
                self.put(&format!("IF {condition} THEN"));
                self.statement(false);
                if self.random.chance(1, 2) {
                    self.put("ELSE");
                    self.statement(true);
                }
            }
            _ => self.load(),
        }
    }

    fn call(&mut self) {
        let protected = self.protected();
        let mut callable = Vec::new();
        for (name, thing) in self.scopes.iter().flat_map(|scope| &scope.things) {
            match thing {
                Thing::Procedure { register, writes } if writes & protected == 0 => {
                    let seen = if self.slip == Slip::CallsForgotten { only(*register) } else { *writes };
                    callable.push((name.clone(), seen));
                }
                _ => {}
            }
        }
        // The latest one often, so that a chain grows by a link with each procedure.
        let chosen = if self.random.chance(1, 2) { callable.last() } else { self.random.pick(&callable) };
        match chosen.cloned() {
            Some((name, writes)) => {
                self.put(&name);
                self.write(writes);
            }
            None => self.load(),
        }
    }

    /// The use of a function that writes a register, or a cell.
    fn function(&mut self) {
        let target = match self.slip {
            Slip::FunctionsForgotten => Some(*self.random.of(&self.pool)),
            _ => self.target(),
        };
        let source = self.source();
        let value = self.random.below(256);
        let phrase = match (self.random.below(8), target, self.cell(true)) {
            (0..=1, Some(target), _) => format!("LTR ( R{target:X} ) ( {source} )"),
            (2..=3, Some(target), Some(cell)) => format!("IC ( R{target:X} ) ( {cell} )"),
            (4, Some(target), Some(cell)) => format!("LA ( R{target:X} ) ( {cell} )"),
            (5, _, Some(cell)) => return self.put(&format!("STC ( {source} ) ( {cell} )")),
            (_, _, Some(cell)) if !cell.contains("( R") => {
                let name = *self.random.of(&["SET", "RESET", "TEST"]);
                let with_number = format!("{} ( {value} )", self.random.of(&["MVI", "CLI"]));
                let front = if self.random.chance(1, 2) { name.to_string() } else { with_number };
                return self.put(&format!("{front} ( {cell} )"));
            }
            _ => return self.put("NULL"),
        };
        self.put(&phrase);
        if let (Some(target), true) = (target, self.slip != Slip::FunctionsForgotten) {
            self.write(only(target));
        }
    }

    /// A CASE, its register mostly set just before to a number near the count; a translator that does not count it as written lets any
    /// register stand there.
    fn case(&mut self) {
        let target = match self.slip {
            Slip::CasesForgotten => Some(*self.random.of(&self.pool)),
            _ => self.target(),
        };
        let register = match target {
            Some(register) => register,
            None => return self.put("NULL"),
        };
        let count = self.random.below(5);
        let value = if self.random.chance(1, 5) {
            self.random.below(count + 2)
        } else {
            self.random.range(count.min(1), count)
        };
        let set_before = self.protected() & only(register) == 0 && self.random.chance(2, 3);
        if set_before {
            self.put(&format!("BEGIN R{register:X} := {value} ;"));
            self.write(only(register));
        }
        self.put(&format!("CASE R{register:X} OF BEGIN"));
        if self.slip != Slip::CasesForgotten {
            self.write(only(register));
        }
        self.cases += 1;
        for _ in 0..count {
            self.statement(true);
            self.put(";");
        }
        self.cases -= 1;
        self.put(if set_before { "END ; END" } else { "END" });
    }

    /// A cell in force, mostly as it is; a byte cell only where one may stand.
    fn cell(&mut self, bytes_too: bool) -> Option<String> {
        let mut cells = Vec::new();
        for (name, thing) in self.scopes.iter().flat_map(|scope| &scope.things) {
            match thing {
                Thing::Cell { elements, size } if *size > 1 || bytes_too => {
                    cells.push((name.clone(), *elements, *size))
                }
                _ => {}
            }
        }
        let (mut name, elements, size) = self.random.pick(&cells)?.clone();
        if let Some(count) = elements {
            if self.random.chance(2, 3) {
                name += &format!(" ( {} )", size * self.random.below(count));
            }
            if self.random.chance(1, 6) {
                name += &format!(" ( {} )", self.source());
            }
        }
        Some(name)
    }

    fn load(&mut self) {
        match (self.target(), self.cell(false)) {
            (Some(target), Some(cell)) => {
                self.put(&format!("R{target:X} := {cell}"));
                self.write(only(target));
            }
            _ => self.put("NULL"),
        }
    }

    fn store(&mut self) {
        match self.cell(false) {
            Some(cell) => {
                let source = self.source();
                self.put(&format!("{cell} := {source}"));
            }
            None => self.put("NULL"),
        }
    }

    /// A register gets what no base and no link is; a product spoils the one below too.
    fn spoil(&mut self) {
        let target = match self.target() {
            Some(target) => target,
            None => return self.put("NULL"),
        };
        self.write(only(target));
        let value = self.random.below(1000);
        let below_is_free = target % 2 == 1 && self.protected() & only(target - 1) == 0;
        if below_is_free && self.random.chance(1, 2) {
            self.put(&format!("R{target:X} := R{target:X} * {value}"));
            self.write(only(target - 1));
        } else {
            let sign = *self.random.of(&["", "ABS", "NEG", "NEG ABS"]);
            self.put(&format!("R{target:X} := {sign} {value}"));
        }
    }

    fn goto(&mut self) {
        let mut labels = Vec::new();
        let past_bodies = self.slip == Slip::GotoOutOfBody;
        for scope in self.scopes.iter().rev().take_while(|scope| past_bodies || !scope.is_body) {
            labels.extend(scope.labels.iter().cloned());
        }
        match self.random.pick(&labels) {
            Some(label) => {
                let label = label.clone();
                self.put(&format!("GOTO {label}"));
            }
            None => self.call(),
        }
    }

    fn count_to(&mut self) {
        let target = match self.target() {
            Some(target) => target,
            None => return self.put("NULL"),
        };
        self.write(only(target));
        let limit = self.random.range(1, 4);
        self.put(&format!("FOR R{target:X} := 1 STEP 1 UNTIL {limit} DO"));
        self.statement(true);
    }
}
