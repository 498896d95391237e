//! The watcher of runs: what an accepted text does under any runner, state by state, held against what demand 3 says of it.
//!
//! A runner only tells how things stand when a budget is used up. So a run is watched by running it again with the budgets
//! 0, 1, 2, … up to its count: each answer is the state before the next instruction, and the last one has to be the answer
//! of the run itself. The watcher has no machine of its own; of an instruction it forms nothing but the operand's address.

use crate::machine::origin;
use crate::meant::{Does, Extent, InStorage, Meant, Named, Written};
use crate::objread;
use crate::random::Random;
use crate::runner::{self, RunAnswer, STORAGE_NEEDED};
use crate::spot::Spot;
use std::fmt;
use std::ops::Range;

/// What a run is given beside the object text.
#[derive(Clone, Debug)]
pub struct Given {
    pub regs: [u32; 16],
    pub cc: u64,
    pub budget: u32,
    pub storage_length: usize,
}

/// A runner's answer at a budget, and all of storage after.
pub struct Seen {
    pub answer: RunAnswer,
    pub storage: Vec<u8>,
}

/// What was not so.
#[derive(Clone, Copy, PartialEq, Eq, PartialOrd, Ord, Debug)]
pub enum Clause {
    /// The text is loaded as it says, with registers and code as given.
    Loaded,
    /// "it is always at the start of an instruction that was written"
    Written,
    /// "every unindexed operand lies wholly, for its whole width, in the cell, literal or table entry that the text names"
    Named,
    /// "every branch goes to the instruction that the text means"
    Meant,
    /// "program, literals and segment table never change"
    Unchanged,
    /// "it stops only at its final instruction, when the count given is used up, or at an indexed operand that the storage
    /// map forbids or that is misaligned"
    Stops,
    /// Registers 14 and 15, those that return from procedures under way, and all that an instruction has not to write.
    Kept,
    /// The answers at growing budgets are states of one run.
    OneRun,
}

/// The clauses in that order.
pub const CLAUSES: [Clause; 8] = [
    Clause::Loaded,
    Clause::Written,
    Clause::Named,
    Clause::Meant,
    Clause::Unchanged,
    Clause::Stops,
    Clause::Kept,
    Clause::OneRun,
];

#[derive(Clone, Debug)]
pub struct Cry {
    pub clause: Clause,
    /// How many instructions had been completed.
    pub after: u32,
    pub what: String,
}

impl fmt::Display for Cry {
    fn fmt(&self, f: &mut fmt::Formatter) -> fmt::Result {
        write!(f, "{:?} after {}: {}", self.clause, self.after, self.what)
    }
}

/// What a watched run consisted of.
#[derive(Clone, Copy, Default, PartialEq, Eq, Debug)]
pub struct Watched {
    pub stop: u32,
    pub instructions: u64,
    /// Operands that are a cell, a literal, a table entry, and indexed ones.
    pub cells: u64,
    pub literals: u64,
    pub entries: u64,
    pub indexed: u64,
    /// Branches taken, and those not taken.
    pub taken: u64,
    pub not_taken: u64,
    pub calls: u64,
    pub returns: u64,
    /// The most procedures under way at once.
    pub deepest: u64,
    /// CASE statements of which one statement was chosen, and those of which none was.
    pub chosen: u64,
    pub passed_over: u64,
}

/// A text as the watcher knows it.
pub struct Text {
    pub meant: Meant,
    /// The program's bytes, as the reference translates them.
    pub code: Vec<u8>,
}

/// Watches the run of an object text that is said to be the text's; `run` is the runner with the object and all that is
/// given but the budget.
pub fn watch(
    text: &Text,
    object: &[u8],
    given: &Given,
    run: &mut dyn FnMut(u32) -> Seen,
) -> Result<(Watched, RunAnswer), Cry> {
    let whole = run(given.budget);
    let mut now = run(0);
    let (start, calls) = (Vec::new(), Vec::new());
    let mut watcher = Watcher { text, start, calls, chosen: 0, after: 0, told: Watched::default() };
    watcher.loaded(object, given, &now)?;
    watcher.start = now.storage.clone();
    while watcher.after < whole.answer.count {
        let next = run(watcher.after + 1);
        watcher.step(&now, &next)?;
        watcher.after += 1;
        now = next;
    }
    watcher.ending(given, &now, &whole)?;
    Ok((watcher.told, whole.answer))
}

/// A procedure under way: its number, and the offset that it returns to.
struct UnderWay {
    procedure: usize,
    back: usize,
}

struct Watcher<'a> {
    text: &'a Text,
    /// Storage as it was loaded.
    start: Vec<u8>,
    /// The innermost last.
    calls: Vec<UnderWay>,
    /// The number of the statement that the last CASE chose.
    chosen: u32,
    /// How many instructions have been completed.
    after: u32,
    told: Watched,
}

impl Watcher<'_> {
    fn cry<T>(&self, clause: Clause, what: String) -> Result<T, Cry> {
        Err(Cry { clause, after: self.after, what })
    }

    fn ask(&self, so: bool, clause: Clause, what: impl FnOnce() -> String) -> Result<(), Cry> {
        if so {
            return Ok(());
        }
        self.cry(clause, what())
    }

    /// Before the first instruction.
    fn loaded(&mut self, object: &[u8], given: &Given, first: &Seen) -> Result<(), Cry> {
        let clause = Clause::Loaded;
        let object = match objread::read(object) {
            Some(object) => object,
            None => return self.cry(clause, "no object text".to_string()),
        };
        let data: Vec<Extent> = object
            .data
            .iter()
            .map(|segment| Extent { length: segment.bytes.len(), cells: segment.from..segment.to })
            .collect();
        self.ask(data == self.text.meant.data, clause, || format!("{data:?}, not {:?}", self.text.meant.data))?;
        let length = self.text.meant.length();
        self.ask(object.program.len() == length, clause, || format!("a program of {}", object.program.len()))?;
        let mut regs = given.regs;
        regs[15] = origin(0);
        regs[14] = origin(1);
        let expected =
            RunAnswer { number: 0, spot: Spot::NONE, stop: 0, counter: origin(0), regs, cc: given.cc, count: 0 };
        self.ask(first.answer == expected, clause, || format!("{:?}, not {expected:?}", first.answer))?;
        let mut storage = first.storage.clone();
        runner::load(&object, &mut storage);
        self.ask(storage == first.storage, clause, || "other bytes in storage".to_string())
    }

    /// The instruction that the counter is at, which has to be one that was written.
    fn written(&self, state: &Seen) -> Result<Written, Cry> {
        let counter = state.answer.counter;
        let offset = counter.wrapping_sub(origin(0)) as usize;
        match self.text.meant.instruction(offset) {
            Some(written) => Ok(*written),
            None => self.cry(Clause::Written, format!("the counter is {counter}")),
        }
    }

    fn same_bytes(&self, state: &Seen, one: Written) -> Result<(), Cry> {
        let in_program = one.offset..one.offset + one.length;
        let found = &state.storage[shifted(&in_program, 0)];
        let code = &self.text.code[in_program];
        self.ask(found == code, Clause::Written, || format!("{found:02X?} at {}, not {code:02X?}", one.offset))
    }

    /// One instruction that was completed.
    fn step(&mut self, before: &Seen, after: &Seen) -> Result<(), Cry> {
        let in_order = after.answer.number == 0 && after.answer.stop == 0 && after.answer.count == self.after + 1;
        self.ask(in_order, Clause::OneRun, || format!("{:?}", after.answer))?;
        let one = self.written(before)?;
        let mut stored = 0..0;
        match one.does {
            Does::WithOperand(operand) => {
                let place = self.operand(before, one, operand)?;
                if operand.stored {
                    stored = place;
                }
            }
            Does::Address { operand, register } => self.address(before, after, one, operand, register)?,
            Does::Chooses { register, count } => self.choice(before, after, one, register, count)?,
            _ => {}
        }
        self.same_bytes(before, one)?;
        let next = self.next(one, before)?;
        let counter = after.answer.counter;
        let goes_on = counter == origin(0) + next as u32;
        self.ask(goes_on, Clause::Meant, || {
            format!("from {} to {}, not {next}", one.offset, counter.wrapping_sub(origin(0)))
        })?;
        self.unchanged(after)?;
        self.kept(before, after, one, stored)?;
        self.told.instructions += 1;
        Ok(())
    }

    /// Where control goes, by the text.
    fn next(&mut self, one: Written, before: &Seen) -> Result<usize, Cry> {
        let in_line = one.offset + one.length;
        match one.does {
            Does::OnRegisters | Does::WithOperand(_) | Does::Address { .. } | Does::Chooses { .. } => Ok(in_line),
            Does::PassesOver { register, above, to } => {
                let value = before.answer.regs[usize::from(register)] as i32;
                let passes_over = above.map_or(value < 1, |count| i64::from(value) > i64::from(count));
                self.told.passed_over += u64::from(passes_over);
                Ok(if passes_over { self.text.meant.points[to] } else { in_line })
            }
            Does::EntersTable(table) => Ok(self.text.meant.points[table] + 4 * (self.chosen as usize - 1)),
            Does::Branch { unless, .. } if unless.contains(&before.answer.cc) => {
                self.told.not_taken += 1;
                Ok(in_line)
            }
            Does::Branch { to, .. } => {
                self.told.taken += 1;
                match to {
                    Some(point) => Ok(self.text.meant.points[point]),
                    None => self.cry(Clause::Meant, format!("the text names no label at {}", one.offset)),
                }
            }
            Does::Call(procedure) => {
                self.calls.push(UnderWay { procedure, back: in_line });
                self.told.calls += 1;
                self.told.deepest = self.told.deepest.max(self.calls.len() as u64);
                Ok(self.text.meant.procedures[procedure].offset)
            }
            Does::Return(procedure) => {
                self.told.returns += 1;
                match self.calls.pop() {
                    Some(call) if call.procedure == procedure => Ok(call.back),
                    _ => self.cry(Clause::Meant, format!("no call is under way of what ends at {}", one.offset)),
                }
            }
            Does::End => self.cry(Clause::Stops, "the final instruction was passed".to_string()),
        }
    }

    /// Where the operand lies in storage; one that is not indexed is wholly what the text names.
    fn operand(&mut self, state: &Seen, one: Written, operand: InStorage) -> Result<Range<usize>, Cry> {
        let address = self.named(state, one, operand)?;
        if operand.indexed {
            let allowed = self.allowed(address, operand).is_ok();
            self.ask(allowed, Clause::Stops, || format!("{address} at {} is passed", one.offset))?;
        }
        Ok(address as usize..address as usize + operand.size)
    }

    /// An address that is put into a register: one that is not indexed lies in the cell that the text names.
    fn address(
        &mut self,
        before: &Seen,
        after: &Seen,
        one: Written,
        operand: InStorage,
        register: u8,
    ) -> Result<(), Cry> {
        let address = self.named(before, one, operand)?;
        let found = after.answer.regs[usize::from(register)];
        self.ask(found == address, Clause::Named, || {
            format!("register {register} holds {found} after {}, not {address}", one.offset)
        })
    }

    /// "Numbering starts at 1", and what is left in the register is four times the number.
    fn choice(&mut self, before: &Seen, after: &Seen, one: Written, register: u8, count: u32) -> Result<(), Cry> {
        let held = |state: &Seen| state.answer.regs[usize::from(register)];
        self.chosen = held(before);
        self.ask((1..=count).contains(&self.chosen), Clause::Meant, || {
            format!("number {} of {count} at {}", self.chosen, one.offset)
        })?;
        let found = held(after);
        self.ask(found == 4 * self.chosen, Clause::Meant, || {
            format!("register {register} holds {found} after {}, not {}", one.offset, 4 * self.chosen)
        })?;
        self.told.chosen += 1;
        Ok(())
    }

    /// The operand's address; what it is without an index has to be what the text names.
    fn named(&mut self, state: &Seen, one: Written, operand: InStorage) -> Result<u32, Cry> {
        let (address, unindexed) = addresses(state, operand);
        let named = match operand.named {
            Named::Cell(place) => unindexed == origin(place.segment) + place.offset as u32,
            Named::Entry(segment) => {
                unindexed == origin(1) + 4 * segment as u32 && word(state, unindexed) == Some(origin(segment))
            }
            Named::Number(value) => {
                let offset = unindexed.wrapping_sub(origin(1)) as usize;
                let literals = &self.text.meant.literals;
                literals.contains(&offset)
                    && (offset - literals.start) % 4 == 0
                    && word(state, unindexed) == Some(value)
            }
        };
        self.ask(named, Clause::Named, || format!("{unindexed} at {}, not {:?}", one.offset, operand.named))?;
        if operand.indexed {
            self.told.indexed += 1;
        } else {
            self.ask(address == unindexed, Clause::Named, || format!("an index at {}", one.offset))?;
            match operand.named {
                Named::Cell(_) => self.told.cells += 1,
                Named::Number(_) => self.told.literals += 1,
                Named::Entry(_) => self.told.entries += 1,
            }
        }
        Ok(address)
    }

    /// "What is read must lie wholly in one data segment's bytes, what is stored in its writable part." Else the stop.
    fn allowed(&self, address: u32, operand: InStorage) -> Result<(), u32> {
        if address as usize % operand.size != 0 {
            return Err(3);
        }
        let place = address as usize..address as usize + operand.size;
        let inside = (1..).zip(&self.text.meant.data).any(|(number, segment)| {
            let room = if operand.stored { segment.cells.clone() } else { 0..segment.length };
            let room = shifted(&room, number);
            room.start <= place.start && place.end <= room.end
        });
        if inside {
            Ok(())
        } else {
            Err(2)
        }
    }

    fn unchanged(&self, state: &Seen) -> Result<(), Cry> {
        let program = shifted(&(0..self.text.meant.length()), 0);
        let table = shifted(&(0..16), 1);
        let literals = shifted(&self.text.meant.literals, 1);
        for (what, part) in [("the program", program), ("the table", table), ("the literals", literals)] {
            self.ask(state.storage[part.clone()] == self.start[part], Clause::Unchanged, || format!("{what} changed"))?;
        }
        Ok(())
    }

    fn kept(&self, before: &Seen, after: &Seen, one: Written, stored: Range<usize>) -> Result<(), Cry> {
        let regs = &after.answer.regs;
        self.ask(regs[15] == origin(0) && regs[14] == origin(1), Clause::Kept, || {
            format!("14 holds {}, 15 {}", regs[14], regs[15])
        })?;
        for (register, value) in regs.iter().enumerate() {
            let free = one.writes & 1 << register != 0;
            self.ask(free || *value == before.answer.regs[register], Clause::Kept, || {
                format!("register {register} written at {}", one.offset)
            })?;
        }
        for call in &self.calls {
            let register = self.text.meant.procedures[call.procedure].register;
            let link = regs[register as usize] & 0x00FF_FFFF;
            self.ask(link == origin(0) + call.back as u32, Clause::Kept, || {
                format!("register {register} has to lead back to {}, after {}", call.back, one.offset)
            })?;
        }
        let elsewhere = before.storage[..stored.start] == after.storage[..stored.start]
            && before.storage[stored.end..] == after.storage[stored.end..];
        self.ask(elsewhere, Clause::Kept, || format!("storage beside {stored:?} written at {}", one.offset))
    }

    /// The run's own answer: the last state, and why it is the last.
    fn ending(&mut self, given: &Given, last: &Seen, whole: &Seen) -> Result<(), Cry> {
        let stop = whole.answer.stop;
        let expected = RunAnswer { stop, ..last.answer };
        let same = whole.answer == expected && whole.storage == last.storage;
        self.ask(same, Clause::OneRun, || format!("{:?}, not {expected:?}", whole.answer))?;
        self.told.stop = stop;
        let clause = Clause::Stops;
        if stop == 0 {
            return self.ask(self.after == given.budget, clause, || format!("budget {}", given.budget));
        }
        self.ask(self.after < given.budget, clause, || "past the budget".to_string())?;
        let one = self.written(last)?;
        match (stop, one.does) {
            (1, Does::End) => {}
            (2 | 3, Does::WithOperand(operand)) if operand.indexed => {
                let (address, _) = addresses(last, operand);
                let expected = self.allowed(address, operand);
                self.ask(expected == Err(stop), clause, || format!("{stop} for {address}, not {expected:?}"))?;
            }
            _ => return self.cry(clause, format!("stop {stop} at {}, {:?}", one.offset, one.does)),
        }
        self.same_bytes(last, one)
    }
}

/// A part of segment k, in storage.
fn shifted(part: &Range<usize>, segment: usize) -> Range<usize> {
    let origin = origin(segment) as usize;
    origin + part.start..origin + part.end
}

/// The word at an address, if it lies in storage.
fn word(state: &Seen, address: u32) -> Option<u32> {
    let bytes = state.storage.get(address as usize..address as usize + 4)?;
    Some(u32::from_be_bytes(bytes.try_into().ok()?))
}

/// The address that the four bytes at the counter form by base, index and displacement, and without the index; one that has a
/// number in its second byte has no index.
fn addresses(state: &Seen, operand: InStorage) -> (u32, u32) {
    let at = state.answer.counter as usize;
    let bytes = &state.storage[at..at + 4];
    let content = |register: u8| if register == 0 { 0 } else { state.answer.regs[register as usize] };
    let displacement = u32::from(bytes[2] % 16) * 256 + u32::from(bytes[3]);
    let unindexed = content(bytes[2] / 16).wrapping_add(displacement);
    let index = if operand.immediate { 0 } else { bytes[1] % 16 };
    (unindexed.wrapping_add(content(index)) & 0x00FF_FFFF, unindexed & 0x00FF_FFFF)
}

/// Anything in the registers, often what an index or a loop can do with; any code; mostly a short run.
pub fn given(random: &mut Random) -> Given {
    let regs = std::array::from_fn(|_| match random.below(6) {
        0..=2 => 4 * random.below(10) as u32,
        3 => 2 * random.below(40) as u32,
        4 => random.below(6) as u32,
        _ => random.next() as u32,
    });
    let budget = match random.below(60) {
        0 => random.below(4) as u32,
        1..=49 => random.range(20, 120) as u32,
        50..=58 => random.range(120, 300) as u32,
        _ => random.range(300, 1000) as u32,
    };
    let storage_length = STORAGE_NEEDED + if random.chance(1, 4) { random.below(100) } else { 0 };
    Given { regs, cc: random.below(4) as u64, budget, storage_length }
}
