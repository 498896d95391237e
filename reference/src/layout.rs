//! Layout: the segment and offset of every cell, in text order. Refusal 12.

use crate::grammar::*;
use crate::token::Token;
use crate::violations::Violations;

/// "A segment is at most 4,096 bytes"
pub const SEGMENT_LIMIT: usize = 4096;

/// "Segment 1 begins with a table of four 4-byte entries, so cells start at 16"
pub const TABLE_LENGTH: usize = 16;

/// "array count not 1 to 2,048"
pub const COUNT_LIMIT: i32 = 2048;

/// "Segment 0 is the program, 1 the data of base 14"
pub const FIRST_DATA: usize = 1;

/// The last segment, 3: "2 and 3 those of base declarations in text order".
pub const LAST_DATA: usize = 3;

#[derive(Clone, Copy, PartialEq, Eq, Debug)]
pub struct Place {
    pub segment: usize,
    pub offset: usize,
}

pub struct Layout {
    /// Where each cell lies, by the token of its declared name.
    pub cells: Vec<Option<Place>>,
    /// The segment that each base declaration opens, by the token of the register's name.
    pub bases: Vec<Option<usize>>,
    /// The end of the last cell of each segment (of its table, or 0, where there is none); by segment number.
    pub ends: [usize; LAST_DATA + 1],
    /// The last segment that is open.
    pub last: usize,
}

pub fn layout(program: &Block, tokens: &[Token], violations: &mut Violations) -> Layout {
    let layout = Layout {
        cells: vec![None; tokens.len()],
        bases: vec![None; tokens.len()],
        ends: [0, TABLE_LENGTH, 0, 0],
        last: FIRST_DATA,
    };
    let mut layer = Layer { tokens, violations, layout };
    layer.block(program, FIRST_DATA);
    layer.layout
}

/// The next multiple of `size`, from `offset` on.
pub fn next_multiple(offset: usize, size: usize) -> usize {
    (offset + size - 1) / size * size
}

struct Layer<'a, 'b> {
    tokens: &'a [Token],
    violations: &'a mut Violations<'b>,
    layout: Layout,
}

impl Layer<'_, '_> {
    /// "Data base is 14 until a base declaration, which holds for the cells after it in that block and its inner
    /// blocks": `segment` is the one that holds where the block begins.
    fn block(&mut self, block: &Block, mut segment: usize) {
        for declaration in &block.declarations {
            match declaration {
                Declaration::Registers(_) => {}
                Declaration::Cells(cells) => self.cells(cells, segment),
                Declaration::Base(name) => segment = self.base(*name),
                Declaration::Procedure(procedure) => self.statement(&procedure.body, segment),
            }
        }
        for item in &block.items {
            if let Item::Statement(statement) = item {
                self.statement(statement, segment);
            }
        }
    }

    /// "a third base declaration"
    fn base(&mut self, name: TokenNo) -> usize {
        if self.layout.last == LAST_DATA {
            self.violations.add(12, name);
        } else {
            self.layout.last += 1;
        }
        self.layout.bases[name] = Some(self.layout.last);
        self.layout.last
    }

    /// "Cells take the next multiple of their size (4, or 2 for short)."; byte cells stand at "any offset".
    fn cells(&mut self, cells: &Cells, segment: usize) {
        let size = cells.of.size();
        let count = cells.count.map_or(1, |count| count_in_range(self.tokens[count].signed()));
        for item in &cells.items {
            let offset = next_multiple(self.layout.ends[segment], size);
            let end = offset + size * count;
            self.layout.cells[item.name] = Some(Place { segment, offset });
            self.layout.ends[segment] = end;
            self.violations.add_if(end > SEGMENT_LIMIT, 12, item.name);
        }
    }

    fn statement(&mut self, statement: &Statement, segment: usize) {
        match statement {
            Statement::Block(block) => self.block(block, segment),
            Statement::If { then, otherwise, .. } => {
                self.statement(then, segment);
                if let Some(otherwise) = otherwise {
                    self.statement(otherwise, segment);
                }
            }
            Statement::While { body, .. } | Statement::For { body, .. } => self.statement(body, segment),
            Statement::Case(case) => case.statements.iter().for_each(|statement| self.statement(statement, segment)),
            Statement::Assignment(_) | Statement::Use(_) | Statement::Goto(_) | Statement::Null => {}
        }
    }
}

/// A count out of range is refusal 11 before its cells; they may then lie anywhere.
fn count_in_range(count: i32) -> usize {
    count.clamp(1, COUNT_LIMIT) as usize
}
