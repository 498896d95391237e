//! Names: for every name that is used, the declaration that it means. Refusal 6 for names, 7 and 13 for declarations.

use crate::functions::{self, Function};
use crate::grammar::*;
use crate::token::{Spelling, Token};
use crate::violations::Violations;
use std::collections::HashMap;

/// "257th declared name ... in the program"
pub const NAME_LIMIT: usize = 256;

/// What the search for a name ends at.
#[derive(Clone, Copy, PartialEq, Eq, Debug)]
pub enum Found {
    Nothing,
    /// One of R0 to RF of the block around the program.
    Standard(u8),
    /// One of the standard functions, which are declared there too.
    Function(Function),
    /// A declaration of the program, by the token that it declares.
    Declared(TokenNo),
}

/// What each token that uses a name has found, by token number; `Nothing` at all other tokens.
pub fn names(program: &Block, tokens: &[Token], violations: &mut Violations) -> Vec<Found> {
    let mut search = Search {
        tokens,
        violations,
        in_force: HashMap::new(),
        blocks: Vec::new(),
        declared: 0,
        found: vec![Found::Nothing; tokens.len()],
    };
    search.block(program);
    search.found
}

/// A declaration in force: the depth of its block and the token that it declares.
struct InForce {
    depth: usize,
    token: TokenNo,
}

struct Search<'a, 'b> {
    tokens: &'a [Token],
    violations: &'a mut Violations<'b>,
    /// The declarations in force of each name, the innermost last.
    in_force: HashMap<Spelling, Vec<InForce>>,
    /// The names that each open block declares, the innermost block last.
    blocks: Vec<Vec<Spelling>>,
    /// The declared names so far in the whole program.
    declared: usize,
    found: Vec<Found>,
}

impl Search<'_, '_> {
    fn declare(&mut self, token: TokenNo) {
        let depth = self.blocks.len();
        let name = self.tokens[token].name;
        let same = self.in_force.entry(name).or_default();
        let twice = matches!(same.last(), Some(earlier) if earlier.depth == depth);
        same.push(InForce { depth, token });
        self.blocks[depth - 1].push(name);
        self.declared += 1;
        self.violations.add_if(twice, 7, token);
        self.violations.add_if(self.declared > NAME_LIMIT, 13, token);
    }

    /// "For a name's earlier declaration the search goes outward from the innermost block and ends at the first match."
    fn name(&mut self, token: TokenNo) {
        let name = self.tokens[token].name;
        let declared = self.in_force.get(&name).and_then(|same| same.last());
        let found = match declared {
            Some(innermost) => Found::Declared(innermost.token),
            None => standard(name),
        };
        self.violations.add_if(found == Found::Nothing, 6, token);
        self.found[token] = found;
    }

    fn block(&mut self, block: &Block) {
        self.blocks.push(Vec::new());
        for declaration in &block.declarations {
            self.declaration(declaration);
        }
        for item in &block.items {
            if let Item::Statement(statement) = item {
                self.statement(statement);
            }
        }
        for name in self.blocks.pop().unwrap_or_default() {
            if let Some(same) = self.in_force.get_mut(&name) {
                same.pop();
            }
        }
    }

    fn declaration(&mut self, declaration: &Declaration) {
        match declaration {
            Declaration::Registers(items) => items.iter().for_each(|item| self.declare(item.name)),
            Declaration::Cells(cells) => cells.items.iter().for_each(|item| self.declare(item.name)),
            Declaration::Base(register) => self.name(*register),
            // "A procedure's name is known in its own body", and from its own token on.
            Declaration::Procedure(procedure) => {
                self.declare(procedure.name);
                self.name(procedure.register);
                self.statement(&procedure.body);
            }
        }
    }

    fn statement(&mut self, statement: &Statement) {
        match statement {
            Statement::Assignment(assignment) => self.assignment(assignment),
            Statement::Use(Use { name, arguments }) => {
                self.name(*name);
                arguments.iter().for_each(|argument| self.operand(argument));
            }
            Statement::Block(block) => self.block(block),
            Statement::Goto(_) | Statement::Null => {}
            Statement::Case(Case { register, statements, .. }) => {
                self.name(*register);
                statements.iter().for_each(|statement| self.statement(statement));
            }
            Statement::If { condition, then, otherwise, .. } => {
                self.condition(condition);
                self.statement(then);
                if let Some(otherwise) = otherwise {
                    self.statement(otherwise);
                }
            }
            Statement::While { condition, body, .. } => {
                self.condition(condition);
                self.statement(body);
            }
            Statement::For { assignment, limit, body, .. } => {
                self.assignment(assignment);
                self.operand(limit);
                self.statement(body);
            }
        }
    }

    fn assignment(&mut self, assignment: &Assignment) {
        self.designator(&assignment.target);
        self.operand(&assignment.first);
        for link in &assignment.chain {
            self.operand(&link.operand);
        }
    }

    fn condition(&mut self, condition: &Condition) {
        if let Condition::Comparison { register, operand, .. } = condition {
            self.name(*register);
            self.operand(operand);
        }
    }

    fn operand(&mut self, operand: &Operand) {
        if let Operand::Designator(designator) = operand {
            self.designator(designator);
        }
    }

    fn designator(&mut self, designator: &Designator) {
        self.name(designator.name);
        if let Some(index) = designator.index {
            self.name(index);
        }
    }
}

/// "R0 to R9 and RA to RF are declared in a block around the program.", and so are the standard functions.
fn standard(name: Spelling) -> Found {
    match name {
        [b'R', digit @ b'0'..=b'9', 0, ..] => Found::Standard(digit - b'0'),
        [b'R', letter @ b'A'..=b'F', 0, ..] => Found::Standard(letter - b'A' + 10),
        _ => functions::standard(name).map_or(Found::Nothing, Found::Function),
    }
}
