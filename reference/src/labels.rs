//! Labels: for every GOTO, the label that it means. Refusal 6 for GOTO, 7 and 13 for labels.

use crate::grammar::*;
use crate::slips::Slip;
use crate::token::{Spelling, Token};
use crate::violations::Violations;
use std::collections::HashMap;

/// "257th label, in the program"
pub const LABEL_LIMIT: usize = 256;

/// The token that sets the label, for each token of a GOTO's name that has found one.
pub fn labels(program: &Block, tokens: &[Token], slip: Slip, violations: &mut Violations) -> Vec<Option<TokenNo>> {
    let mut search = Search { tokens, slip, violations, blocks: Vec::new(), set: 0, found: vec![None; tokens.len()] };
    search.block(program);
    search.found
}

struct Search<'a, 'b> {
    tokens: &'a [Token],
    slip: Slip,
    violations: &'a mut Violations<'b>,
    /// The labels of the enclosing blocks inside the innermost procedure body, the innermost block last.
    blocks: Vec<HashMap<Spelling, TokenNo>>,
    /// The labels set so far in the whole program.
    set: usize,
    found: Vec<Option<TokenNo>>,
}

impl Search<'_, '_> {
    /// Labels are "found forward or backward": those of a block are known from its start.
    fn block(&mut self, block: &Block) {
        let mut own = HashMap::new();
        for item in &block.items {
            if let Item::Label(label) = item {
                let twice = own.contains_key(&self.tokens[*label].name);
                self.violations.add_if(twice, 7, *label);
                own.entry(self.tokens[*label].name).or_insert(*label);
            }
        }
        self.blocks.push(own);
        for declaration in &block.declarations {
            if let Declaration::Procedure(procedure) = declaration {
                self.body(&procedure.body);
            }
        }
        for item in &block.items {
            match item {
                Item::Statement(statement) => self.statement(statement),
                Item::Label(label) => {
                    self.set += 1;
                    self.violations.add_if(self.set > LABEL_LIMIT, 13, *label);
                }
            }
        }
        self.blocks.pop();
    }

    /// "but never past the edge of a procedure body"
    fn body(&mut self, body: &Statement) {
        if self.slip == Slip::GotoOutOfBody {
            return self.statement(body);
        }
        let outside = std::mem::take(&mut self.blocks);
        self.statement(body);
        self.blocks = outside;
    }

    fn statement(&mut self, statement: &Statement) {
        match statement {
            Statement::Goto(name) => self.goto(*name),
            Statement::Block(block) => self.block(block),
            Statement::Assignment(_) | Statement::Use(_) | Statement::Null => {}
            Statement::Case(case) => case.statements.iter().for_each(|statement| self.statement(statement)),
            Statement::If { then, otherwise, .. } => {
                self.statement(then);
                if let Some(otherwise) = otherwise {
                    self.statement(otherwise);
                }
            }
            Statement::While { body, .. } | Statement::For { body, .. } => self.statement(body),
        }
    }

    fn goto(&mut self, name: TokenNo) {
        let spelling = self.tokens[name].name;
        let mut outward = self.blocks.iter().rev().filter_map(|own| own.get(&spelling));
        let earlier = outward.clone().find(|&&label| self.slip == Slip::GotoToOuter && label < name);
        let found = earlier.or_else(|| outward.next());
        self.violations.add_if(found.is_none(), 6, name);
        self.found[name] = found.copied();
    }
}
