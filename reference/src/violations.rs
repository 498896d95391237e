//! All that breaks the rules 6 to 13, gathered as (token, number).

use crate::grammar::TokenNo;
use crate::token::{Refusal, Token};

pub struct Violations<'a> {
    tokens: &'a [Token],
    found: Vec<(TokenNo, u32)>,
}

impl<'a> Violations<'a> {
    pub fn new(tokens: &'a [Token]) -> Self {
        Violations { tokens, found: Vec::new() }
    }

    pub fn add(&mut self, number: u32, at: TokenNo) {
        self.found.push((at, number));
    }

    pub fn add_if(&mut self, broken: bool, number: u32, at: TokenNo) {
        if broken {
            self.add(number, at);
        }
    }

    /// "Inside a group the smallest place wins, then the smaller number." A token with a smaller number has the smaller place.
    pub fn least(&self) -> Option<Refusal> {
        let &(at, number) = self.found.iter().min()?;
        Some(Refusal { number, spot: self.tokens[at].spot })
    }
}
