//! A second opinion on refusals 5 to 13: for each rule the set of all tokens that break it, told from the tokens around
//! a name and from ranges of tokens, without a tree. It takes the tokens of a text that the grammar has passed.

use crate::token::{Kind, Token};
use std::collections::BTreeSet;
use Kind::*;

type TokenNo = usize;

/// A name at a statement's start with the first tokens of what stands in its parentheses, where no `:=` follows.
struct Applied {
    name: TokenNo,
    arguments: Vec<TokenNo>,
}

/// A range of tokens, both ends included.
#[derive(Clone, Copy, PartialEq)]
struct Range {
    first: TokenNo,
    last: TokenNo,
}

impl Range {
    fn holds(&self, token: TokenNo) -> bool {
        self.first <= token && token <= self.last
    }
}

#[derive(Clone, Copy, PartialEq, Debug)]
enum What {
    Nothing,
    Register(i32),
    Cell {
        size: i32,
        array: bool,
        count: i32,
    },
    Procedure(TokenNo),
    /// A standard function, by its place in the list of document 02.
    Function(usize),
}

/// Document 02, 1/13: each function with a letter for each argument (R a register that is written, r one that is read, n a number
/// 0 to 255, x a cell that may be indexed, c one that may not).
const FUNCTIONS: [(&str, &str); 9] = [
    ("IC", "Rx"),
    ("STC", "rx"),
    ("LA", "Rx"),
    ("MVI", "nc"),
    ("CLI", "nc"),
    ("SET", "c"),
    ("RESET", "c"),
    ("TEST", "c"),
    ("LTR", "Rr"),
];

struct Declared {
    token: TokenNo,
    block: Range,
    what: What,
}

struct Body {
    name: TokenNo,
    register: TokenNo,
    range: Range,
}

pub struct Rules<'a> {
    tokens: &'a [Token],
    blocks: Vec<Range>,
    bodies: Vec<Body>,
    declared: Vec<Declared>,
    labels: Vec<TokenNo>,
    bases: Vec<TokenNo>,
    applied: Vec<Applied>,
}

/// All (place, number) that break one of the rules 6 to 13.
pub fn broken(tokens: &[Token]) -> BTreeSet<(usize, u32)> {
    let rules = Rules::new(tokens);
    let sets = [
        (6, rules.not_found()),
        (7, rules.twice()),
        (8, rules.wrong_kind()),
        (9, rules.wrong_register()),
        (10, rules.protected_written()),
        (11, rules.wrong_value()),
        (12, rules.no_room()),
        (13, rules.too_many()),
    ];
    let mut all = BTreeSet::new();
    for (number, set) in sets {
        all.extend(set.into_iter().map(|token| (tokens[token].spot.place, number)));
    }
    all
}

/// The place of the first opening word inside 64 constructs: refusal 5.
pub fn too_deep(tokens: &[Token]) -> Option<usize> {
    let is_opening = |token: &TokenNo| match tokens[*token].kind {
        Begin => opens_block(tokens, *token),
        kind => matches!(kind, If | While | For | Procedure | Case),
    };
    let openings: Vec<TokenNo> = (0..tokens.len()).filter(is_opening).collect();
    let constructs: Vec<Range> = openings.iter().map(|&first| construct(tokens, first)).collect();
    let deep = openings.iter().find(|&&token| {
        constructs.iter().filter(|construct| construct.first < token && construct.holds(token)).count() >= 64
    });
    deep.map(|&token| tokens[token].spot.place)
}

/// Does this BEGIN open a block? That of a CASE, behind OF, belongs to the CASE.
fn opens_block(tokens: &[Token], begin: TokenNo) -> bool {
    begin == 0 || tokens[begin - 1].kind != Of
}

/// A BEGIN reaches to its END, a CASE to that of its BEGIN, a statement or procedure to the first `;` outside all blocks inside it.
fn construct(tokens: &[Token], first: TokenNo) -> Range {
    match tokens[first].kind {
        Begin => {
            let mut open = 0;
            let last = (first..tokens.len()).find(|&at| {
                open += i32::from(tokens[at].kind == Begin) - i32::from(tokens[at].kind == End);
                open == 0
            });
            Range { first, last: last.expect("BEGIN has its END") }
        }
        Case => Range { first, last: construct(tokens, first + 3).last },
        Procedure => Range { first, last: statement_end(tokens, first + 6) },
        _ => Range { first, last: statement_end(tokens, first) },
    }
}

/// The `;` behind the statement that begins at `first`.
fn statement_end(tokens: &[Token], first: TokenNo) -> TokenNo {
    let mut at = first;
    while tokens[at].kind != Semicolon {
        at = if tokens[at].kind == Begin { construct(tokens, at).last + 1 } else { at + 1 };
    }
    at
}

fn is_shift(kind: Kind) -> bool {
    matches!(kind, Shll | Shrl | Shla | Shra)
}

fn is_operator(kind: Kind) -> bool {
    is_shift(kind) || matches!(kind, Plus | Minus | Times | PlusPlus | MinusMinus | And | Or | Xor)
}

/// Tokens behind which a statement begins (as may a label or, behind BEGIN and `;`, a declaration).
fn precedes_statement(kind: Kind) -> bool {
    matches!(kind, Begin | Semicolon | Colon | Then | Else | Do)
}

impl<'a> Rules<'a> {
    fn new(tokens: &'a [Token]) -> Self {
        let mut rules = Rules {
            tokens,
            blocks: Vec::new(),
            bodies: Vec::new(),
            declared: Vec::new(),
            labels: Vec::new(),
            bases: Vec::new(),
            applied: Vec::new(),
        };
        for at in 0..tokens.len() {
            match tokens[at].kind {
                Begin if opens_block(tokens, at) => rules.blocks.push(construct(tokens, at)),
                Procedure => {
                    let range = Range { first: at + 6, last: statement_end(tokens, at + 6) };
                    rules.bodies.push(Body { name: at + 1, register: at + 3, range });
                }
                Base => rules.bases.push(at + 1),
                Name if rules.kind(at + 1) == Colon => rules.labels.push(at),
                _ => {}
            }
        }
        for at in 0..tokens.len() {
            rules.declarations_at(at);
        }
        for at in 0..tokens.len() {
            if rules.is_use(at) && precedes_statement(rules.before(at)) {
                rules.applied_at(at);
            }
        }
        rules
    }

    /// The name at a statement's start with its row of parentheses, if it is no target: no `:=` stands behind them.
    fn applied_at(&mut self, name: TokenNo) {
        let (mut behind, mut arguments) = (name + 1, Vec::new());
        while self.kind(behind) == Open {
            arguments.push(behind + 1);
            let mut open = 0;
            loop {
                open += i32::from(self.kind(behind) == Open) - i32::from(self.kind(behind) == Close);
                behind += 1;
                if open == 0 {
                    break;
                }
            }
        }
        if self.kind(behind) != Assign {
            self.applied.push(Applied { name, arguments });
        }
    }

    /// The letter of `FUNCTIONS` for the first token in a parenthesis of such a name: blank where it has none, as it is where a
    /// function has a wrong count. None for all other tokens.
    fn argument(&self, at: TokenNo) -> Option<char> {
        let one = self.applied.iter().find(|one| one.arguments.contains(&at))?;
        let fits = match self.what(one.name) {
            What::Function(function) if FUNCTIONS[function].1.len() == one.arguments.len() => FUNCTIONS[function].1,
            _ => "",
        };
        let place = one.arguments.iter().position(|&argument| argument == at)?;
        Some(fits.chars().nth(place).unwrap_or(' '))
    }

    fn kind(&self, at: TokenNo) -> Kind {
        self.tokens.get(at).map_or(TextEnd, |token| token.kind)
    }

    fn before(&self, at: TokenNo) -> Kind {
        if at == 0 {
            TextEnd
        } else {
            self.kind(at - 1)
        }
    }

    fn value(&self, at: TokenNo) -> i32 {
        self.tokens[at].value as i32
    }

    fn same_name(&self, one: TokenNo, two: TokenNo) -> bool {
        self.tokens[one].name == self.tokens[two].name
    }

    fn all(&self, wanted: impl Fn(TokenNo) -> bool) -> Vec<TokenNo> {
        (0..self.tokens.len()).filter(|&at| wanted(at)).collect()
    }

    /// The smallest block around a token.
    fn block(&self, at: TokenNo) -> Range {
        let around = self.blocks.iter().filter(|block| block.holds(at));
        *around.max_by_key(|block| block.first).expect("every name stands in a block")
    }

    /// What the declaration that begins at `at`, if one does, declares.
    fn declarations_at(&mut self, at: TokenNo) {
        if !matches!(self.before(at), Begin | Semicolon) {
            return;
        }
        if self.kind(at) == Procedure {
            return self.declare(at + 1, What::Procedure(at + 1));
        }
        if !matches!(self.kind(at), Integer | Logical | Short | Byte | Character | Array) {
            return;
        }
        let all: Vec<TokenNo> = (at..statement_end(self.tokens, at)).collect();
        let has = |wanted| all.iter().any(|&token| self.kind(token) == wanted);
        let (array, register) = (has(Array), has(Register));
        let size = match (has(Short), has(Byte) || has(Character)) {
            (true, _) => 2,
            (_, true) => 1,
            _ => 4,
        };
        let count = if array { self.value(at + 2) } else { 1 };
        for token in all {
            if self.kind(token) == Name {
                let what = match register {
                    true => What::Register(self.value(token + 2)),
                    false => What::Cell { size, array, count },
                };
                self.declare(token, what);
            }
        }
    }

    fn declare(&mut self, token: TokenNo, what: What) {
        let block = self.block(token);
        self.declared.push(Declared { token, block, what });
    }

    fn is_declared(&self, at: TokenNo) -> bool {
        self.declared.iter().any(|declared| declared.token == at)
    }

    /// What a name that is used stands for: of the declarations before it, in blocks around it, the one of the smallest
    /// block; or one of the sixteen registers, or of the nine functions.
    fn what(&self, at: TokenNo) -> What {
        let in_force = self
            .declared
            .iter()
            .filter(|declared| declared.token < at && declared.block.holds(at) && self.same_name(declared.token, at));
        match in_force.max_by_key(|declared| declared.block.first) {
            Some(declared) => declared.what,
            None => self.standard(at),
        }
    }

    fn standard(&self, at: TokenNo) -> What {
        let spelled: Vec<u8> = self.tokens[at].name.iter().copied().filter(|&byte| byte != 0).collect();
        match (0..16).find(|register| format!("R{register:X}").as_bytes() == spelled) {
            Some(register) => What::Register(register),
            None => {
                let function = FUNCTIONS.iter().position(|(name, _)| name.as_bytes() == spelled);
                function.map_or(What::Nothing, What::Function)
            }
        }
    }

    fn register(&self, at: TokenNo) -> Option<i32> {
        match self.what(at) {
            What::Register(register) => Some(register),
            _ => None,
        }
    }

    // The roles of names

    fn is_goto(&self, at: TokenNo) -> bool {
        self.kind(at) == Name && self.before(at) == Goto
    }

    /// A name that means a declaration.
    fn is_use(&self, at: TokenNo) -> bool {
        self.kind(at) == Name && !self.is_goto(at) && !self.labels.contains(&at) && !self.is_declared(at)
    }

    fn is_return(&self, at: TokenNo) -> bool {
        self.bodies.iter().any(|body| body.register == at)
    }

    fn is_base(&self, at: TokenNo) -> bool {
        self.bases.contains(&at)
    }

    fn is_index(&self, at: TokenNo) -> bool {
        self.is_use(at) && self.before(at) == Open && !self.is_return(at) && self.argument(at).is_none()
    }

    /// The name of the designator that has this index.
    fn indexed(&self, index: TokenNo) -> TokenNo {
        if self.kind(index - 2) == Close {
            index - 5
        } else {
            index - 2
        }
    }

    fn is_compared(&self, at: TokenNo) -> bool {
        self.is_use(at) && matches!(self.before(at), If | While)
    }

    fn is_case_register(&self, at: TokenNo) -> bool {
        self.is_use(at) && self.before(at) == Case
    }

    fn is_for_target(&self, at: TokenNo) -> bool {
        self.is_use(at) && self.before(at) == For
    }

    fn begins_statement(&self, at: TokenNo) -> bool {
        self.is_use(at) && precedes_statement(self.before(at))
    }

    fn is_applied(&self, at: TokenNo) -> bool {
        self.applied.iter().any(|one| one.name == at)
    }

    fn is_call(&self, at: TokenNo) -> bool {
        self.is_applied(at) && matches!(self.kind(at + 1), Semicolon | Else)
    }

    fn is_target(&self, at: TokenNo) -> bool {
        (self.begins_statement(at) && !self.is_applied(at)) || self.is_for_target(at)
    }

    fn is_operand(&self, at: TokenNo) -> bool {
        let behind = matches!(
            self.before(at),
            Assign | Abs | Neg | Until | Equal | NotEqual | Less | LessEqual | GreaterEqual | Greater
        );
        self.is_use(at) && (behind || is_operator(self.before(at)))
    }

    fn is_designator(&self, at: TokenNo) -> bool {
        self.is_target(at) || self.is_operand(at) || (self.is_use(at) && self.argument(at).is_some())
    }

    /// The token behind a designator or number.
    fn behind_operand(&self, at: TokenNo) -> TokenNo {
        let mut behind = at + 1;
        while self.kind(behind) == Open {
            behind += 3;
        }
        behind
    }

    /// The target's name of the assignment in which the token stands.
    fn target_of(&self, at: TokenNo) -> TokenNo {
        let assign = (0..at).rev().find(|&token| self.kind(token) == Assign).expect("an operator stands behind `:=`");
        (0..assign).rev().find(|&token| self.is_target(token)).expect("`:=` stands behind a target")
    }

    // Rules 6 to 13

    /// "name or label not found"
    fn not_found(&self) -> Vec<TokenNo> {
        self.all(|at| {
            if self.is_goto(at) {
                !self.labels.iter().any(|&label| self.goto_finds(at, label))
            } else {
                self.is_use(at) && self.what(at) == What::Nothing
            }
        })
    }

    /// A label of a block around the GOTO, which lies in every procedure body around the GOTO.
    fn goto_finds(&self, goto: TokenNo, label: TokenNo) -> bool {
        let block = self.block(label);
        let inside_bodies = self.bodies.iter().all(|body| !body.range.holds(goto) || body.range.holds(block.first));
        self.same_name(goto, label) && block.holds(goto) && inside_bodies
    }

    /// "declared, or label set, twice in a block"
    fn twice(&self) -> Vec<TokenNo> {
        let names: Vec<TokenNo> = self.declared.iter().map(|declared| declared.token).collect();
        let second = |list: &[TokenNo]| -> Vec<TokenNo> {
            let again = |at: TokenNo| {
                list.iter().any(|&earlier| {
                    earlier < at && self.same_name(earlier, at) && self.block(earlier) == self.block(at)
                })
            };
            list.iter().copied().filter(|&at| again(at)).collect()
        };
        [second(&names), second(&self.labels)].concat()
    }

    /// "kind or type does not fit"
    fn wrong_kind(&self) -> Vec<TokenNo> {
        let mut wrong = self.all(|at| self.is_use(at) && self.what(at) != What::Nothing && self.misfits(at));
        for target in self.all(|at| self.is_target(at) && !self.is_for_target(at)) {
            if matches!(self.what(target), What::Cell { .. }) {
                wrong.extend(self.beyond_one_register(target));
            }
        }
        // "a wrong count at the function's name"
        let wrong_count = |one: &&Applied| match self.what(one.name) {
            What::Function(function) => FUNCTIONS[function].1.len() != one.arguments.len(),
            _ => false,
        };
        wrong.extend(self.applied.iter().filter(wrong_count).map(|one| one.name));
        // "a wrong kind of argument": a number where none belongs, or no number where one belongs; an index where none belongs.
        wrong.extend(self.all(|at| match self.argument(at) {
            Some(' ') | None => false,
            Some(letter) => (letter == 'n') != (self.kind(at) == Number),
        }));
        wrong.extend(self.all(|at| self.is_index(at) && self.argument(self.indexed(at)) == Some('c')));
        wrong
    }

    fn misfits(&self, at: TokenNo) -> bool {
        let what = self.what(at);
        let is_register = matches!(what, What::Register(_));
        let is_procedure = matches!(what, What::Procedure(_));
        let is_function = matches!(what, What::Function(_));
        let is_cell = matches!(what, What::Cell { .. });
        let is_array = matches!(what, What::Cell { array: true, .. });
        let is_short = matches!(what, What::Cell { size: 2, .. });
        let is_byte = matches!(what, What::Cell { size: 1, .. });
        let argument = self.argument(at);
        let asks_register = self.is_return(at)
            || self.is_base(at)
            || self.is_index(at)
            || self.is_compared(at)
            || self.is_for_target(at)
            || self.is_case_register(at)
            || is_shift(self.before(at))
            || matches!(argument, Some('R' | 'r'));
        let called = if self.is_call(at) { is_procedure || is_function } else { is_function };
        (asks_register && !is_register)
            || (self.is_applied(at) && !called)
            || (matches!(argument, Some('x' | 'c')) && !is_cell)
            || ((self.is_target(at) || self.is_operand(at)) && is_byte)
            || (self.is_designator(at) && (is_procedure || is_function))
            || (self.is_designator(at) && self.kind(at + 1) == Open && !is_array)
            || (matches!(self.before(at), And | Or | Xor | PlusPlus | MinusMinus) && is_short)
    }

    /// Of a cell's assignment, the tokens that are not its one register name.
    fn beyond_one_register(&self, target: TokenNo) -> Vec<TokenNo> {
        let first = self.behind_operand(target) + 1;
        let mut wrong = Vec::new();
        let fits = self.kind(first) == Name && matches!(self.what(first), What::Register(_) | What::Nothing);
        if !fits {
            wrong.push(first);
        }
        let behind = self.behind_operand(first);
        if is_operator(self.kind(behind)) {
            wrong.push(behind);
        }
        wrong
    }

    /// "register not 0 to 15; 0 as base, return, index, shift; even `*` target", and 0 as case register
    fn wrong_register(&self) -> Vec<TokenNo> {
        let mut wrong = Vec::new();
        for declared in &self.declared {
            if let What::Register(number) = declared.what {
                if !(0..16).contains(&number) {
                    wrong.push(declared.token + 2);
                }
            }
        }
        wrong.extend(self.all(|at| {
            let no_zero = self.is_base(at)
                || self.is_return(at)
                || self.is_index(at)
                || self.is_case_register(at)
                || is_shift(self.before(at));
            self.is_use(at) && no_zero && self.register(at) == Some(0)
        }));
        wrong.extend(self.products().into_iter().filter(|(_, target)| target % 2 == 0).map(|(times, _)| times));
        wrong
    }

    /// Every `*` by a number, register or integer cell into a register, with that register.
    fn products(&self) -> Vec<(TokenNo, i32)> {
        let mut products = Vec::new();
        for times in self.all(|at| self.kind(at) == Times) {
            let by = times + 1;
            let by_pair =
                self.kind(by) == Number || matches!(self.what(by), What::Register(_) | What::Cell { size: 4, .. });
            if let (true, Some(target)) = (by_pair, self.register(self.target_of(times))) {
                products.push((times, target));
            }
        }
        products
    }

    /// "Protected at a point: 15, 14, the bases of enclosing blocks declared so far, the return registers of enclosing
    /// procedures."
    fn protected(&self, at: TokenNo) -> BTreeSet<i32> {
        let bases = self.bases.iter().filter(|&&base| base < at && self.block(base).holds(at)).copied();
        let returns = self.bodies.iter().filter(|body| body.range.holds(at)).map(|body| body.register);
        let named = bases.chain(returns).filter_map(|name| self.register(name));
        [14, 15].into_iter().chain(named).collect()
    }

    /// Every token that writes a register, with the register; calls aside.
    fn writes(&self) -> Vec<(TokenNo, i32)> {
        let names = self.all(|at| {
            self.is_target(at) || self.is_base(at) || self.is_case_register(at) || self.argument(at) == Some('R')
        });
        let mut writes: Vec<(TokenNo, i32)> =
            names.into_iter().filter_map(|at| Some((at, self.register(at)?))).collect();
        writes.extend(self.products().into_iter().map(|(times, target)| (times, target - 1)));
        writes
    }

    /// Every call, with the name that its procedure is declared by.
    fn calls(&self) -> Vec<(TokenNo, TokenNo)> {
        let called = |at| match self.what(at) {
            What::Procedure(name) => Some((at, name)),
            _ => None,
        };
        self.all(|at| self.is_call(at)).into_iter().filter_map(called).collect()
    }

    /// What a call of each procedure writes: "the procedure's return register and all that its body's text writes, ...
    /// through calls too", as the smallest sets of which this holds.
    fn written(&self) -> Vec<(TokenNo, BTreeSet<i32>)> {
        let (writes, calls) = (self.writes(), self.calls());
        let mut sets: Vec<(TokenNo, BTreeSet<i32>)> = Vec::new();
        for body in &self.bodies {
            let own = writes.iter().filter(|(at, _)| body.range.holds(*at)).map(|(_, register)| *register);
            sets.push((body.name, own.chain(self.register(body.register)).collect()));
        }
        loop {
            let before = sets.clone();
            for (body, (_, set)) in self.bodies.iter().zip(&mut sets) {
                for (_, called) in calls.iter().filter(|(at, _)| body.range.holds(*at)) {
                    set.extend(written_by(&before, *called));
                }
            }
            if sets == before {
                return sets;
            }
        }
    }

    /// "protected register written"
    fn protected_written(&self) -> Vec<TokenNo> {
        let mut broken = Vec::new();
        for (at, register) in self.writes() {
            if self.protected(at).contains(&register) {
                broken.push(at);
            }
        }
        let sets = self.written();
        for (at, called) in self.calls() {
            if written_by(&sets, called).any(|register| self.protected(at).contains(&register)) {
                broken.push(at);
            }
        }
        broken
    }

    /// "bad initial value or one too many, array count not 1 to 2,048, subscript, shift"
    fn wrong_value(&self) -> Vec<TokenNo> {
        let numbers = self.all(|at| self.kind(at) == Number);
        numbers.into_iter().filter(|&number| self.is_wrong_value(number)).collect()
    }

    fn is_wrong_value(&self, number: TokenNo) -> bool {
        let value = self.value(number);
        if is_shift(self.before(number)) {
            return !(0..64).contains(&value);
        }
        if self.before(number) != Open {
            return false;
        }
        match self.argument(number) {
            Some('n') => return !(0..256).contains(&value),
            Some(_) => return false,
            None => {}
        }
        if self.kind(number - 2) == Array {
            return !(1..=2048).contains(&value);
        }
        // The name before all parentheses, and how many numbers in parentheses lie between.
        let mut name = number - 2;
        let mut earlier = 0;
        while self.kind(name) != Name {
            name -= 3;
            earlier += 1;
        }
        match self.declared.iter().find(|declared| declared.token == name) {
            Some(Declared { what: What::Cell { size, count, .. }, .. }) => {
                let fits = match size {
                    1 => (0..256).contains(&value),
                    2 => (-32768..65536).contains(&value),
                    _ => true,
                };
                earlier >= *count || !fits
            }
            Some(_) => false,
            None => match self.what(name) {
                What::Cell { size, array: true, count } => !(0..count.min(2048)).any(|element| element * size == value),
                _ => false,
            },
        }
    }

    /// "cell ends past 4,096; a third base declaration"
    fn no_room(&self) -> Vec<TokenNo> {
        let mut broken: Vec<TokenNo> = self.bases.iter().skip(2).copied().collect();
        let mut ends = vec![0; self.bases.len() + 1];
        ends[0] = 16;
        for declared in &self.declared {
            if let What::Cell { size, count, .. } = declared.what {
                let size = i64::from(size);
                let end = &mut ends[self.segment(declared.token)];
                while *end % size != 0 {
                    *end += 1;
                }
                *end += size * i64::from(count);
                if *end > 4096 {
                    broken.push(declared.token);
                }
            }
        }
        broken
    }

    /// 0 for the data of base 14, else the number of the last base declaration in force.
    fn segment(&self, at: TokenNo) -> usize {
        let in_force = |base: &TokenNo| *base < at && self.block(*base).holds(at);
        self.bases.iter().rposition(in_force).map_or(0, |base| base + 1)
    }

    /// "257th declared name, or 257th label, in the program"
    fn too_many(&self) -> Vec<TokenNo> {
        let mut names: Vec<TokenNo> = self.declared.iter().map(|declared| declared.token).collect();
        names.sort_unstable();
        let labels = self.labels.iter().skip(256);
        names.iter().skip(256).chain(labels).copied().collect()
    }
}

fn written_by(sets: &[(TokenNo, BTreeSet<i32>)], procedure: TokenNo) -> impl Iterator<Item = i32> + '_ {
    sets.iter().filter(move |(name, _)| *name == procedure).flat_map(|(_, set)| set.iter().copied())
}
