//! A second opinion on refusal 4: a general recognizer (Earley's) of the grammar as the papers write it. It knows
//! nothing of how the grammar is best read.

use crate::token::{Kind, RESERVED, SIGNS};
use std::collections::{HashMap, HashSet};

/// Document 01's grammar. `{ }` is any number of times, `[ ]` once or not at all, `|` stands for "or"; words in small
/// letters are rules, save name and number, which are tokens like all others.
pub const DOCUMENT_01: &str = "
    program = block @
    block = BEGIN { declaration ; } { statement ; | name : } END
    declaration = integer_or_logical REGISTER name ( number ) { , name ( number ) }
        | [ ARRAY ( number ) ] type item { , item }
        | PROCEDURE name ( name ) ; statement
        | SEGMENT BASE name
    integer_or_logical = INTEGER | LOGICAL
    type = INTEGER | LOGICAL | SHORT INTEGER
    item = name { ( number ) }
    simple = assignment | name | block | GOTO name | NULL
    statement = simple
        | IF condition THEN statement
        | IF condition THEN simple ELSE statement
        | WHILE condition DO statement
        | FOR assignment STEP number UNTIL operand DO statement
    assignment = designator := [ ABS | NEG | NEG ABS ] operand { operator operand }
    designator = name | name ( number ) | name ( name ) | name ( number ) ( name )
    operand = number | designator
    operator = + | - | * | ++ | -- | AND | OR | XOR | SHLL | SHRL | SHLA | SHRA
    condition = name relation operand | relation | OVERFLOW
    relation = BARE_EQUALS | ^= | < | <= | >= | >
";

/// What document 02 says in place of these rules, 1/13: "Add BYTE and CHARACTER cells"; "A use is a simple statement: the name,
/// then each argument in its own parentheses." An argument is an operand; a call is the use that has none.
pub const BYTE_RULES: [(&str, &str); 2] = [
    ("type = INTEGER | LOGICAL | SHORT INTEGER", "type = INTEGER | LOGICAL | SHORT INTEGER | BYTE | CHARACTER"),
    (
        "simple = assignment | name | block | GOTO name | NULL",
        "simple = assignment | use | block | GOTO name | NULL use = name { ( argument ) } argument = operand",
    ),
];

/// And 3/13: "Add CASE register OF BEGIN {statement `;`} END as a simple statement". Which names are registers no grammar knows.
pub const CASE_RULES: [(&str, &str); 1] = [(
    "simple = assignment | use | block | GOTO name | NULL",
    "simple = assignment | use | block | GOTO name | NULL | case case = CASE name OF BEGIN { statement ; } END",
)];

/// The grammar in force.
pub fn grammar() -> String {
    BYTE_RULES.iter().chain(&CASE_RULES).fold(DOCUMENT_01.to_string(), |grammar, (before, now)| {
        assert!(grammar.contains(before));
        grammar.replace(before, now)
    })
}

#[derive(Clone, Copy, PartialEq, Eq, Hash, Debug)]
enum Symbol {
    Terminal(Kind),
    Rule(usize),
}

struct Production {
    rule: usize,
    symbols: Vec<Symbol>,
}

pub struct Recognizer {
    productions: Vec<Production>,
    /// The productions of each rule.
    of_rule: Vec<Vec<usize>>,
    /// Which rules derive nothing.
    empty: Vec<bool>,
    start: usize,
}

/// A production read up to a dot, since a position of the text.
#[derive(Clone, Copy, PartialEq, Eq, Hash)]
struct State {
    production: usize,
    dot: usize,
    origin: usize,
}

/// The states at each position of a text that some program begins with.
#[derive(Clone)]
pub struct Reading {
    sets: Vec<Vec<State>>,
}

impl Default for Recognizer {
    fn default() -> Self {
        Self::new()
    }
}

impl Recognizer {
    pub fn new() -> Self {
        let grammar = grammar();
        let mut reader = GrammarReader {
            words: grammar.split_ascii_whitespace().collect(),
            at: 0,
            numbers: HashMap::new(),
            productions: Vec::new(),
        };
        reader.rules();
        let rules = reader.productions.iter().map(|production| production.rule).max().map_or(0, |last| last + 1);
        let mut of_rule = vec![Vec::new(); rules];
        for (number, production) in reader.productions.iter().enumerate() {
            of_rule[production.rule].push(number);
        }
        assert!(of_rule.iter().all(|list| !list.is_empty()), "every rule has a production");
        let start = reader.numbers["program"];
        let empty = empty_rules(&reader.productions, rules);
        Recognizer { productions: reader.productions, of_rule, empty, start }
    }

    /// The reading of no token.
    pub fn begin(&self) -> Reading {
        let mut set = Vec::new();
        for &production in &self.of_rule[self.start] {
            set.push(State { production, dot: 0, origin: 0 });
        }
        let mut reading = Reading { sets: Vec::new() };
        self.close(&mut reading, set);
        reading
    }

    /// Reads one more token; false, and nothing changed, if no program begins so.
    pub fn read(&self, reading: &mut Reading, token: Kind) -> bool {
        let last = match reading.sets.last() {
            Some(last) => last,
            None => return false,
        };
        let set: Vec<State> = last
            .iter()
            .filter(|state| self.next_symbol(state) == Some(Symbol::Terminal(token)))
            .map(|state| State { dot: state.dot + 1, ..*state })
            .collect();
        if set.is_empty() {
            return false;
        }
        self.close(reading, set);
        true
    }

    /// The number of the first token with which no program goes on.
    pub fn first_unfit(&self, tokens: impl Iterator<Item = Kind>) -> Option<usize> {
        let mut reading = self.begin();
        for (number, token) in tokens.enumerate() {
            if !self.read(&mut reading, token) {
                return Some(number);
            }
        }
        None
    }

    fn next_symbol(&self, state: &State) -> Option<Symbol> {
        self.productions[state.production].symbols.get(state.dot).copied()
    }

    /// Adds all that is predicted by and completed in the set, and the set to the reading.
    fn close(&self, reading: &mut Reading, mut set: Vec<State>) {
        let here = reading.sets.len();
        let mut known: HashSet<State> = set.iter().copied().collect();
        let mut at = 0;
        while at < set.len() {
            let state = set[at];
            at += 1;
            let mut further = Vec::new();
            match self.next_symbol(&state) {
                Some(Symbol::Terminal(_)) => {}
                Some(Symbol::Rule(rule)) => {
                    let predicted = self.of_rule[rule].iter();
                    further.extend(predicted.map(|&production| State { production, dot: 0, origin: here }));
                    if self.empty[rule] {
                        further.push(State { dot: state.dot + 1, ..state });
                    }
                }
                None => {
                    let completed = Symbol::Rule(self.productions[state.production].rule);
                    let before = if state.origin == here { &set } else { &reading.sets[state.origin] };
                    let waiting = before.iter().filter(|waiting| self.next_symbol(waiting) == Some(completed));
                    further.extend(waiting.map(|waiting| State { dot: waiting.dot + 1, ..*waiting }));
                }
            }
            for state in further {
                if known.insert(state) {
                    set.push(state);
                }
            }
        }
        reading.sets.push(set);
    }
}

/// The rules that derive nothing, found by going over all productions until nothing is added.
fn empty_rules(productions: &[Production], rules: usize) -> Vec<bool> {
    let mut empty = vec![false; rules];
    loop {
        let before = empty.clone();
        for production in productions {
            let all_empty =
                production.symbols.iter().all(|symbol| matches!(symbol, Symbol::Rule(rule) if empty[*rule]));
            empty[production.rule] |= all_empty;
        }
        if empty == before {
            return empty;
        }
    }
}

/// Makes productions out of the grammar.
struct GrammarReader<'a> {
    words: Vec<&'a str>,
    at: usize,
    /// Rule numbers by name; the rules for `{ }` and `[ ]` have none.
    numbers: HashMap<String, usize>,
    productions: Vec<Production>,
}

impl GrammarReader<'_> {
    fn rules(&mut self) {
        while self.at < self.words.len() {
            let rule = self.rule(self.words[self.at]);
            assert_eq!(self.words[self.at + 1], "=");
            self.at += 2;
            self.alternatives(rule, false);
        }
    }

    fn rule(&mut self, name: &str) -> usize {
        let next = self.numbers.len();
        *self.numbers.entry(name.to_string()).or_insert(next)
    }

    fn new_rule(&mut self) -> usize {
        let name = format!("{} inside {}", self.numbers.len(), self.words[self.at]);
        self.rule(&name)
    }

    /// Reads up to a closing bracket or the next rule and makes a production of each alternative, behind the rule itself
    /// if it is repeated.
    fn alternatives(&mut self, rule: usize, repeated: bool) {
        let front = if repeated { vec![Symbol::Rule(rule)] } else { Vec::new() };
        let mut symbols = front.clone();
        while self.at < self.words.len() {
            let word = self.words[self.at];
            let begins_rule = self.words.get(self.at + 1) == Some(&"=");
            if begins_rule || word == "}" || word == "]" {
                break;
            }
            self.at += 1;
            match word {
                "|" => {
                    self.productions.push(Production { rule, symbols: std::mem::replace(&mut symbols, front.clone()) });
                }
                "{" | "[" => {
                    let inner = self.new_rule();
                    self.productions.push(Production { rule: inner, symbols: Vec::new() });
                    self.alternatives(inner, word == "{");
                    self.at += 1;
                    symbols.push(Symbol::Rule(inner));
                }
                _ => symbols.push(self.symbol(word)),
            }
        }
        self.productions.push(Production { rule, symbols });
    }

    fn symbol(&mut self, word: &str) -> Symbol {
        if let Some((_, kind)) = RESERVED.iter().chain(&SIGNS).find(|(spelled, _)| *spelled == word) {
            return Symbol::Terminal(*kind);
        }
        match word {
            "name" => Symbol::Terminal(Kind::Name),
            "number" => Symbol::Terminal(Kind::Number),
            // The sign = stands in the grammar between a rule and what it is, so as a token it has a word.
            "BARE_EQUALS" => Symbol::Terminal(Kind::Equal),
            rule => Symbol::Rule(self.rule(rule)),
        }
    }
}
