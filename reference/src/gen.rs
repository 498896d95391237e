//! Generated source texts: right ones, careless ones, ones at the limits, and mutated ones, so that every refusal that
//! a text can have comes up, each at least once in 200 texts, and at least a third of the texts are accepted.

use crate::build::{type_words, Builder};
use crate::functions::{Takes, FUNCTIONS};
use crate::grammar::Type;
use crate::layout::next_multiple;
use crate::random::Random;
use crate::spell::{any_value, ended_by_margin, number, number_out_of_range, set_in_lines, text};
use crate::token::{RESERVED, SIGNS, TEXT_LIMIT};

/// The text with this number under the seed.
pub fn case(seed: u64, number: u64) -> Vec<u8> {
    any_text(&mut Random::new(seed, number))
}

fn any_text(random: &mut Random) -> Vec<u8> {
    if random.chance(1, 10) {
        return rows(random);
    }
    if random.chance(1, 12) {
        return cases(random);
    }
    match random.below(1000) {
        0..=314 => right_text(random),
        315..=339 => cut_short(random),
        340..=349 => carriage_returns(random),
        350..=579 => careless_text(random),
        580..=719 => mutated_tokens(random),
        720..=779 => mutated_bytes(random),
        780..=789 => source_length(random),
        790..=804 => nesting(random),
        805..=819 => many_names(random),
        820..=834 => many_labels(random),
        835..=854 => full_segment(random),
        855..=874 => long_program(random),
        875..=889 => many_literals(random),
        890..=904 => twice(random),
        905..=919 => bad_number(random),
        920..=934 => bad_byte(random),
        935..=969 => protected(random),
        970..=979 => tiny(random),
        _ => token_soup(random),
    }
}

/// How many statements a program may have: mostly few.
fn size(random: &mut Random) -> usize {
    match random.below(20) {
        0 => random.range(40, 90),
        1..=7 => random.range(15, 40),
        _ => random.range(2, 20),
    }
}

fn right_tokens(random: &mut Random) -> Vec<String> {
    let statements = size(random);
    let mut builder = Builder::new(random, statements, 0);
    builder.program(|_| {});
    builder.tokens
}

/// A text that is accepted.
pub fn right_text(random: &mut Random) -> Vec<u8> {
    let tokens = right_tokens(random);
    text(random, &tokens)
}

/// An accepted text of about `length` bytes, up to 32,000, with code in proportion, to measure speed on.
pub fn sized_text(random: &mut Random, length: usize) -> Vec<u8> {
    const CODE_ROOM: usize = 3800;
    const LITERAL_ROOM: usize = 250;
    let mut builder = Builder::new(random, 1, 0);
    builder.program(|builder| {
        let mut written = 0;
        let mut counted = 0;
        while written + 100 < length {
            let in_proportion = builder.length * 32_000 <= CODE_ROOM * written.max(100);
            if in_proportion && builder.literals.len() < LITERAL_ROOM {
                builder.small_statement();
            } else {
                builder.put("COMMENT A LINE THAT TELLS WHAT HAPPENS HERE AND WHY IT DOES;");
            }
            written += builder.tokens[counted..].iter().map(|token| token.len() + 1).sum::<usize>();
            counted = builder.tokens.len();
        }
    });
    let tokens = builder.tokens;
    set_in_lines(&tokens)
}

/// A text by a builder that leaves rules aside.
pub fn careless_text(random: &mut Random) -> Vec<u8> {
    let statements = size(random);
    let careless = *random.of(&[10, 25, 60, 150]);
    let mut builder = Builder::new(random, statements, careless);
    builder.program(|_| {});
    let tokens = builder.tokens;
    text(random, &tokens)
}

/// A text with some tokens taken away, doubled, exchanged or replaced.
pub fn mutated_tokens(random: &mut Random) -> Vec<u8> {
    let mut tokens = right_tokens(random);
    let changes = *random.of(&[1, 1, 1, 2, 3]);
    let by_kind = random.chance(2, 3);
    for _ in 0..changes {
        if by_kind {
            replace_alike(random, &mut tokens);
        } else {
            disturb(random, &mut tokens);
        }
    }
    text(random, &tokens)
}

fn is_name(token: &str) -> bool {
    token.starts_with(|first: char| first.is_ascii_uppercase()) && RESERVED.iter().all(|(word, _)| *word != token)
}

fn is_number(token: &str) -> bool {
    token.starts_with(|first: char| first.is_ascii_digit() || first == '_' || first == '#')
}

const OPERATORS: [&str; 12] = ["+", "-", "*", "++", "--", "AND", "OR", "XOR", "SHLL", "SHRL", "SHLA", "SHRA"];
const RELATIONS: [&str; 6] = ["=", "^=", "<", "<=", ">=", ">"];
const TYPES: [&str; 4] = ["INTEGER", "LOGICAL", "BYTE", "CHARACTER"];

/// A token in place of another of its kind, so that the text stays a program.
fn replace_alike(random: &mut Random, tokens: &mut [String]) {
    let names: Vec<String> = tokens.iter().filter(|token| is_name(token)).cloned().collect();
    for _ in 0..20 {
        let at = random.below(tokens.len());
        let old = tokens[at].as_str();
        let new = if is_name(old) && random.chance(1, 6) {
            random.of(&FUNCTIONS).name.to_string()
        } else if is_name(old) {
            match random.below(4) {
                0 => format!("R{}", random.of(b"0123456789ABCDEF".map(char::from).as_slice())),
                1 => "UNKNOWN".to_string(),
                _ => random.of(&names).clone(),
            }
        } else if is_number(old) {
            let value = any_value(random);
            number(random, value)
        } else if let Some(list) = [&OPERATORS[..], &RELATIONS, &TYPES].into_iter().find(|list| list.contains(&old)) {
            random.of(list).to_string()
        } else {
            continue;
        };
        tokens[at] = new;
        return;
    }
}

/// Any token of the language.
fn any_token(random: &mut Random) -> String {
    if random.chance(1, 12) {
        return random.of(&FUNCTIONS).name.to_string();
    }
    match random.below(10) {
        0..=1 => random.of(&["A", "R1", "R0", "RE", "P", "L", "X"]).to_string(),
        2 => {
            let value = any_value(random);
            number(random, value)
        }
        3..=6 => random.of(&RESERVED).0.to_string(),
        _ => random.of(&SIGNS).0.to_string(),
    }
}

fn disturb(random: &mut Random, tokens: &mut Vec<String>) {
    let at = random.below(tokens.len());
    match random.below(6) {
        0 => {
            tokens.remove(at);
        }
        1 => {
            let doubled = tokens[at].clone();
            tokens.insert(at, doubled);
        }
        2 => {
            let other = random.below(tokens.len());
            tokens.swap(at, other);
        }
        3 => {
            let token = any_token(random);
            tokens.insert(at, token);
        }
        4 => tokens.truncate(at),
        _ => tokens[at] = any_token(random),
    }
    if tokens.is_empty() {
        tokens.push("@".to_string());
    }
}

/// A text with some bytes changed.
pub fn mutated_bytes(random: &mut Random) -> Vec<u8> {
    let mut text = right_text(random);
    for _ in 0..random.range(1, 3) {
        let at = random.below(text.len());
        let byte = match random.below(3) {
            0 => random.next() as u8,
            _ => *random.of(b"ABRE019_#@:;=<>+-*(), \n^COMMENT"),
        };
        match random.below(4) {
            0 if text.len() > 1 => {
                text.remove(at);
            }
            1 => text.insert(at, byte),
            2 => text.truncate(at + 1),
            _ => text[at] = byte,
        }
    }
    text
}

/// A program that ends early, at times before its first token.
fn cut_short(random: &mut Random) -> Vec<u8> {
    let mut tokens = right_tokens(random);
    let kept = if random.chance(1, 10) { 0 } else { random.below(tokens.len()) };
    tokens.truncate(kept);
    ended_by_margin(random, &tokens)
}

/// A text with byte 13 before its bytes 10, or before one of them.
fn carriage_returns(random: &mut Random) -> Vec<u8> {
    let mut text = right_text(random);
    let newlines: Vec<usize> = (0..text.len()).filter(|&at| text[at] == b'\n').collect();
    let one = random.pick(&newlines).copied();
    let chosen = if random.chance(1, 2) { newlines } else { one.into_iter().collect() };
    chosen.into_iter().rev().for_each(|at| text.insert(at, b'\r'));
    text
}

/// A text of about 32,768 bytes, at the limit or one past it.
fn source_length(random: &mut Random) -> Vec<u8> {
    let mut text = if random.chance(1, 2) { right_text(random) } else { mutated_tokens(random) };
    let length = match random.below(8) {
        0 => TEXT_LIMIT,
        1 => TEXT_LIMIT - 1,
        2 => TEXT_LIMIT + random.range(2, 500),
        _ => TEXT_LIMIT + 1,
    };
    let filling = *random.of(b" \n@;");
    let room = length.saturating_sub(text.len());
    if random.chance(1, 2) {
        text.extend(std::iter::repeat(filling).take(room));
    } else {
        let front = std::iter::repeat(*random.of(b" \n")).take(room);
        text.splice(0..0, front);
    }
    text
}

/// About 64 constructs inside each other.
fn nesting(random: &mut Random) -> Vec<u8> {
    let depth = *random.of(&[63, 64, 65, 65, 65, 66]);
    let mut tokens = vec!["BEGIN".to_string()];
    let mut closing = vec!["END @"];
    let mut may_declare = true;
    for _ in 1..depth {
        let (opening, close, declares) = match random.below(if may_declare { 7 } else { 6 }) {
            0 => ("IF = THEN", "", false),
            1 => ("IF R1 < 5 THEN NULL ELSE", "", false),
            2 => ("WHILE > DO", "", false),
            3 => ("FOR R1 := 1 STEP 1 UNTIL 2 DO", "", false),
            4 => ("BEGIN", "END", true),
            5 => ("CASE R1 OF BEGIN", "END", false),
            _ => ("PROCEDURE P ( R5 ) ;", "", false),
        };
        // A statement directly in a block or in a CASE needs its `;`, so does a procedure.
        let before = closing.last().copied().unwrap_or("");
        if before.starts_with("END") {
            closing.push(";");
        }
        closing.push(close);
        may_declare = declares;
        tokens.extend(opening.split(' ').map(str::to_string));
    }
    let may_be_empty = matches!(closing.last(), Some(close) if close.starts_with("END"));
    if !may_be_empty {
        tokens.push("NULL".to_string());
    }
    for close in closing.iter().rev() {
        tokens.extend(close.split_ascii_whitespace().map(str::to_string));
    }
    if random.chance(1, 4) {
        disturb(random, &mut tokens);
    }
    text(random, &tokens)
}

/// A short name for each number, none of them reserved: no word of the language has a digit.
fn name_of(number: usize) -> String {
    let letter = |number: usize| char::from(b'A' + (number % 26) as u8);
    match number {
        0..=25 => letter(number).to_string(),
        _ => format!("{}{}", letter(number), (number - 26) / 26),
    }
}

/// About 256 declared names, in several blocks or one.
fn many_names(random: &mut Random) -> Vec<u8> {
    let wanted = *random.of(&[255, 256, 257, 257, 257, 258, 300]);
    let mut tokens: Vec<String> = vec!["BEGIN".to_string()];
    let mut blocks = 0;
    let mut fresh = 0;
    let mut declared = 0;
    while declared < wanted {
        let items = random.range(1, 60).min(wanted - declared);
        let kind = random.below(8);
        for item in 0..items {
            let first = item == 0;
            let name = name_of(fresh + item);
            let phrase = match (kind, first) {
                (0, true) => format!("INTEGER REGISTER {name} ( 3 )"),
                (0, false) => format!(", {name} ( 3 )"),
                (1, true) => format!("PROCEDURE {name} ( R5 ) ; NULL"),
                (1, false) => format!("; PROCEDURE {name} ( R5 ) ; NULL"),
                (_, true) => format!("SHORT INTEGER {name}"),
                (_, false) => format!(", {name}"),
            };
            tokens.extend(phrase.split(' ').map(str::to_string));
        }
        tokens.push(";".to_string());
        declared += items;
        fresh += items;
        if random.chance(1, 4) {
            blocks += 1;
            fresh = if random.chance(1, 2) { 0 } else { fresh };
            tokens.push("BEGIN".to_string());
        }
    }
    for _ in 0..blocks {
        tokens.extend(["END".to_string(), ";".to_string()]);
    }
    tokens.extend(["END".to_string(), "@".to_string()]);
    if random.chance(1, 5) {
        replace_alike(random, &mut tokens);
    }
    text(random, &tokens)
}

/// About 256 labels, in several blocks or one.
fn many_labels(random: &mut Random) -> Vec<u8> {
    let wanted = *random.of(&[255, 256, 257, 257, 257, 258, 300]);
    let mut tokens: Vec<String> = vec!["BEGIN".to_string()];
    let mut fresh = 0;
    let mut open = 0;
    for _ in 0..wanted {
        tokens.extend([name_of(fresh), ":".to_string()]);
        fresh += 1;
        if random.chance(1, 20) {
            tokens.push("BEGIN".to_string());
            open += 1;
            fresh = 0;
        } else if random.chance(1, 20) {
            let label = name_of(random.below(fresh));
            tokens.extend(["GOTO".to_string(), label, ";".to_string()]);
        }
    }
    for _ in 0..open {
        tokens.extend(["END".to_string(), ";".to_string()]);
    }
    tokens.extend(["END".to_string(), "@".to_string()]);
    if random.chance(1, 5) {
        replace_alike(random, &mut tokens);
    }
    text(random, &tokens)
}

/// A segment filled to 4,096 bytes, or 2 or 4 bytes past.
fn full_segment(random: &mut Random) -> Vec<u8> {
    let bases = random.below(4);
    let mut tokens: Vec<String> = vec!["BEGIN".to_string()];
    let mut end = 16;
    for register in ["RA", "RB", "RC"].iter().take(bases) {
        tokens.extend(["SEGMENT", "BASE", register, ";"].map(str::to_string));
        end = 0;
    }
    let over = *random.of(&[0, 0, 1, 1, 1]);
    let mut item = 0;
    loop {
        let byte = random.chance(1, 3);
        let of = if byte {
            Type::Byte
        } else if random.chance(1, 2) {
            Type::Short
        } else {
            Type::Integer
        };
        let size = of.size();
        let start = next_multiple(end, size);
        let fitting = (4096 - start.min(4096)) / size;
        let last = item > 5 || random.chance(1, 3);
        let count = if last { fitting + over } else { random.range(1, 700).min(fitting.max(1)) };
        item += 1;
        if count == 0 || count > 2048 {
            if last && count == 0 {
                break;
            }
            continue;
        }
        end = start + size * count;
        let words = type_words(of);
        let phrase = format!("ARRAY ( {count} ) {words} A{item} ;");
        tokens.extend(phrase.split(' ').map(str::to_string));
        if last || end > 4096 {
            break;
        }
    }
    tokens.extend(["END".to_string(), "@".to_string()]);
    text(random, &tokens)
}

/// A program of about 4,096 bytes of code, all but a few of them a CASE of NULLs or a row of operators.
fn long_program(random: &mut Random) -> Vec<u8> {
    let wanted = *random.of(&[4092, 4094, 4096, 4096, 4098, 4098, 4098, 4100, 5000]);
    let statements = size(random);
    let mut builder = Builder::new(random, statements, 0);
    builder.program(|builder| {
        let (first, by) = *builder.random.of(&[("R1", "+R1"), ("R3", "-R2"), ("R8", "XOR R1")]);
        let mut rest = wanted - builder.length.min(wanted);
        if rest > 100 && builder.random.chance(1, 3) {
            let statements = (rest - 22) / 8 - builder.random.below(3);
            rest -= 22 + 8 * statements;
            let phrase = format!("CASE {first} OF BEGIN {} END ;", "NULL ; ".repeat(statements));
            phrase.split_ascii_whitespace().for_each(|token| builder.put(token));
        }
        if rest == 0 {
            return;
        }
        [first, ":=", first].iter().for_each(|token| builder.put(token));
        for _ in 0..rest / 2 - 1 {
            let cut = if by.starts_with("XOR") { 3 } else { 1 };
            builder.put(&by[..cut]);
            builder.put(by[cut..].trim());
        }
        builder.put(";");
    });
    let tokens = builder.tokens;
    text(random, &tokens)
}

/// A segment 1 whose literals end at about 4,096.
fn many_literals(random: &mut Random) -> Vec<u8> {
    let fitting = random.range(0, 9);
    let over = *random.of(&[0, 1, 1, 1, 2]);
    let shorts = random.below(3);
    let cells = 4080 - 4 * fitting - 2 * next_multiple(shorts, 2);
    let mut phrase = format!("BEGIN ARRAY ( {} ) INTEGER A ; ", cells / 4);
    phrase += ["", "SHORT INTEGER S ; ", "SHORT INTEGER S , T ; "][shorts];
    phrase += "R1 := R1 ";
    let mut values: Vec<u32> = (0..(fitting + over) as u32).map(|n| n * 77 + 5).collect();
    let repeated: Vec<u32> = values.iter().take(random.below(3)).copied().collect();
    values.extend(repeated);
    random.shuffle(&mut values);
    for value in values {
        let token = number(random, value);
        let part = match random.below(4) {
            0 if value == 5 || value == 82 => {
                format!("; CASE R2 OF BEGIN {} END ; R1 := R1 ", "NULL ; ".repeat(value as usize))
            }
            0 => format!("; IF R2 < {token} THEN NULL ; R1 := R1 "),
            1 => format!("; FOR R2 := R3 STEP {token} UNTIL R4 DO R6 := R7 ; R1 := R1 "),
            _ => format!("{} {token} ", random.of(&["+", "-", "++", "AND", "*"])),
        };
        phrase += &part;
    }
    phrase += "; END @";
    let tokens: Vec<String> = phrase.split_ascii_whitespace().map(str::to_string).collect();
    text(random, &tokens)
}

/// A name declared or a label set a second time.
fn twice(random: &mut Random) -> Vec<u8> {
    let mut tokens = right_tokens(random);
    let label = random.chance(1, 2);
    let names = ["A", "R1", "LOOPSTARTS", "LOOPSTARTSX", "P"];
    let (one, two) = (*random.of(&names), *random.of(&names));
    let phrase = if label {
        format!("{one} : {two} :")
    } else {
        let further = match random.below(3) {
            0 => format!("INTEGER REGISTER {two} ( 7 )"),
            1 => format!("PROCEDURE {two} ( R8 ) ; NULL"),
            _ => format!("ARRAY ( 3 ) INTEGER {two}"),
        };
        format!("BEGIN SHORT INTEGER {one} , V ; {further} ; END ;")
    };
    // Behind the last statement of the program, before its END and `@`.
    let at = tokens.len() - 2;
    tokens.splice(at..at, phrase.split(' ').map(str::to_string));
    text(random, &tokens)
}

/// A number out of range somewhere.
fn bad_number(random: &mut Random) -> Vec<u8> {
    let mut tokens = if random.chance(3, 4) { right_tokens(random) } else { vec!["END".to_string()] };
    let numbers: Vec<usize> = (0..tokens.len()).filter(|&at| is_number(&tokens[at])).collect();
    let bad = number_out_of_range(random);
    match random.pick(&numbers) {
        Some(&at) => tokens[at] = bad,
        None => {
            let at = random.below(tokens.len());
            tokens.insert(at, bad);
        }
    }
    text(random, &tokens)
}

/// A byte in no token somewhere, or a comment without an end.
fn bad_byte(random: &mut Random) -> Vec<u8> {
    let mut text = right_text(random);
    let at = random.below(text.len());
    match random.below(3) {
        0 => text.splice(at..at, b" COMMENT ".iter().copied()).for_each(drop),
        1 => text.insert(at, *random.of(b"\t\r\0a?!/&.%_#^\"\x7F\x80\xFF")),
        _ => text.insert(at, random.next() as u8),
    }
    text
}

const FEW_REGISTERS: [&str; 8] = ["R3", "R4", "R5", "R6", "R7", "R8", "RB", "RC"];

/// Procedures that write or return by few registers, and calls among them.
fn protected(random: &mut Random) -> Vec<u8> {
    let mut phrase = "BEGIN BYTE B ; ".to_string();
    let procedures = random.range(2, 5);
    for procedure in 0..procedures {
        let own = *random.of(&FEW_REGISTERS);
        let body = written_somehow(random, procedure, 3);
        phrase += &format!("PROCEDURE P{procedure} ( {own} ) ; {body} ; ");
    }
    if random.chance(1, 2) {
        phrase += &format!("SEGMENT BASE {} ; ", random.of(&FEW_REGISTERS));
    }
    phrase += &format!("P{} ; END @", random.below(procedures));
    let tokens: Vec<String> = phrase.split_ascii_whitespace().map(str::to_string).collect();
    text(random, &tokens)
}

/// A statement that writes registers in one of the ways in which a text can, `depth` procedures deep, called or not; P0
/// up to the `callable`th may be called.
fn written_somehow(random: &mut Random, callable: usize, depth: usize) -> String {
    let register = *random.of(&FEW_REGISTERS);
    if random.chance(1, 4) {
        let (name, second) = *random.of(&[("IC", "B"), ("LA", "B"), ("LTR", "R1"), ("STC", "B"), ("LTR", "RE")]);
        return format!("{name} ( {register} ) ( {second} )");
    }
    match random.below(12) {
        11 if depth > 0 => {
            let parts: Vec<String> =
                (0..random.below(3)).map(|_| written_somehow(random, callable, depth - 1)).collect();
            let list: String = parts.iter().map(|part| format!("{part} ; ")).collect();
            format!("CASE {register} OF BEGIN {list}END")
        }
        0 => format!("{register} := R1"),
        1 => format!("BEGIN SEGMENT BASE {register} ; END"),
        2 => "R7 := R1 * R2".to_string(),
        3 => format!("FOR {register} := R1 STEP 1 UNTIL R2 DO NULL"),
        4 => "BEGIN GOTO L ; R6 := R1 ; L : END".to_string(),
        5..=6 if depth > 0 => {
            let body = written_somehow(random, callable, depth - 1);
            let call = if random.chance(1, 2) { "N ;" } else { "" };
            format!("BEGIN PROCEDURE N ( {register} ) ; {body} ; {call} END")
        }
        7..=8 if callable > 0 => format!("P{}", random.below(callable)),
        9 if depth > 0 => {
            let parts: Vec<String> = (0..3).map(|_| written_somehow(random, callable, depth - 1)).collect();
            format!("BEGIN {} ; END", parts.join(" ; "))
        }
        _ => "NULL".to_string(),
    }
}

/// What stands before statements that begin with a name and a parenthesis; at times a function is hidden.
const BEFORE_ROWS: &str = "BEGIN ARRAY ( 8 ) BYTE A ; BYTE B , F ; INTEGER I ; ARRAY ( 4 ) INTEGER W ; \
    ARRAY ( 4 ) SHORT INTEGER H ; INTEGER REGISTER Z ( 0 ) , E ( 14 ) ; PROCEDURE P ( R5 ) ; NULL ;";
const HIDDEN: [&str; 5] = ["", "", "BYTE SET ;", "INTEGER REGISTER LTR ( 3 ) ;", "PROCEDURE IC ( R7 ) ; NULL ;"];

/// What a parenthesis may hold, right for some function or for none.
const IN_PARENTHESES: &str = "R1|R2|R5|RE|RF|Z|E|5|0|255|256|_1|#FF|A|A ( 4 )|A ( R1 )|A ( 4 ) ( R2 )|\
    A ( 8 )|A ( R0 )|A ( X )|B|F|I|W ( 4 )|W ( 2 )|H ( 6 ) ( R3 )|B ( R1 )|P|IC|X";

/// What nearly fits where a cell belongs.
const NEARLY_CELLS: &str =
    "A|A ( 7 )|A ( 8 )|A ( _1 )|A ( R1 )|A ( 4 ) ( R2 )|A ( R0 )|A ( Z )|A ( X )|B|B ( 0 )|B ( R1 )|\
    W ( 2 )|W ( 4 ) ( R1 )|H ( 6 )|H ( 8 )|R1|X|P|LA";

/// One of the parts of a list with bars between them.
fn one_of<'a>(random: &mut Random, list: &'a str) -> &'a str {
    let parts: Vec<&str> = list.split('|').collect();
    *random.of(&parts)
}

/// Statements that begin with a name and a row of parentheses: uses of functions and assignments, right, nearly right, and
/// what is neither.
pub fn rows(random: &mut Random) -> Vec<u8> {
    let mut phrase = format!("{BEFORE_ROWS} {} ", random.of(&HIDDEN));
    for _ in 0..random.range(1, 4) {
        phrase += &match random.below(6) {
            0..=2 => right_row(random),
            3..=4 => near_row(random),
            _ => any_row(random),
        };
    }
    phrase += "END @";
    let mut tokens: Vec<String> = phrase.split_ascii_whitespace().map(str::to_string).collect();
    match random.below(8) {
        0 => disturb(random, &mut tokens),
        1 => replace_alike(random, &mut tokens),
        _ => {}
    }
    text(random, &tokens)
}

fn right_row(random: &mut Random) -> String {
    let register = *random.of(&["R1", "R2", "R9", "Z"]);
    let cell = *random.of(&["A", "A ( 7 )", "B", "I", "W ( 4 )", "H ( 2 )", "F"]);
    let indexed = *random.of(&["A ( R1 )", "A ( 3 ) ( R2 )", "W ( RE )", "H ( 6 ) ( R3 )", cell]);
    let value = random.below(256);
    match random.below(9) {
        0 => format!("IC ( {register} ) ( {indexed} ) ; "),
        1 => format!("STC ( {register} ) ( {indexed} ) ; "),
        2 => format!("LA ( {register} ) ( {indexed} ) ; "),
        3 => format!("LTR ( {register} ) ( R4 ) ; "),
        4 => format!("MVI ( {value} ) ( {cell} ) ; "),
        5 => format!("CLI ( {value} ) ( {cell} ) ; "),
        6 => format!("{} ( {cell} ) ; ", random.of(&["SET", "RESET", "TEST"])),
        7 => format!("{} := {register} ; ", random.of(&["W ( 8 )", "W ( R1 )", "H ( 2 ) ( R3 )", "I"])),
        _ => "P ; ".to_string(),
    }
}

/// The use of a function with arguments of the right sort, in which something may be wrong all the same.
fn near_row(random: &mut Random) -> String {
    let function = random.of(&FUNCTIONS);
    let register = *random.of(&["R1", "R2", "RE", "RF", "E", "Z", "X", "I", "5", "R1 ( 4 )"]);
    let value = *random.of(&["0", "255", "256", "_1", "#FF", "R1", "B"]);
    let cell = one_of(random, NEARLY_CELLS);
    let name = function.name;
    match function.takes {
        Takes::RegisterAndCell => format!("{name} ( {register} ) ( {cell} ) ; "),
        Takes::TwoRegisters => format!("{name} ( {register} ) ( {} ) ; ", random.of(&["R1", "RE", "X", "B"])),
        Takes::NumberAndCell => format!("{name} ( {value} ) ( {cell} ) ; "),
        Takes::Cell(_) => format!("{name} ( {cell} ) ; "),
    }
}

fn any_row(random: &mut Random) -> String {
    let mut row = match random.below(3) {
        0 => random.of(&["A", "B", "W", "H", "P", "R1", "X", "L"]).to_string(),
        _ => random.of(&FUNCTIONS).name.to_string(),
    };
    for _ in 0..random.below(4) {
        row += &format!(" ( {} )", one_of(random, IN_PARENTHESES));
    }
    let behind = one_of(random, ";|;|;|;|:= R1 ;|:= 5 ;|:= R1 + R2 ;|:|+ R1 ;|( ) ;|, R1 ;|R1 ;");
    format!("{row} {behind} ")
}

/// Accepted texts in which CASE stands at many places, inside all constructs and around all.
pub fn right_cases(random: &mut Random) -> Vec<u8> {
    let tokens = tokens_with_cases(random, 0);
    text(random, &tokens)
}

fn tokens_with_cases(random: &mut Random, careless: usize) -> Vec<String> {
    let statements = size(random);
    let at_the_end = random.below(3);
    let mut builder = Builder::new(random, statements, careless).with_cases(40);
    builder.program(|builder| (0..at_the_end).for_each(|_| builder.case_statement()));
    builder.tokens
}

/// What stands before CASE statements that are nearly right.
const BEFORE_CASES: &str = "BEGIN INTEGER I ; ARRAY ( 4 ) BYTE A ; INTEGER REGISTER Z ( 0 ) , E ( 14 ) , Q ( 3 ) ; \
    PROCEDURE P ( R5 ) ; CASE R7 OF BEGIN NULL ; END ;";

/// What may stand where the case register belongs: one that fits, one that is protected there, 0, what is no register, no name.
const NEARLY_REGISTERS: &str = "R1|R1|R2|R9|RD|Q|R0|Z|RE|RF|E|R5|R7|RC|I|A|P|LTR|IC|X|5|_1|A ( 1 )|R1 ( 4 )|A ( R1 )";

/// What may stand in a CASE: statements of every sort, and what is none.
const IN_CASES: &str = "NULL|NULL|R1 := R2|R2 := 7|Q := Q + 1|P|I := R1|SET ( A )|IC ( R1 ) ( A ( R2 ) )|BEGIN END|\
    BEGIN NULL ; NULL ; END|BEGIN INTEGER B ; L : B := R1 ; END|GOTO L|IF = THEN NULL ELSE R3 := 1|IF R1 < 5 THEN P|\
    WHILE < DO NULL|FOR R2 := 1 STEP 1 UNTIL 2 DO NULL|X|RE := 1|P ( R1 )";

const NO_STATEMENTS: &str =
    "L : NULL|INTEGER B|SEGMENT BASE RB|PROCEDURE N ( R6 ) ; NULL|NULL NULL|; NULL|END|ELSE NULL|5|OF|CASE";

/// A CASE of any register and statements, `depth` deep.
fn near_case(random: &mut Random, depth: usize) -> String {
    let mut list = String::new();
    for _ in 0..random.below(4) {
        let statement = match random.below(20) {
            0..=3 if depth > 0 => near_case(random, depth - 1),
            4 if depth > 0 => format!("IF = THEN {} ELSE NULL", near_case(random, depth - 1)),
            5 if depth > 0 => format!("WHILE > DO {}", near_case(random, depth - 1)),
            6 if random.chance(1, 8) => one_of(random, NO_STATEMENTS).to_string(),
            _ => one_of(random, IN_CASES).to_string(),
        };
        list += &statement;
        list += if random.chance(1, 60) { " " } else { " ; " };
    }
    let register =
        if random.chance(2, 3) { *random.of(&["R1", "R2", "R9", "Q"]) } else { one_of(random, NEARLY_REGISTERS) };
    let (of, begin, end) = match random.below(60) {
        0 => ("", "BEGIN", "END"),
        1 => ("OF", "", "END"),
        2 => ("DO", "BEGIN", "END"),
        3 => ("OF", "BEGIN", ""),
        4 => ("OF OF", "BEGIN", "END"),
        _ => ("OF", "BEGIN", "END"),
    };
    format!("CASE {register} {of} {begin} {list}{end}")
}

/// Texts of CASE statements: right, careless and nearly right ones, in blocks, in procedures that write through calls, behind bases,
/// and what is no CASE.
pub fn cases(random: &mut Random) -> Vec<u8> {
    let mut tokens = match random.below(8) {
        0..=2 => tokens_with_cases(random, 0),
        3 => tokens_with_cases(random, 60),
        _ => {
            let mut phrase = format!("{BEFORE_CASES} ");
            match random.below(4) {
                0 => phrase += &format!("PROCEDURE S ( R{:X} ) ; {} ; ", random.range(5, 8), near_case(random, 1)),
                1 => phrase += &format!("SEGMENT BASE {} ; ", random.of(&["RC", "R7"])),
                _ => {}
            }
            for _ in 0..random.range(1, 3) {
                phrase += &format!("{} ; ", near_case(random, 2));
            }
            phrase += *random.of(&["L : END @", "L : P ; END @", "END @"]);
            phrase.split_ascii_whitespace().map(str::to_string).collect()
        }
    };
    match random.below(10) {
        0 => disturb(random, &mut tokens),
        1 => replace_alike(random, &mut tokens),
        _ => {}
    }
    text(random, &tokens)
}

/// A few bytes only.
fn tiny(random: &mut Random) -> Vec<u8> {
    let mut text = Vec::new();
    for _ in 0..random.below(6) {
        match random.below(4) {
            0 => text.push(random.next() as u8),
            1 => text.extend(random.of(&SIGNS).0.as_bytes()),
            2 => text.extend(random.of(&RESERVED).0.as_bytes()),
            _ => {
                let few = ["BEGIN ", "END ", "@", " ", "COMMENT", "COMMENT;", "COMMENT\n;", "\n", "\n ", "\r\n", "R1"];
                text.extend(random.of(&few).as_bytes());
            }
        }
    }
    text
}

/// Tokens in any order, behind a beginning that is right.
fn token_soup(random: &mut Random) -> Vec<u8> {
    let mut tokens = right_tokens(random);
    let kept = random.range(0, tokens.len());
    tokens.truncate(kept);
    for _ in 0..random.range(1, 5) {
        tokens.push(any_token(random));
    }
    text(random, &tokens)
}
