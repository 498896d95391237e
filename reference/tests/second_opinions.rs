//! The translator against the second opinions: refusal 4 against a general recognizer of the grammar, refusals 5 to 13
//! against the rules as sets, lines and columns against a list of where lines begin. Each test prints how many comparisons
//! it has made.

mod helpers;
use helpers::*;
use reference::earley::Recognizer;
use reference::gen;
use reference::grammar::program_nested_to;
use reference::random::Random;
use reference::rules::{broken, too_deep};
use reference::spot::Spot;
use reference::token::{tokens, Kind, Token, RESERVED, SIGNS, TEXT_LIMIT};
use reference::translate::Answer;

/// All kinds of tokens.
fn kinds() -> Vec<Kind> {
    let spelled = RESERVED.iter().chain(&SIGNS).map(|(_, kind)| *kind);
    spelled.chain([Kind::Name, Kind::Number]).collect()
}

/// Tokens of these kinds with places 0, 1, 2, ... and the end of the text behind them.
fn made_of(kinds: &[Kind]) -> Vec<Token> {
    let all = kinds.iter().copied().chain([Kind::TextEnd]);
    all.enumerate()
        .map(|(place, kind)| Token { kind, spot: Spot::START.along(place), value: 0, name: [0; 10] })
        .collect()
}

/// Where the reader of the grammar, with no limit on nesting, gives refusal 4.
fn place_of_4(tokens: &[Token]) -> Option<usize> {
    match program_nested_to(tokens, usize::MAX) {
        Ok(_) => None,
        Err(refusal) => {
            assert_eq!(refusal.number, 4);
            Some(refusal.spot.place)
        }
    }
}

/// Every kind of token behind a beginning of a program: the recognizer and the reader agree on which of them fit.
/// Gives those that fit and do not end the text.
fn compare_next(
    recognizer: &Recognizer,
    reading: &reference::earley::Reading,
    kinds_before: &mut Vec<Kind>,
) -> Vec<Kind> {
    let mut fitting = Vec::new();
    for kind in kinds() {
        let fits = recognizer.read(&mut reading.clone(), kind);
        kinds_before.push(kind);
        let place = place_of_4(&made_of(kinds_before));
        let at = kinds_before.len() - 1;
        assert_eq!(fits, place.is_none_or(|place| place > at), "{kinds_before:?}");
        kinds_before.pop();
        if fits && kind != Kind::At {
            fitting.push(kind);
        }
    }
    fitting
}

#[test]
fn refusal_4_on_all_short_token_strings() {
    let recognizer = Recognizer::new();
    let mut compared = 0;
    let mut beginnings = vec![(recognizer.begin(), Vec::new())];
    for _ in 0..9 {
        let mut longer = Vec::new();
        for (reading, mut before) in beginnings {
            compared += kinds().len();
            for kind in compare_next(&recognizer, &reading, &mut before) {
                let mut next = reading.clone();
                assert!(recognizer.read(&mut next, kind));
                longer.push((next, [before.as_slice(), &[kind]].concat()));
            }
        }
        beginnings = longer;
        if beginnings.len() > 10_000 {
            break;
        }
    }
    println!("refusal 4, all token strings up to {} tokens: {compared} comparisons", beginnings[0].1.len());
    assert!(beginnings[0].1.len() >= 6);
}

#[test]
fn refusal_4_on_random_beginnings() {
    let recognizer = Recognizer::new();
    let mut compared = 0;
    for number in 0..600 {
        let mut random = Random::new(4, number);
        let mut reading = recognizer.begin();
        let mut before = Vec::new();
        while before.len() < 45 {
            let fitting = compare_next(&recognizer, &reading, &mut before);
            compared += kinds().len();
            let Some(&next) = random.pick(&fitting) else { break };
            assert!(recognizer.read(&mut reading, next));
            before.push(next);
        }
    }
    println!("refusal 4, random beginnings of programs with every next token: {compared} comparisons");
    assert!(compared > 300_000);
}

#[test]
fn refusal_4_on_generated_texts() {
    let recognizer = Recognizer::new();
    let (mut compared, mut refused) = (0, 0);
    for number in 0..60_000 {
        let text = gen::case(44, number);
        if text.len() > TEXT_LIMIT {
            continue;
        }
        let Ok(tokens) = tokens(&text) else { continue };
        if tokens.len() > 500 {
            continue;
        }
        let unfit = recognizer.first_unfit(tokens.iter().map(|token| token.kind)).map(|at| tokens[at].spot.place);
        assert_eq!(place_of_4(&tokens), unfit, "{}", show(&text));
        compared += 1;
        refused += usize::from(unfit.is_some());
    }
    println!("refusal 4, generated texts: {compared} comparisons, {refused} of them refused");
    assert!(compared > 50_000 && refused > 5_000);
}

#[test]
fn refusals_5_to_13_on_generated_texts() {
    let mut compared = 0;
    let mut by_number = [0; 17];
    for number in 0..120_000 {
        let text = gen::case(613, number);
        if text.len() > TEXT_LIMIT {
            continue;
        }
        let Ok(tokens) = tokens(&text) else { continue };
        let limit = if number % 10 == 0 { 1200 } else { 250 };
        if tokens.len() > limit || place_of_4(&tokens).is_some() {
            continue;
        }
        let answer = verdict(&text);
        let opinion = match too_deep(&tokens) {
            Some(place) => Some((5, place)),
            None => broken(&tokens).first().map(|&(place, number)| (number, place)),
        };
        match opinion {
            Some(opinion) => assert_eq!(answer, opinion, "{}", show(&text)),
            None => assert!(answer.0 == 0 || answer.0 > 13, "{answer:?}: {}", show(&text)),
        }
        compared += 1;
        by_number[answer.0 as usize] += 1;
    }
    println!("refusals 5 to 13, generated texts: {compared} comparisons, by number {by_number:?}");
    assert!(compared > 60_000);
    assert!(by_number[5..=13].iter().all(|&count| count >= 50), "{by_number:?}");
}

#[test]
fn refusals_6_to_13_when_many_rules_are_broken() {
    let mut compared = 0;
    for number in 0..60_000 {
        let text = gen::careless_text(&mut Random::new(6, number));
        let tokens = tokens(&text).expect("a careless text is still one of tokens");
        if tokens.len() > 250 {
            continue;
        }
        assert_eq!(place_of_4(&tokens), None, "{}", show(&text));
        let answer = verdict(&text);
        match broken(&tokens).first() {
            Some(&(place, number)) => assert_eq!(answer, (number, place), "{}", show(&text)),
            None => assert!(answer.0 == 0 || answer.0 > 13, "{answer:?}: {}", show(&text)),
        }
        compared += 1;
    }
    println!("refusals 6 to 13, careless texts: {compared} comparisons");
    assert!(compared > 40_000);
}

/// Where each line begins: at the start, and behind every byte 10.
fn line_starts(text: &[u8]) -> Vec<usize> {
    let behind = text.iter().enumerate().filter(|(_, &byte)| byte == 10).map(|(at, _)| at + 1);
    [0].into_iter().chain(behind).collect()
}

fn in_lines(starts: &[usize], place: usize) -> Spot {
    let line = starts.partition_point(|&start| start <= place);
    Spot { place, line, column: place - starts[line - 1] + 1 }
}

/// The tokens of a text, up to what is refused by 2 or 3 if anything is.
fn tokens_read(text: &[u8]) -> Vec<Token> {
    match tokens(text) {
        Ok(tokens) => tokens,
        Err(refusal) => tokens(&text[..refusal.spot.place]).expect("the first refusal"),
    }
}

#[test]
fn lines_and_columns_on_generated_texts() {
    let (mut answers, mut read, mut on_later_lines) = (0, 0, 0);
    for number in 0..60_000 {
        let text = gen::case(213, number);
        let starts = line_starts(&text);
        let Answer { number, spot, .. } = answer(&text);
        let opinion = match number {
            2..=13 => in_lines(&starts, spot.place),
            _ => Spot { place: spot.place, line: 0, column: 0 },
        };
        assert_eq!(spot, opinion, "{}", show(&text));
        answers += 1;
        for token in tokens_read(&text) {
            assert_eq!(token.spot, in_lines(&starts, token.spot.place), "{}", show(&text));
            read += 1;
            on_later_lines += usize::from(token.spot.line > 1);
        }
    }
    println!("lines and columns: {answers} answers, {read} tokens, {on_later_lines} of them on later lines");
    assert!(on_later_lines > read / 3);
}
