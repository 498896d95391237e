//! Generated texts: what they are made of, how they are answered, and that nothing panics on any of them.

mod helpers;
use helpers::*;
use reference::build::Builder;
use reference::gen;
use reference::random::Random;
use reference::spell;
use reference::spot::Spot;
use reference::token::{tokens, Kind, RESERVED, SIGNS};
use reference::translate::{translate, Answer};
use reference::vectors;
use std::collections::{BTreeMap, BTreeSet, HashSet};

#[test]
fn what_is_right_by_construction_is_accepted_with_the_length_and_literals_that_were_counted() {
    for number in 0..20_000 {
        let mut random = Random::new(1, number);
        let statements = random.range(1, 40);
        let mut builder = Builder::new(&mut random, statements, 0);
        builder.program(|_| {});
        let (tokens, length, literals, ends) = (builder.tokens, builder.length, builder.literals, builder.ends);
        let text = spell::text(&mut random, &tokens);
        let answer = answer(&text);
        assert_eq!((answer.number, answer.spot), (0, Spot::NONE), "{}", show(&text));
        assert_eq!(segment(&answer.object, 0).len(), length, "{}", show(&text));
        let cells_end = if literals.is_empty() { ends[1] } else { ends[1].next_multiple_of(4) };
        assert_eq!(segment(&answer.object, 1).len(), cells_end + 4 * literals.len(), "{}", show(&text));
    }
}

#[test]
fn a_seed_gives_the_same_texts_and_another_seed_others() {
    let texts = |seed| (0..500).map(|number| gen::case(seed, number)).collect::<Vec<_>>();
    assert_eq!(texts(7), texts(7));
    let all: HashSet<Vec<u8>> = texts(7).into_iter().chain(texts(8)).collect();
    assert!(all.len() > 900);
}

#[test]
fn every_refusal_comes_up_once_in_200_and_a_third_is_accepted() {
    const COUNT: usize = 40_000;
    let mut answers = [0; 17];
    for number in 0..COUNT {
        let text = gen::case(2, number as u64);
        let answer = translate(&text, None);
        answers[answer.number as usize] += 1;
        if answer.number == 0 {
            let needed = answer.object.len();
            let room = [needed, needed - 1, needed / 3][number % 3];
            answers[16] += usize::from(translate(&text, Some(room)).number == 16);
        }
    }
    println!("{answers:?}");
    assert!(answers[0] >= COUNT / 3, "{answers:?}");
    assert!(answers.iter().all(|&count| count >= COUNT / 200), "{answers:?}");
}

/// Lines and columns are tried well: every refusal that reports them on later lines in later columns, and 4 at the end of a text
/// behind a newline, blanks behind one, and a comment behind one.
#[test]
fn every_refusal_that_has_a_line_stands_on_later_ones() {
    const COUNT: usize = 40_000;
    let mut later = [0; 17];
    let (mut behind_newline, mut behind_blanks, mut behind_comment) = (0, 0, 0);
    for number in 0..COUNT {
        let text = gen::case(22, number as u64);
        let Answer { number, spot, .. } = translate(&text, None);
        later[number as usize] += usize::from(spot.line > 1 && spot.column > 1);
        if number == 4 && spot.place == text.len() && spot.line > 1 {
            behind_newline += usize::from(text.ends_with(b"\n"));
            behind_blanks += usize::from(text.ends_with(b" "));
            behind_comment += usize::from(text.ends_with(b";"));
        }
    }
    println!("{later:?}, 4 at the end: {behind_newline} {behind_blanks} {behind_comment}");
    assert!(later[2..=13].iter().all(|&count| count >= COUNT / 400), "{later:?}");
    let at_the_end = [behind_newline, behind_blanks, behind_comment];
    assert!(at_the_end.iter().all(|&count| count >= COUNT / 400), "{at_the_end:?}");
}

#[test]
fn accepted_texts_use_every_token_and_every_opcode_in_every_form() {
    let mut kinds = HashSet::new();
    let mut opcodes: BTreeMap<u8, BTreeSet<u8>> = BTreeMap::new();
    for number in 0..20_000 {
        let text = gen::case(3, number);
        let answer = answer(&text);
        if answer.number == 0 {
            kinds.extend(tokens(&text).expect("accepted").iter().map(|token| token.kind));
            for instruction in instructions(&segment(&answer.object, 0)) {
                let base = if instruction.len() == 4 { instruction[2] / 16 } else { 0 };
                opcodes.entry(instruction[0]).or_default().insert(base);
            }
        }
    }
    for (word, kind) in RESERVED.iter().chain(&SIGNS) {
        assert!(kinds.contains(kind), "{word}");
    }
    assert!(kinds.contains(&Kind::Name) && kinds.contains(&Kind::Number));
    let seen: Vec<u8> = opcodes.keys().copied().collect();
    assert_eq!(seen, LISTED);
    // Storage is reached through base 14 and through those of base declarations.
    let in_storage = |opcode: &u8| matches!(opcode, 0x40..=0x44 | 0x48..=0x5F | 0x90..);
    for opcode in seen.into_iter().filter(in_storage) {
        assert!(opcodes[&opcode].contains(&14) && opcodes[&opcode].len() > 3, "{opcode:02X} {:?}", opcodes[&opcode]);
    }
}

/// All opcodes of the papers.
const LISTED: [u8; 44] = [
    0x07, 0x0A, 0x10, 0x11, 0x12, 0x13, 0x14, 0x16, 0x17, 0x18, 0x19, 0x1A, 0x1B, 0x1C, 0x1E, 0x1F, 0x40, 0x41, 0x42,
    0x43, 0x45, 0x47, 0x48, 0x49, 0x4A, 0x4B, 0x4C, 0x50, 0x54, 0x56, 0x57, 0x58, 0x59, 0x5A, 0x5B, 0x5C, 0x5E, 0x5F,
    0x88, 0x89, 0x8A, 0x8B, 0x92, 0x95,
];

/// The bytes of a program, parted at its instructions: those with a first half byte 0 or 1 have two bytes.
fn instructions(program: &[u8]) -> Vec<&[u8]> {
    let mut rest = program;
    let mut parts = Vec::new();
    while !rest.is_empty() {
        let (instruction, behind) = rest.split_at(if rest[0] < 0x20 { 2 } else { 4 });
        parts.push(instruction);
        rest = behind;
    }
    parts
}

/// What holds of every object text: heads and frames as document 01 has them, only its opcodes, branches to
/// instructions or into the table of a CASE, unindexed operands inside the data, products of even registers, `0A00` at the end and nowhere else.
fn assert_object_is_sound(object: &[u8], text: &[u8]) {
    let lines: Vec<Vec<u8>> = object.split(|&byte| byte == 10).map(unhex).collect();
    assert!(object.ends_with(b"FF\n"), "{}", show(text));
    let two = |bytes: &[u8]| usize::from(bytes[0]) * 256 + usize::from(bytes[1]);
    let mut heads = Vec::new();
    for line in &lines[..lines.len() - 2] {
        match line[0] {
            1 => {
                assert_eq!((line.len(), line[1], heads.len()), (4, 0, 0));
                heads.push((two(&line[2..]), 0, 0));
            }
            2 => {
                assert_eq!((line.len(), usize::from(line[1])), (8, heads.len()));
                heads.push((two(&line[2..]), two(&line[4..]), two(&line[6..])));
            }
            _ => assert_eq!((line[0], usize::from(line[1])), (0, heads.len() - 1)),
        }
    }
    assert!((2..=4).contains(&heads.len()));
    for (number, &(length, from, to)) in heads.iter().enumerate() {
        assert!(from <= to && to <= length && length <= 4096, "{}", show(text));
        assert_eq!(segment(object, number as u8).len(), length);
    }
    assert_eq!(heads[1].1, 16);
    assert_eq!(segment(object, 1)[..16], [0; 16]);

    let program = segment(object, 0);
    let parts = instructions(&program);
    let mut starts = Vec::new();
    let mut at = 0;
    for part in &parts {
        starts.push(at);
        at += part.len();
    }
    let all: HashSet<usize> = starts.iter().copied().collect();
    for (position, part) in parts.iter().enumerate() {
        let last = position + 1 == parts.len();
        assert!(LISTED.contains(&part[0]), "{}", show(text));
        assert_eq!(part[0] == 0x0A, last, "{}", show(text));
        let displacement = part.get(2..4).map_or(0, two) % 4096;
        match part[0] {
            0x0A => assert_eq!(part[1], 0),
            0x07 => assert_eq!(part[1] / 16, 15),
            // Only that of a CASE is indexed, by a register but 0 and the bases, four bytes before its table, where it stands itself.
            0x47 if part[1] % 16 != 0 => {
                let in_place = displacement == starts[position] && part[2] / 16 == 15;
                assert!(in_place && part[1] / 16 == 15 && part[1] % 16 < 14, "{}", show(text));
            }
            0x45 | 0x47 => assert!(part[2] / 16 == 15 && part[1] % 16 == 0 && all.contains(&displacement)),
            0x88..=0x8B => {
                assert!(part[1] % 16 == 0 && (part[2] == 0 && part[3] < 64 || part[2] % 16 == 0 && part[3] == 0))
            }
            0x1C | 0x5C => assert_eq!(part[1] / 16 % 2, 0, "{}", show(text)),
            0x40..=0x5F | 0x92 | 0x95 => {
                let size = match part[0] {
                    0x41..=0x43 | 0x92 | 0x95 => 1,
                    0x00..=0x4F => 2,
                    _ => 4,
                };
                let longest = heads[1..].iter().map(|head| head.0).max().unwrap_or(0);
                let room = if part[2] / 16 == 14 { heads[1].0 } else { longest };
                assert!(displacement % size == 0 && displacement + size <= room, "{}", show(text));
            }
            _ => {}
        }
    }
}

#[test]
fn a_hundred_thousand_texts_are_translated() {
    let mut accepted = 0;
    for number in 0..100_000 {
        let text = gen::case(100, number);
        let answer = translate(&text, None);
        if answer.number != 0 {
            assert!((1..=15).contains(&answer.number) && answer.object.is_empty());
            assert_eq!(answer.spot, reported(answer.number, answer.spot.place, &text), "{}", show(&text));
            continue;
        }
        accepted += 1;
        assert_eq!(answer.spot, Spot::NONE);
        assert_object_is_sound(&answer.object, &text);
        let needed = answer.object.len();
        let exactly = translate(&text, Some(needed));
        assert_eq!(exactly, answer);
        for room in [needed - 1, number as usize % needed] {
            let short = translate(&text, Some(room));
            assert_eq!((short.number, short.spot, short.object.len()), (16, Spot::without_line(needed), 0));
        }
    }
    println!("{accepted} of 100000 accepted");
}

#[test]
fn any_bytes_are_answered() {
    for number in 0..100_000 {
        let mut random = Random::new(9, number);
        let from_all = random.chance(1, 2);
        let text: Vec<u8> = (0..random.below(60))
            .map(|_| if from_all { random.next() as u8 } else { *random.of(b"BEGIND RAO_#059:=<>^+-*(),;@ \n") })
            .collect();
        let (number, place) = verdict(&text);
        assert!(number <= 15 && place <= text.len());
    }
}

#[test]
fn what_stands_behind_the_end_of_the_program_is_not_read() {
    for number in 0..5_000 {
        let mut random = Random::new(10, number);
        let text = gen::right_text(&mut random);
        let end = tokens(&text).expect("tokens").last().expect("`@`").spot.place;
        let mut cut = text[..=end].to_vec();
        let before = answer(&cut);
        assert_eq!(before, answer(&text));
        cut.extend((0..30).map(|_| random.next() as u8));
        assert_eq!(before, answer(&cut));
    }
}

#[test]
fn every_beginning_of_a_text_is_refused() {
    for number in 0..200 {
        let text = gen::right_text(&mut Random::new(11, number));
        let end = tokens(&text).expect("tokens").last().expect("`@`").spot.place;
        for length in 0..=end {
            let (refusal, place) = verdict(&text[..length]);
            assert!(matches!(refusal, 2 | 4) && place <= length, "{}", show(&text[..length]));
        }
    }
}

#[test]
fn stored_vectors_are_of_every_answer_and_small_enough() {
    let cases = vectors::cases();
    let mut counts = [0; 17];
    for case in &cases {
        assert_eq!(translate(&case.text, Some(case.room)), case.answer);
        counts[case.answer.number as usize] += 1;
    }
    println!("{counts:?}");
    assert!(cases.len() >= 3_000);
    assert!(counts.iter().all(|&count| count >= 8), "{counts:?}");
    assert!(vectors::records(&cases).len() < 3_000_000);
}
