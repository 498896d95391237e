//! Document 02, 3/13: CASE, in what the points of docs/DECISIONS.md, section CS, do not say by a text alone.

mod helpers;
use helpers::*;
use reference::byte_points::{End, Run, BYTE_RUNS};
use reference::case_points::{CASE_LITERALS, CASE_RUNS, LONG_CASE_POINTS};
use reference::caseruns::{self, chosen, near, program};
use reference::earley::Recognizer;
use reference::gen;
use reference::grammar::program_nested_to;
use reference::machine::origin;
use reference::random::Random;
use reference::rules::{broken, too_deep};
use reference::runner::{run, RunAnswer, STORAGE_NEEDED};
use reference::spot::Spot;
use reference::token::{tokens, Kind, Token, RESERVED, SIGNS};

/// What is so of a run at its end, in the order of what was decided.
fn ends(run: &Run) -> Vec<End> {
    let (answer, storage) = run.case(10_000).run();
    assert_eq!(answer.number, 0, "{}: {}", run.name, show(run.text));
    let found = |end: &End| match *end {
        End::Stop(_) => End::Stop(answer.stop),
        End::Count(_) => End::Count(answer.count),
        End::Code(_) => End::Code(answer.cc),
        End::Register(register, _) => End::Register(register, answer.regs[register]),
        End::Byte(offset, _) => End::Byte(offset, storage[origin(1) as usize + offset]),
    };
    run.ends.iter().map(found).collect()
}

#[test]
fn every_run_ends_as_decided() {
    for run in CASE_RUNS {
        assert_eq!(ends(run), run.ends, "{}: {}", run.name, show(run.text));
    }
}

/// A run as its line in the document has it, without what follows a second `;`.
fn run_line(run: &Run) -> String {
    let given: Vec<String> = run.regs.iter().map(|(register, value)| format!("R{register:X}={value:X}")).collect();
    let code = if run.code == 0 { None } else { Some(format!("CC={}", run.code)) };
    let given: Vec<String> = given.into_iter().chain(code).collect();
    let ends: Vec<String> = run
        .ends
        .iter()
        .map(|end| match end {
            End::Stop(stop) => format!("stop {stop}"),
            End::Count(count) => format!("count {count}"),
            End::Code(code) => format!("CC={code}"),
            End::Register(register, value) => format!("R{register:X}={value:08X}"),
            End::Byte(offset, value) => format!("byte {offset} of segment 1={value:02X}"),
        })
        .collect();
    format!("- run: `{}`; {}: {}", show(run.text), given.join(", "), ends.join(", "))
}

/// The runs are those of the document, of both sections that have some, and none is left out; so are the texts that are made.
#[test]
fn the_runs_and_the_long_texts_are_those_of_the_document() {
    let document = include_str!("../../docs/DECISIONS.md");
    let told: Vec<&str> = document.lines().filter(|line| line.starts_with("- run: ")).collect();
    assert_eq!(told.len(), BYTE_RUNS.len() + CASE_RUNS.len());
    for run in CASE_RUNS {
        let line = run_line(run);
        let is_it = |told: &&str| matches!(told.strip_prefix(line.as_str()), Some(rest) if rest.is_empty() || rest.starts_with(';'));
        assert!(told.iter().any(|told| is_it(told)), "{line}");
    }
    let behind = document.split("\n## CS ").nth(1).expect("the section");
    let section = behind.split("\n## ").next().expect("its end");
    let made: Vec<&str> = section.lines().filter(|line| line.starts_with("- made: ")).collect();
    assert_eq!(made.len(), LONG_CASE_POINTS.len());
    for (name, parts, number, place) in LONG_CASE_POINTS {
        let written: Vec<String> = parts
            .iter()
            .map(|(part, times)| if *times == 1 { format!("\"{part}\"") } else { format!("\"{part}\" * {times}") })
            .collect();
        let place = if *number == 0 { String::new() } else { format!(" at {place}") };
        let line = format!("- made: `{}` gives {number}{place}", written.join(" + "));
        assert!(made.iter().any(|told| told.starts_with(&line)), "{name}: {line}");
    }
}

#[test]
fn points_on_long_texts() {
    for (name, parts, number, place) in LONG_CASE_POINTS {
        let text: String = parts.iter().map(|(part, times)| part.repeat(*times)).collect();
        assert_eq!(verdict(text.as_bytes()), (*number, *place), "{name}: {}", show(text.as_bytes()));
    }
}

#[test]
fn points_on_literals() {
    for (name, text, content) in CASE_LITERALS {
        assert_eq!(segment(&answer(text).object, 1), bytes(content), "{name}: {}", show(text));
    }
}

// The grammar at every token

/// At each token of a CASE, every kind of token in its place: only what the grammar goes on with is not refused there.
#[test]
fn every_token_of_a_case() {
    let statement = "BEGIN IF WHILE FOR GOTO NULL CASE END X";
    let declaration = "INTEGER LOGICAL SHORT BYTE CHARACTER ARRAY PROCEDURE SEGMENT";
    let first = format!("{declaration} {statement}");
    // Each token with what may stand there.
    let tokens = [
        ("BEGIN", "BEGIN"),
        ("CASE", &first),
        ("R1", "X"),
        ("OF", "OF"),
        ("BEGIN", "BEGIN"),
        ("NULL", statement),
        (";", ";"),
        ("P", statement),
        (";", "; ( :="),
        ("END", statement),
        (";", ";"),
        ("END", statement),
        ("@", "@"),
    ];
    let words = RESERVED.iter().chain(&SIGNS).map(|(word, _)| *word).chain(["X", "7"]);
    let mut before = String::new();
    for (token, fitting) in tokens {
        for word in words.clone() {
            let text = format!("{before}{word}");
            let (number, place) = verdict(text.as_bytes());
            let refused_here = number == 4 && place == before.len();
            assert_eq!(refused_here, !fitting.split(' ').any(|fit| fit == word), "{text}: {number} at {place}");
        }
        before += &format!("{token} ");
    }
    assert_eq!(verdict(before.replace(" P ", " NULL ").as_bytes()), (0, 0));
}

#[test]
fn what_is_no_case_is_refused_where_it_leaves_the_grammar() {
    for text in [
        "BEGIN CASE !; END @",
        "BEGIN CASE !OF BEGIN END; END @",
        "BEGIN CASE !#1 OF BEGIN END; END @",
        "BEGIN CASE R1 !:= R2; END @",
        "BEGIN CASE R1 !, R2 OF BEGIN END; END @",
        "BEGIN CASE R1 !+ 1 OF BEGIN END; END @",
        "BEGIN CASE R1 !DO BEGIN END; END @",
        "BEGIN CASE R1 OF !END; END @",
        "BEGIN CASE R1 OF !; END @",
        "BEGIN CASE R1 OF BEGIN NULL!, NULL; END; END @",
        "BEGIN CASE R1 OF BEGIN NULL!: END; END @",
        "BEGIN CASE R1 OF BEGIN !1",
        "BEGIN CASE R1 OF BEGIN !SEGMENT BASE RC; END; END @",
        "BEGIN CASE R1 OF BEGIN !PROCEDURE P(R5); NULL; END; END @",
        "BEGIN CASE R1 OF BEGIN NULL; !ARRAY (2) BYTE A; END; END @",
        "BEGIN CASE R1 OF BEGIN A(4)!: NULL; END; END @",
        "BEGIN CASE R1 OF BEGIN END !END @",
        "BEGIN CASE R1 OF BEGIN END; NULL !END @",
        "BEGIN CASE R1 OF BEGIN END; !OF BEGIN END; END @",
        "BEGIN FOR !CASE R1 OF BEGIN END; END @",
        "BEGIN IF !CASE R1 OF BEGIN END THEN NULL; END @",
        "BEGIN R1 := !CASE R1 OF BEGIN END; END @",
        "BEGIN IF = THEN CASE R1 OF BEGIN END ELSE NULL !ELSE NULL; END @",
        "BEGIN IF = THEN CASE R1 OF BEGIN NULL !ELSE NULL; END; END @",
        "BEGIN CASE R1 OF BEGIN !@",
        "BEGIN CASE R1 OF BEGIN NULL;!",
        "!CASE R1 OF BEGIN END @",
    ] {
        assert_refused(4, text);
    }
}

// Nesting

/// `before` constructs around a CASE, which is one level and whose BEGIN is none.
#[test]
fn a_case_is_one_level() {
    for (opening, closing) in [("BEGIN ", "END; "), ("CASE R1 OF BEGIN ", "END; ")] {
        let nested = |depth: usize, inside: &str| {
            format!("BEGIN {}{inside}{}END @", opening.repeat(depth - 1), closing.repeat(depth - 1))
        };
        let marked = |depth: usize, inside: &str| assert_refused(5, &nested(depth, inside));
        assert_eq!(verdict(nested(63, "CASE R1 OF BEGIN END; ").as_bytes()), (0, 0));
        assert_eq!(verdict(nested(63, "CASE R1 OF BEGIN NULL; P; END; ").as_bytes()).0, 6);
        marked(64, "!CASE R1 OF BEGIN END; ");
        marked(64, "!CASE R1 OF BEGIN BEGIN END; END; ");
        marked(63, "CASE R1 OF BEGIN !BEGIN END; END; ");
        marked(63, "CASE R1 OF BEGIN NULL; !IF = THEN NULL; END; ");
        marked(63, "CASE R1 OF BEGIN NULL; !WHILE = DO NULL; END; ");
        marked(63, "CASE R1 OF BEGIN !FOR R1 := 1 STEP 1 UNTIL 2 DO NULL; END; ");
        marked(63, "CASE R1 OF BEGIN !CASE R1 OF BEGIN END; END; ");
        // Closed again, the level is free for the next.
        assert_eq!(verdict(nested(63, &"CASE R1 OF BEGIN END; ".repeat(9)).as_bytes()), (0, 0));
        assert_eq!(verdict(nested(63, "CASE R1 OF BEGIN END; BEGIN END; ").as_bytes()), (0, 0));
        // The smaller place: what follows is not looked at.
        marked(64, "!CASE 5");
        assert_refused(4, &nested(63, "CASE !5"));
        assert_refused(4, &nested(64, "NULL; !OF CASE"));
    }
    let with_else =
        |depth: usize| "BEGIN ".to_string() + &"IF = THEN CASE R1 OF BEGIN END ELSE ".repeat(depth) + "NULL; END @";
    assert_eq!(verdict(with_else(62).as_bytes()), (0, 0), "a CASE is closed before the ELSE");
    assert_eq!(verdict(with_else(63).as_bytes()), (5, 6 + 62 * 36 + 10));
}

// Code and literals

/// Every register and many counts of statements, each of two bytes, at the start of a program and behind others.
#[test]
fn the_code_of_every_register_and_count() {
    for register in 1..14 {
        for count in (0..8).chain([40, 255, 256, 400]) {
            for front in [0, 1, 5] {
                let statements = |number: usize| format!("R{:X} := R{:X}; ", number % 14, register);
                let list: String = (0..count).map(statements).collect();
                let text = format!("BEGIN {}CASE R{register:X} OF BEGIN {list}END; END @", "R0 := R0; ".repeat(front));
                let start = 2 * front;
                let end = start + 22 + 10 * count;
                let mut code = "1800 ".repeat(front);
                code += &format!("59{register:X}0E010 4720F{end:03X} 12{register:X}{register:X} 47C0F{end:03X} ");
                code += &format!("89{register:X}00002 47F{register:X}F{:03X} ", start + 18);
                let first = start + 22 + 4 * count;
                code += &(0..count).map(|number| format!("47F0F{:03X} ", first + 6 * number)).collect::<String>();
                let statement = |number: usize| format!("18{:X}{register:X} 47F0F{end:03X} ", number % 14);
                code += &(0..count).map(statement).collect::<String>();
                if end + 2 > 4096 {
                    assert_eq!(verdict(text.as_bytes()), (14, 0));
                    continue;
                }
                assert_code(&text, &code);
                assert_eq!(segment(&answer(text.as_bytes()).object, 1)[16..], (count as u32).to_be_bytes());
            }
        }
    }
}

/// A CASE inside a CASE: its end is its own, and the table of the outer one leads past it.
#[test]
fn a_case_in_a_case() {
    assert_code(
        "BEGIN CASE R1 OF BEGIN CASE R2 OF BEGIN NULL; END; R3 := R4; END; END @",
        "5910E010 4720F046 1211 47C0F046 89100002 47F1F012 47F0F01E 47F0F040 \
         5920E014 4720F03C 1222 47C0F03C 89200002 47F2F030 47F0F038 47F0F03C 47F0F046 1834 47F0F046",
    );
}

/// Literals in the order in which the code needs them: the count of a CASE before all of its statements, an inner count in its turn.
#[test]
fn literals_come_in_the_order_of_the_code() {
    for (text, literals) in [
        ("R2 := 9; CASE R1 OF BEGIN R2 := 8; R2 := 7; END; R2 := 6;", &[9, 2, 8, 7, 6][..]),
        ("CASE R1 OF BEGIN R2 := 3; NULL; NULL; END;", &[3]),
        ("CASE R1 OF BEGIN R2 := 2; END;", &[1, 2]),
        ("CASE R1 OF BEGIN CASE R2 OF BEGIN R3 := 5; NULL; NULL; END; R3 := 6; END;", &[2, 3, 5, 6]),
        ("CASE R1 OF BEGIN END; CASE R1 OF BEGIN END; R2 := 0;", &[0]),
        ("FOR R2 := 4 STEP 5 UNTIL 6 DO CASE R1 OF BEGIN R3 := 7; END;", &[4, 6, 1, 7, 5]),
        ("IF R1 = 8 THEN CASE R1 OF BEGIN END ELSE R1 := 9;", &[8, 0, 9]),
    ] {
        let object = answer(format!("BEGIN {text} END @").as_bytes()).object;
        let expected: Vec<u8> = literals.iter().flat_map(|literal: &u32| literal.to_be_bytes()).collect();
        assert_eq!(segment(&object, 1)[16..], expected, "{text}");
    }
    let full = |cells: usize, list: &str| format!("BEGIN ARRAY ({cells}) INTEGER A; CASE R1 OF BEGIN {list}END; END @");
    assert_eq!(verdict(full(1019, "").as_bytes()), (0, 0));
    assert_eq!(verdict(full(1019, "R2 := 1; ").as_bytes()), (0, 0), "the count and the number are one");
    assert_eq!(verdict(full(1019, "R2 := 2; ").as_bytes()), (15, 0));
    assert_eq!(verdict(full(1020, "NULL; ").as_bytes()), (15, 0));
}

/// 14 counts what a CASE takes, and only that.
#[test]
fn a_case_fills_the_program_to_its_last_byte() {
    let filled = |nulls: usize, more: usize| {
        format!("BEGIN CASE R1 OF BEGIN {}END; {}END @", "NULL; ".repeat(nulls), "R1 := R1; ".repeat(more))
    };
    for (nulls, more) in [(509, 0), (508, 4), (500, 36), (0, 2036)] {
        assert_eq!(verdict(filled(nulls, more).as_bytes()), (0, 0));
        let object = answer(filled(nulls, more).as_bytes()).object;
        assert_eq!(segment(&object, 0).len(), 24 + 8 * nulls + 2 * more);
        assert_eq!(verdict(filled(nulls, more + 1).as_bytes()), (14 * u32::from(24 + 8 * nulls + 2 * more == 4096), 0));
    }
}

// The register

#[test]
fn the_register_is_one_and_not_0() {
    let declared = "INTEGER I; ARRAY (2) INTEGER A; BYTE B; SHORT INTEGER S; INTEGER REGISTER Z(0), Q(9); LOGICAL REGISTER L(1); PROCEDURE P(R5); NULL;";
    for (name, number) in [
        ("X", 6),
        ("I", 8),
        ("A", 8),
        ("B", 8),
        ("S", 8),
        ("P", 8),
        ("IC", 8),
        ("LTR", 8),
        ("SET", 8),
        ("R0", 9),
        ("Z", 9),
        ("RE", 10),
        ("RF", 10),
    ] {
        assert_refused(number, &format!("BEGIN {declared} CASE !{name} OF BEGIN NULL; END; END @"));
        assert_refused(number, &format!("BEGIN {declared} CASE !{name} OF BEGIN X; RE := 1; END; END @"));
    }
    for name in ["Q", "L", "R1", "RD"] {
        assert_eq!(verdict(format!("BEGIN {declared} CASE {name} OF BEGIN NULL; END; END @").as_bytes()), (0, 0));
    }
}

/// What is protected where the CASE stands: bases declared so far, return registers of procedures around.
#[test]
fn the_register_counts_as_written() {
    for text in [
        "SEGMENT BASE RC; CASE !RC OF BEGIN NULL; END;",
        "SEGMENT BASE RC; BEGIN CASE !RC OF BEGIN END; END;",
        "SEGMENT BASE RC; CASE R1 OF BEGIN NULL; CASE !RC OF BEGIN END; END;",
        "INTEGER REGISTER Q(12); SEGMENT BASE RC; CASE !Q OF BEGIN END;",
        "PROCEDURE P(R5); CASE !R5 OF BEGIN END;",
        "PROCEDURE P(R5); BEGIN PROCEDURE Q(R6); CASE !R5 OF BEGIN NULL; END; END;",
        "CASE R1 OF BEGIN !RE := 1; END;",
        // Through calls.
        "PROCEDURE P(R5); CASE R7 OF BEGIN END; PROCEDURE S(R7); !P;",
        "PROCEDURE P(R5); CASE R7 OF BEGIN NULL; END; SEGMENT BASE R7; !P;",
        "PROCEDURE P(R5); CASE R7 OF BEGIN END; PROCEDURE Q(R6); P; PROCEDURE S(R7); !Q;",
        "PROCEDURE P(R5); BEGIN PROCEDURE N(R6); CASE R7 OF BEGIN END; END; PROCEDURE S(R7); !P;",
        "PROCEDURE P(R5); IF = THEN CASE R7 OF BEGIN END ELSE NULL; PROCEDURE S(R7); !P;",
        "PROCEDURE P(R5); CASE R1 OF BEGIN R7 := 1; END; PROCEDURE S(R7); !P;",
        "PROCEDURE P(R5); CASE R1 OF BEGIN NULL; CASE R7 OF BEGIN END; END; PROCEDURE S(R7); !P;",
        "PROCEDURE P(R5); NULL; PROCEDURE S(R7); CASE R1 OF BEGIN P; END; PROCEDURE T(R5); !S;",
    ] {
        assert_refused(10, &format!("BEGIN {text} END @"));
    }
    for text in [
        "CASE RC OF BEGIN NULL; END;",
        "BEGIN SEGMENT BASE RC; END; CASE RC OF BEGIN END;",
        "PROCEDURE P(R5); NULL; CASE R5 OF BEGIN P; END;",
        "PROCEDURE P(R5); CASE R7 OF BEGIN END; SEGMENT BASE R8; P;",
        "PROCEDURE P(R5); CASE R1 OF BEGIN R2 := R7; END; PROCEDURE S(R7); P;",
        "PROCEDURE P(R5); CASE R7 OF BEGIN END; PROCEDURE S(R7); NULL; S; P;",
    ] {
        assert_eq!(verdict(format!("BEGIN {text} END @").as_bytes()), (0, 0), "{text}");
    }
}

/// Names, labels, cells and their values inside the list are what they are elsewhere.
#[test]
fn the_list_is_no_block() {
    assert_refused(6, "BEGIN CASE R1 OF BEGIN !A := R1; BEGIN INTEGER A; END; END; END @");
    assert_refused(6, "BEGIN CASE R1 OF BEGIN BEGIN L: END; GOTO !L; END; END @");
    assert_refused(6, "BEGIN PROCEDURE P(R5); CASE R1 OF BEGIN GOTO !L; END; L: END @");
    assert_refused(7, "BEGIN CASE R1 OF BEGIN BEGIN INTEGER A, !A; END; END; END @");
    assert_refused(11, "BEGIN CASE R1 OF BEGIN R2 := R2 SHLL !64; END; END @");
    assert_refused(12, "BEGIN CASE R1 OF BEGIN BEGIN ARRAY (1020) INTEGER A, !B; END; END; END @");
    // Cells of the blocks in the list, one behind the other, with their values.
    let text = "BEGIN INTEGER A(1); CASE R1 OF BEGIN BEGIN BYTE B(2); END; BEGIN SEGMENT BASE RC; INTEGER C(3); \
        PROCEDURE P(R5); BEGIN SHORT INTEGER D(4); END; END; BEGIN INTEGER E(5); E := R1; END; END; END @";
    let object = answer(text.as_bytes()).object;
    assert_eq!(segment(&object, 1)[16..], bytes("00000001 02000000 00000005 00000003"));
    assert_eq!(segment(&object, 2), bytes("00000003 0004"));
    let labels = "BEGIN M: CASE R1 OF BEGIN GOTO L; BEGIN GOTO M; M: GOTO L; END; END; L: END @";
    assert_code(
        labels,
        "5910E010 4720F032 1211 47C0F032 89100002 47F1F012 47F0F01E 47F0F026 47F0F032 47F0F032 47F0F02A 47F0F032 47F0F032",
    );
}

// Runs

fn run_of(text: &str, regs: [u32; 16], code: u64) -> RunAnswer {
    let object = answer(text.as_bytes()).object;
    run(&object, regs, code, 10_000, &mut vec![0; STORAGE_NEEDED])
}

/// From every value near 0, the count, 2^30, 2^31 and 2^32, in every register: which statement is executed, what the register holds
/// then, and the condition code.
#[test]
fn every_value_near_an_edge_in_every_register() {
    let (mut runs, mut took, mut none) = (0, 0, 0);
    for count in (0..6).chain([37]) {
        for register in 1..14usize {
            let marked = if register == 13 { 2 } else { register + 1 };
            let list: String = (1..=count).map(|number| format!("R{marked:X} := {}; ", 1000 + number)).collect();
            let text = format!("BEGIN CASE R{register:X} OF BEGIN {list}END; END @");
            for (number, value) in near(count).into_iter().enumerate() {
                let mut regs: [u32; 16] = std::array::from_fn(|other| 0xABCD_0000 + other as u32);
                regs[register] = value;
                let given = number as u64 % 4;
                let answer = run_of(&text, regs, given);
                (regs[15], regs[14]) = (origin(0), origin(1));
                let executed = chosen(value, count);
                if let Some(number) = executed {
                    regs[marked] = 1000 + number as u32;
                }
                regs[register] = caseruns::left(value, count);
                // The compare and its branch; LTR and its branch; the shift, the branch, that of the table, the statement and its branch.
                let signed = value as i32;
                let steps = match executed {
                    Some(_) => 9,
                    None if i64::from(signed) > count as i64 => 2,
                    None => 4,
                };
                let program = segment(&reference::translate::translate(text.as_bytes(), None).object, 0).len() as u32;
                let expected = RunAnswer {
                    number: 0,
                    spot: Spot::NONE,
                    stop: 1,
                    counter: origin(0) + program - 2,
                    regs,
                    cc: caseruns::code(value, count),
                    count: steps,
                };
                assert_eq!(answer, expected, "{text} from {value:08X}");
                runs += 1;
                took += usize::from(executed.is_some());
                none += usize::from(executed.is_none());
            }
        }
    }
    println!("values near edges: {runs} runs, {took} took a statement, {none} none");
    assert!(took > 200 && none > 2_000, "{took} {none}");
}

/// By the signed value and not by what four times it is, whatever the values of a sum: a second account of the meaning.
#[test]
fn the_meaning_is_that_of_signed_numbers() {
    for count in [0usize, 1, 2, 5, 37] {
        for value in near(count) {
            let signed = i64::from(value as i32);
            let inside = 1 <= signed && signed <= count as i64;
            assert_eq!(chosen(value, count), if inside { Some(signed as usize) } else { None });
            let expected = match (signed > count as i64, signed.signum()) {
                (true, _) | (false, 1) => 2,
                (false, 0) => 0,
                _ => 1,
            };
            assert_eq!(caseruns::code(value, count), expected);
        }
    }
}

/// Programs of many sorts, all accepted; whether a statement is taken is told by what is executed first of it.
#[test]
fn programs_that_come_to_a_case() {
    let (mut took, mut none, mut stops) = (0, 0, [0; 5]);
    for number in 0..600 {
        let mut random = Random::new(313, number);
        let case = program(&mut random);
        let translated = answer(&case.text);
        assert_eq!(translated.number, 0, "{}", show(&case.text));
        for value in near(case.count) {
            let (answer, _) = case.case(translated.object.clone(), value, &mut random).run();
            assert_eq!(answer.number, 0);
            assert_ne!(answer.stop, 4, "{} from {value:X}", show(&case.text));
            stops[answer.stop as usize] += 1;
            match chosen(value, case.count) {
                Some(_) => took += 1,
                None => none += 1,
            }
        }
    }
    println!("programs with CASE: {took} runs took a statement, {none} none, stops {stops:?}");
    assert!(took > 2_000 && none > 2_000 && stops[1] > 20_000, "{took} {none} {stops:?}");
}

// Second opinions

/// The answer to a text of tokens, which has to be that of the grammar as written and of the rules as sets.
fn compare(recognizer: &Recognizer, text: &[u8]) -> usize {
    let tokens = tokens(text).expect("tokens");
    let unfit = recognizer.first_unfit(tokens.iter().map(|token| token.kind)).map(|at| tokens[at].spot.place);
    let opinion = match unfit {
        Some(place) => (4, place),
        None => match too_deep(&tokens) {
            Some(place) => (5, place),
            None => broken(&tokens).first().map_or((0, 0), |&(place, number)| (number, place)),
        },
    };
    let answer = verdict(text);
    assert_eq!(answer, opinion, "{}", show(text));
    answer.0 as usize
}

#[test]
fn generated_cases() {
    let recognizer = Recognizer::new();
    let mut answers = [0; 17];
    for number in 0..25_000 {
        let text = gen::cases(&mut Random::new(13, number));
        match tokens(&text) {
            Ok(tokens) if tokens.len() < 300 => answers[compare(&recognizer, &text)] += 1,
            _ => {}
        }
    }
    println!("generated cases: {} comparisons, by number {answers:?}", answers.iter().sum::<usize>());
    assert!([0, 4, 6, 8, 9, 10].iter().all(|&number| answers[number] > 100), "{answers:?}");
}

/// Every list of up to two statements of many sorts, of every register of some, in several places: refusal 4 by the grammar as
/// written, 5 to 13 by the rules as sets.
#[test]
fn all_short_cases() {
    let recognizer = Recognizer::new();
    let names = ["R1", "R0", "RE", "R5", "RC", "Q", "Z", "I", "A", "P", "LTR", "X", "5", "R1 ( 4 )", "CASE", ""];
    let statements = [
        "NULL ;",
        "R1 := 2 ;",
        "RC := R1 ;",
        "P ;",
        "S ;",
        "X ;",
        "I := R1 ;",
        "GOTO L ;",
        "GOTO M ;",
        "BEGIN M : END ;",
        "BEGIN INTEGER X ; END ;",
        "CASE R1 OF BEGIN END ;",
        "CASE RC OF BEGIN NULL ; END ;",
        "CASE R0 OF BEGIN X ; END ;",
        "IF = THEN CASE R1 OF BEGIN END ELSE NULL ;",
        "SET ( A ) ;",
        "L : NULL ;",
        "INTEGER B ;",
        "NULL",
        ";",
        "END",
    ];
    let lists = std::iter::once(String::new())
        .chain(statements.iter().map(|one| one.to_string()))
        .chain(statements.iter().flat_map(|one| statements.iter().map(move |two| format!("{one} {two}"))));
    let lists: Vec<String> = lists.collect();
    let front = "BEGIN INTEGER I ; ARRAY ( 4 ) BYTE A ; INTEGER REGISTER Z ( 0 ) , Q ( 3 ) ; \
        PROCEDURE P ( R5 ) ; CASE R7 OF BEGIN END ;";
    let places = ["# ;", "SEGMENT BASE RC ; # ;", "PROCEDURE S ( R7 ) ; # ; S ;", "IF = THEN # ELSE R7 := 1 ;"];
    let (mut compared, mut answers) = (0, [0; 17]);
    for name in names {
        for list in &lists {
            for place in places {
                let case = format!("CASE {name} OF BEGIN {list} END");
                let text = format!("{front} {} L : END @", place.replace('#', &case));
                answers[compare(&recognizer, text.as_bytes())] += 1;
                compared += 1;
            }
        }
    }
    println!("short cases: {compared} comparisons, by number {answers:?}");
    assert!(compared > 25_000);
    assert!([0, 4, 6, 8, 9, 10].iter().all(|&number| answers[number] > 100), "{answers:?}");
}

/// All kinds of tokens.
fn kinds() -> Vec<Kind> {
    let spelled = RESERVED.iter().chain(&SIGNS).map(|(_, kind)| *kind);
    spelled.chain([Kind::Name, Kind::Number]).collect()
}

fn made_of(kinds: &[Kind]) -> Vec<Token> {
    let all = kinds.iter().copied().chain([Kind::TextEnd]);
    all.enumerate()
        .map(|(place, kind)| Token { kind, spot: Spot::START.along(place), value: 0, name: [0; 10] })
        .collect()
}

/// Behind each beginning of a CASE, all token strings of up to six: which of them the grammar goes on with.
#[test]
fn refusal_4_on_all_token_strings_behind_beginnings_of_cases() {
    use Kind::*;
    let recognizer = Recognizer::new();
    let beginnings: [&[Kind]; 6] = [
        &[Begin, Case],
        &[Begin, Case, Name, Of, Begin],
        &[Begin, Case, Name, Of, Begin, Null, Semicolon, End],
        &[Begin, If, Equal, Then, Case, Name, Of, Begin, End],
        &[Begin, Case, Name, Of, Begin, Case, Name, Of, Begin, Null, Semicolon, End],
        &[Begin, Procedure, Name, Open, Name, Close, Semicolon, Case, Name, Of, Begin, End],
    ];
    let mut compared = 0;
    for beginning in beginnings {
        let mut reading = recognizer.begin();
        assert!(beginning.iter().all(|&kind| recognizer.read(&mut reading, kind)));
        let mut open = vec![(reading, beginning.to_vec())];
        for _ in 0..6 {
            let mut longer = Vec::new();
            for (reading, before) in &open {
                for kind in kinds() {
                    let mut next = reading.clone();
                    let fits = recognizer.read(&mut next, kind);
                    let with = [before.as_slice(), &[kind]].concat();
                    let place = program_nested_to(&made_of(&with), usize::MAX).err().map(|refusal| refusal.spot.place);
                    assert_eq!(fits, place.map_or(true, |place| place > before.len()), "{with:?}");
                    compared += 1;
                    if fits && kind != At {
                        longer.push((next, with));
                    }
                }
            }
            open = longer;
        }
    }
    println!("refusal 4 behind beginnings of CASE: {compared} comparisons");
    assert!(compared > 100_000);
}
