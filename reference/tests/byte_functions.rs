//! Document 02, 1/13: byte cells and standard functions, in what the points of docs/DECISIONS.md, section B, do not say by a text alone.

mod helpers;
use helpers::*;
use reference::byte_points::{End, BYTE_RUNS};
use reference::earley::Recognizer;
use reference::functions::{Takes, FUNCTIONS};
use reference::gen;
use reference::machine::origin;
use reference::random::Random;
use reference::rules::broken;
use reference::token::tokens;

#[test]
fn every_run_ends_as_decided() {
    for run in BYTE_RUNS {
        let (answer, storage) = run.case(10_000).run();
        assert_eq!(answer.number, 0, "{}: {}", run.name, show(run.text));
        for end in run.ends {
            let found = match *end {
                End::Stop(_) => End::Stop(answer.stop),
                End::Count(_) => End::Count(answer.count),
                End::Code(_) => End::Code(answer.cc),
                End::Register(register, _) => End::Register(register, answer.regs[register]),
                End::Byte(offset, _) => End::Byte(offset, storage[origin(1) as usize + offset]),
            };
            assert_eq!(found, *end, "{}: {}", run.name, show(run.text));
        }
    }
}

#[test]
fn points_on_object_texts() {
    let object = |text: &str| answer(text.as_bytes()).object;
    let table = "00000000000000000000000000000000";
    for (point, text, number, content) in [
        ("B15", "BEGIN ARRAY (3) BYTE A(1)(2)(3); END @", 1, format!("{table}010203")),
        ("B16", "BEGIN BYTE A(255), B(#FF), C(_0), D(#000000FF); END @", 1, format!("{table}FFFF00FF")),
        (
            "B17",
            "BEGIN BYTE B(1); INTEGER I(2); SHORT INTEGER S(3); BYTE C(4); END @",
            1,
            format!("{table}0100000000000002000304"),
        ),
        ("B17", "BEGIN SEGMENT BASE RC; BYTE B(7); SHORT INTEGER S(8); END @", 2, "07000008".to_string()),
    ] {
        assert_eq!(segment(&object(text), number), bytes(&content), "{point}");
    }
    for (point, text, head) in [
        ("B17", "BEGIN BYTE B(1); INTEGER I(2); SHORT INTEGER S(3); BYTE C(4); END @", "0201001B0010001B"),
        ("B17", "BEGIN BYTE B; R1 := 5; END @", "0201001800100011"),
        ("B17", "BEGIN SEGMENT BASE RC; BYTE B(7); SHORT INTEGER S(8); END @", "0202000400000004"),
        ("B18", "BEGIN ARRAY (2048) BYTE A; ARRAY (2032) CHARACTER B; END @", "0201100000101000"),
    ] {
        let object = String::from_utf8(object(text)).expect("hexadecimal");
        assert!(object.lines().any(|line| line == head), "{point}: {object}");
    }
}

#[test]
fn the_functions_names_do_not_count_for_13() {
    let declared = |count: usize| {
        let names: Vec<String> = (0..count).map(|number| format!(",N{number}")).collect();
        format!("BEGIN INTEGER IC{}; END @", names.concat())
    };
    assert_eq!(verdict(declared(255).as_bytes()), (0, 0), "B3");
    assert_eq!(verdict(declared(256).as_bytes()), (13, 1182), "B3");
}

#[test]
fn byte_and_character_cells_are_alike() {
    for text in [
        "BEGIN BYTE B; R1 := B; END @",
        "BEGIN ARRAY (7) BYTE A(1)(255), B; BYTE C(3); IC(R1)(A(6)); MVI(1)(C); LA(R2)(B(5)(R1)); R1 := 9; END @",
        "BEGIN BYTE B(256); END @",
        "BEGIN ARRAY (2049) BYTE B; END @",
        "BEGIN SHORT BYTE B; END @",
        "BEGIN ARRAY (2048) BYTE A, B; END @",
    ] {
        let other = text.replace("BYTE", "CHARACTER");
        let (one, two) = (answer(text.as_bytes()), answer(other.as_bytes()));
        let longer = |place: usize| place + 5 * text[..place].matches("BYTE").count();
        assert_eq!(
            (one.number, longer(one.spot.place), one.object),
            (two.number, two.spot.place, two.object),
            "{text}"
        );
    }
}

/// A cell of one type and the next of another: where it begins by its size.
#[test]
fn byte_cells_stand_at_any_offset() {
    let types = [("INTEGER", 4usize), ("SHORT INTEGER", 2), ("BYTE", 1), ("CHARACTER", 1)];
    for (first, size) in types {
        for count in 1..=9 {
            for (second, next) in types {
                let text = format!("BEGIN ARRAY ({count}) {first} A; {second} B; LA(R1)(B); END @");
                let offset = (16 + size * count).next_multiple_of(next);
                assert_code(&text, &format!("4110E0{offset:02X}"));
                assert_eq!(segment(&answer(text.as_bytes()).object, 1).len(), offset + next, "{text}");
            }
        }
    }
}

#[test]
fn a_byte_cells_value_is_0_to_255() {
    for (value, fits) in [("0", true), ("255", true), ("256", false), ("_1", false), ("#FF", true), ("#100", false)] {
        let expected = if fits { (0, 0) } else { (11, 13) };
        assert_eq!(verdict(format!("BEGIN BYTE A({value}); END @").as_bytes()), expected);
        let expected = if fits { (0, 0) } else { (11, 18) };
        assert_eq!(verdict(format!("BEGIN BYTE B; MVI({value})(B); END @").as_bytes()), expected);
        assert_eq!(verdict(format!("BEGIN BYTE B; CLI({value})(B); END @").as_bytes()), expected);
    }
    for value in 0..256 {
        assert_code(&format!("BEGIN BYTE B; MVI({value})(B); END @"), &format!("92{value:02X}E010"));
        assert_code(&format!("BEGIN BYTE B; CLI(#{value:X})(B); END @"), &format!("95{value:02X}E010"));
    }
}

/// Each function with each register, cell and number it takes; the first register that is written is refused where it is protected.
#[test]
fn every_function_in_every_form() {
    let cells =
        [("B", "0E010"), ("A", "0E011"), ("A(7)", "0E018"), ("W(4)", "0E020"), ("H(2)", "0E026"), ("I", "0C000")];
    let indexed = [("A(R2)", "2E011"), ("A(7)(RF)", "FE018"), ("W(R9)", "9E01C"), ("H(2)(RE)", "EE026")];
    let declarations =
        "BYTE B; ARRAY (8) BYTE A; ARRAY (2) INTEGER W; ARRAY (2) SHORT INTEGER H; SEGMENT BASE RC; INTEGER I;";
    let with_cells = |statement: &str, code: &str| {
        assert_code(&format!("BEGIN {declarations} {statement}; END @"), &format!("58C0E008 {code}"));
    };
    for function in FUNCTIONS {
        let (name, opcode) = (function.name, function.opcode);
        for register in 0..16 {
            let protected = function.writes_first && [12, 14, 15].contains(&register);
            match function.takes {
                Takes::RegisterAndCell => {
                    for (cell, fields) in cells.iter().chain(&indexed) {
                        let statement = format!("{name}(R{register:X})({cell})");
                        if protected {
                            let marked = format!("BEGIN {declarations} {name}(!R{register:X})({cell}); END @");
                            assert_refused(10, &marked);
                        } else {
                            with_cells(&statement, &format!("{opcode:02X}{register:X}{fields}"));
                        }
                    }
                }
                Takes::TwoRegisters => {
                    for second in 0..16 {
                        if !protected {
                            let statement = format!("{name}(R{register:X})(R{second:X})");
                            with_cells(&statement, &format!("{opcode:02X}{register:X}{second:X}"));
                        }
                    }
                }
                Takes::NumberAndCell | Takes::Cell(_) => {}
            }
        }
        for (cell, fields) in cells {
            match function.takes {
                Takes::NumberAndCell => {
                    with_cells(&format!("{name}(#C5)({cell})"), &format!("{opcode:02X}C5{}", &fields[1..]))
                }
                Takes::Cell(number) => {
                    with_cells(&format!("{name}({cell})"), &format!("{opcode:02X}{number:02X}{}", &fields[1..]));
                }
                _ => {}
            }
        }
        for (cell, _) in indexed {
            let front = match function.takes {
                Takes::NumberAndCell => format!("{name}(5)"),
                Takes::Cell(_) => name.to_string(),
                _ => continue,
            };
            let marked = format!("BEGIN {declarations} {front}({}); END @", cell.replace("(R", "(!R"));
            assert_refused(8, &marked);
        }
    }
}

/// What calls write through functions: a sibling that returns by the register may not be called over the call.
#[test]
fn functions_write_through_calls() {
    for (function, written) in [
        ("IC(R7)(B)", true),
        ("LA(R7)(B)", true),
        ("LTR(R7)(R1)", true),
        ("STC(R7)(B)", false),
        ("LTR(R1)(R7)", false),
        ("LA(R1)(A(R7))", false),
        ("MVI(7)(B)", false),
        ("SET(B)", false),
    ] {
        let texts = [
            format!("BYTE B; ARRAY (8) BYTE A; PROCEDURE P(R5); {function}; PROCEDURE S(R7); !P;"),
            format!("BYTE B; ARRAY (8) BYTE A; PROCEDURE P(R5); {function}; PROCEDURE Q(R6); P; PROCEDURE S(R7); !Q;"),
            format!(
                "BYTE B; ARRAY (8) BYTE A; PROCEDURE P(R5); BEGIN PROCEDURE N(R6); {function}; END; PROCEDURE S(R7); !P;"
            ),
            format!("BYTE B; ARRAY (8) BYTE A; PROCEDURE P(R5); IF = THEN {function}; SEGMENT BASE R7; !P;"),
            format!("BYTE B; ARRAY (8) BYTE A; PROCEDURE P(R5); {function}; BEGIN SEGMENT BASE R7; !P; END;"),
        ];
        for text in texts {
            let text = format!("BEGIN {text} END @");
            if written {
                assert_refused(10, &text);
            } else {
                assert_eq!(verdict(text.replace('!', "").as_bytes()), (0, 0), "{text}");
            }
        }
    }
}

/// The answer to a text of tokens, which has to be that of the grammar as written and of the rules as sets.
fn compare(recognizer: &Recognizer, text: &[u8]) -> usize {
    let tokens = tokens(text).expect("tokens");
    let unfit = recognizer.first_unfit(tokens.iter().map(|token| token.kind));
    let opinion = match unfit {
        Some(at) => (4, tokens[at].spot.place),
        None => broken(&tokens).first().map_or((0, 0), |&(place, number)| (number, place)),
    };
    let answer = verdict(text);
    assert_eq!(answer, opinion, "{}", show(text));
    answer.0 as usize
}

#[test]
fn generated_rows_of_parentheses() {
    let recognizer = Recognizer::new();
    let mut answers = [0; 17];
    for number in 0..15_000 {
        let text = gen::rows(&mut Random::new(12, number));
        if tokens(&text).is_ok() {
            answers[compare(&recognizer, &text)] += 1;
        }
    }
    println!("generated rows: {} comparisons, by number {answers:?}", answers.iter().sum::<usize>());
    assert!([0, 4, 6, 8, 9, 10, 11].iter().all(|&number| answers[number] > 100), "{answers:?}");
}

const NAMES: [&str; 15] =
    ["IC", "STC", "LA", "MVI", "CLI", "SET", "RESET", "TEST", "LTR", "A", "B", "W", "P", "R1", "X"];
const ARGUMENTS: [&str; 26] = [
    "R1",
    "RE",
    "R0",
    "5",
    "255",
    "256",
    "_1",
    "A",
    "A ( 4 )",
    "A ( R1 )",
    "A ( 4 ) ( R2 )",
    "A ( 8 )",
    "A ( R0 )",
    "A ( X )",
    "A ( A )",
    "A ( 9 ) ( R1 )",
    "B",
    "B ( 0 )",
    "B ( R1 )",
    "W ( 4 )",
    "W ( 2 )",
    "W ( R1 )",
    "P",
    "IC",
    "R1 ( 4 )",
    "X",
];

/// Every name with up to two parentheses, and with three of fewer sorts, as a use and as an assignment: refusal 4 by the grammar as written, 6 to 13 by the rules
/// as sets.
#[test]
fn all_rows_of_parentheses() {
    let recognizer = Recognizer::new();
    let front = "BEGIN ARRAY ( 8 ) BYTE A ; BYTE B ; ARRAY ( 2 ) INTEGER W ; PROCEDURE P ( R5 ) ; NULL ;";
    let mut rows = vec![String::new()];
    rows.extend(ARGUMENTS.iter().map(|one| format!("( {one} )")));
    rows.extend(ARGUMENTS.iter().flat_map(|one| ARGUMENTS.iter().map(move |two| format!("( {one} ) ( {two} )"))));
    let few = ["R1", "RE", "5", "A", "A ( 4 )", "A ( R1 )", "B", "X"];
    let pairs = few.iter().flat_map(|one| few.iter().map(move |two| format!("( {one} ) ( {two} )")));
    rows.extend(pairs.flat_map(|pair| few.iter().map(move |three| format!("{pair} ( {three} )"))));
    let (mut compared, mut answers) = (0, [0; 17]);
    for name in NAMES {
        for row in &rows {
            for behind in ["", ":= R2"] {
                let text = format!("{front} {name} {row} {behind} ; END @");
                answers[compare(&recognizer, text.as_bytes())] += 1;
                compared += 1;
            }
        }
    }
    println!("rows of parentheses: {compared} comparisons, by number {answers:?}");
    assert!(compared > 30_000);
    assert!([0, 4, 6, 8, 9, 10, 11].iter().all(|&number| answers[number] > 5), "{answers:?}");
}
