//! Document 02, 2/13: lines and columns, in what the points of docs/DECISIONS.md, section L, do not say by a short text.

mod helpers;
use helpers::*;
use reference::gen;
use reference::line_points::{long_line_points, LongPoint, LINE_POINTS};
use reference::points::points;
use reference::runner::{run, STORAGE_NEEDED};
use reference::runvectors::case_8;
use reference::spot::Spot;
use reference::token::{tokens, Token, TEXT_LIMIT};
use reference::translate::translate;
use reference::vectors;

/// The answer's number, place, line and column.
type Told = (u32, usize, usize, usize);

fn told(text: &[u8], room: Option<usize>) -> Told {
    let answer = translate(text, room);
    (answer.number, answer.spot.place, answer.spot.line, answer.spot.column)
}

#[test]
fn points_on_long_texts() {
    for LongPoint { name, text, room, number, spot } in long_line_points() {
        let answer = translate(&text, room);
        assert_eq!((answer.number, answer.spot), (number, spot), "{name}");
    }
}

/// A text with one `!` where the refusal is, and what line and column that is.
fn assert_reported(number: u32, marked: &str, line: usize, column: usize) {
    assert_refused(number, marked);
    let text = marked.replacen('!', "", 1);
    let (_, _, told_line, told_column) = told(text.as_bytes(), None);
    assert_eq!((told_line, told_column), (line, column), "{number}: {}", show(text.as_bytes()));
}

#[test]
fn each_of_2_to_13_reports_its_own() {
    assert_reported(2, "BEGIN\n  R1 := R2 !& R3;\nEND @", 2, 12);
    assert_reported(2, "BEGIN\nEND\n !COMMENT A\nB @", 3, 2);
    assert_reported(3, "BEGIN\n\nR1 :=\n 5 + !3000000000; END @", 4, 6);
    assert_reported(4, "BEGIN\nEND\n !END @", 3, 2);
    assert_reported(4, "BEGIN\nEND\n !", 3, 2);
    assert_reported(5, &("BEGIN\n".repeat(64) + " !BEGIN"), 65, 2);
    assert_reported(6, "BEGIN\nGOTO\n    !L; END @", 3, 5);
    assert_reported(7, "BEGIN\nINTEGER A,\n        !A; END @", 3, 9);
    assert_reported(8, "BEGIN INTEGER I;\nI := !5; END @", 2, 6);
    assert_reported(9, "BEGIN\nR2 := R3\n!* R4; END @", 3, 1);
    assert_reported(10, "BEGIN\n\n !RE := R1; END @", 3, 2);
    assert_reported(11, "BEGIN ARRAY\n(!0) INTEGER A; END @", 2, 2);
    assert_reported(12, "BEGIN\nARRAY (1021) INTEGER\n  !A; END @", 3, 3);
    let names: String = (0..256).map(|number| format!("INTEGER N{number};\n")).collect();
    assert_reported(13, &format!("BEGIN\n{names}INTEGER !X; END @"), 258, 9);
}

#[test]
fn what_is_refused_at_the_first_byte_is_at_line_1_column_1() {
    for text in ["?", "COMMENT", "3000000000", "END", "", "@"] {
        let (number, place, line, column) = told(text.as_bytes(), None);
        assert!((2..=4).contains(&number), "{text}");
        assert_eq!((place, line, column), (0, 1, 1), "{text}");
    }
}

/// Success, 1 and 14 to 16 in texts of many lines; 17 to 19 and every stop of the runner.
#[test]
fn all_others_report_line_and_column_0() {
    let lines = "\n".repeat(40);
    let full = format!("{lines}BEGIN ARRAY (1020) INTEGER A;\n");
    let long = format!("{lines}BEGIN R1 := R1{};\nEND @", "\n+ R1".repeat(2047));
    assert_eq!(told(format!("{lines}BEGIN\nEND @").as_bytes(), None), (0, 0, 0, 0));
    assert_eq!(told(&[b'\n'; 32_769], None), (1, 32_768, 0, 0));
    assert_eq!(told(long.as_bytes(), None), (14, 0, 0, 0));
    assert_eq!(told(format!("{full}R1 := 5; END @").as_bytes(), None), (15, 0, 0, 0));
    assert_eq!(told(format!("{lines}BEGIN\nEND @").as_bytes(), Some(0)), (16, 87, 0, 0));

    let object = case_8();
    for (object, cc, budget, storage, number, stop) in [
        (&object[1..], 9, 50, 0, 17, 0),
        (&object, 4, 50, 0, 18, 0),
        (&object, 0, 50, STORAGE_NEEDED - 1, 19, 0),
        (&object, 0, 5, STORAGE_NEEDED, 0, 0),
        (&object, 0, 50, STORAGE_NEEDED, 0, 1),
    ] {
        let answer = run(object, [0; 16], cc, budget, &mut vec![0; storage]);
        let Spot { place, line, column } = answer.spot;
        assert_eq!((answer.number, place, line, column, answer.stop), (number, 0, 0, 0, stop));
    }
}

#[test]
fn every_token_carries_its_line_and_column() {
    let text = b"BEGIN INTEGER\n\n  A(#1F);COMMENT \xc3\xa9\r\n\t; A:=R1;\n END@\n";
    let spots = |token: &Token| (token.spot.place, token.spot.line, token.spot.column);
    let expected = [
        (0, 1, 1),
        (6, 1, 7),
        (17, 3, 3),
        (18, 3, 4),
        (19, 3, 5),
        (22, 3, 8),
        (23, 3, 9),
        (39, 4, 4),
        (40, 4, 5),
        (42, 4, 7),
        (44, 4, 9),
        (47, 5, 2),
        (50, 5, 5),
    ];
    assert_eq!(tokens(text).expect("tokens").iter().map(spots).collect::<Vec<_>>(), expected);
    let unended = tokens(b"BEGIN\n ").expect("tokens");
    assert_eq!(unended.iter().map(spots).collect::<Vec<_>>(), [(0, 1, 1), (7, 2, 2)]);
}

/// Blanks are as good as newlines: number, place and object text stay, and every blank before the place is a line.
#[test]
fn every_point_in_as_many_lines_as_it_has_blanks() {
    for point in points() {
        let text = point.in_lines();
        assert_eq!(verdict(&text), (point.number, point.place), "{}: {}", point.name, show(&text));
        assert_eq!(answer(&text).object, answer(point.text).object, "{}: {}", point.name, show(&text));
    }
}

/// Lines before a text move every place and line, and no column; blanks move the columns of the first line alone.
#[test]
fn what_stands_before_a_text_moves_it() {
    for number in 0..3_000 {
        let text = gen::case(21, number);
        let front = number as usize % 30 + 1;
        let before = answer(&text);
        let Spot { place, line, column } = before.spot;
        if text.len() + front > TEXT_LIMIT {
            continue;
        }
        let behind = |byte: u8| told(&[&vec![byte; front][..], &text].concat(), None);
        if (2..=13).contains(&before.number) {
            assert_eq!(behind(b'\n'), (before.number, place + front, line + front, column), "{}", show(&text));
            let column = if line == 1 { column + front } else { column };
            assert_eq!(behind(b' '), (before.number, place + front, line, column), "{}", show(&text));
        } else {
            assert_eq!(behind(b'\n'), (before.number, 0, 0, 0), "{}", show(&text));
        }
    }
}

/// What a refusal at a place of a text reports by a reading.
type Reading = fn(u32, usize, &[u8]) -> (usize, usize);

/// A reading with another end of lines, or another width of what stands before the place in its line; the place of 16 may lie
/// behind the text.
fn counted(place: usize, text: &[u8], ends: &[u8], width: impl Fn(&[u8]) -> usize) -> (usize, usize) {
    let lines: Vec<&[u8]> = text[..place.min(text.len())].split(|byte| ends.contains(byte)).collect();
    (lines.len(), 1 + width(lines[lines.len() - 1]))
}

fn none_or(number: u32, reading: (usize, usize)) -> (usize, usize) {
    if (2..=13).contains(&number) {
        reading
    } else {
        (0, 0)
    }
}

const WRONG_READINGS: [(&str, Reading); 11] = [
    ("a column from the line's first token", |number, place, text| {
        let blanks = |line: &[u8]| line.iter().take_while(|&&byte| byte == b' ').count();
        none_or(number, counted(place, text, b"\n", |line| line.len() - blanks(line)))
    }),
    ("a column in characters", |number, place, text| {
        none_or(number, counted(place, text, b"\n", |line| String::from_utf8_lossy(line).chars().count()))
    }),
    ("a TAB up to the next multiple of eight", |number, place, text| {
        let width = |at: usize, &byte: &u8| if byte == b'\t' { at / 8 * 8 + 8 } else { at + 1 };
        none_or(number, counted(place, text, b"\n", |line| line.iter().fold(0, width)))
    }),
    ("a column from 0", |number, place, text| {
        let (line, column) = counted(place, text, b"\n", |line| line.len());
        none_or(number, (line, column - 1))
    }),
    ("a line from 0", |number, place, text| {
        let (line, column) = counted(place, text, b"\n", |line| line.len());
        none_or(number, (line - 1, column))
    }),
    ("a column that does not restart", |number, place, text| {
        let (line, _) = counted(place, text, b"\n", |line| line.len());
        none_or(number, (line, place + 1))
    }),
    ("byte 13 as a line's end", |number, place, text| {
        none_or(number, counted(place, text, b"\r\n", |line| line.len()))
    }),
    ("comments that have no lines", |number, place, text| {
        let words = String::from_utf8_lossy(text).into_owned();
        let comment = words.find("COMMENT").map_or(0..0, |from| from..from + words[from..].find(';').unwrap_or(0));
        let mut without = text.to_vec();
        without.iter_mut().take(comment.end).skip(comment.start).for_each(|byte| *byte = b' ');
        none_or(number, counted(place, &without, b"\n", |line| line.len()))
    }),
    ("the end of a last line, not the line after it", |number, place, text| {
        let last = usize::from(place == text.len() && text.ends_with(b"\n"));
        none_or(number, counted(place - last, text, b"\n", |line| line.len()))
    }),
    ("line 1 and column 1 for place 0", |number, place, text| {
        if place == 0 {
            return (1, 1);
        }
        none_or(number, counted(place, text, b"\n", |line| line.len()))
    }),
    ("refusal 1 where its place is", |number, place, text| {
        let own = counted(place, text, b"\n", |line| line.len());
        if number == 1 {
            own
        } else {
            none_or(number, own)
        }
    }),
];

/// A text with the number, place, line and column that are right for it.
type Case = (Vec<u8>, u32, Spot);

/// How many of the cases tell each wrong reading from the right one, which agrees with all.
fn told_apart(cases: &[Case]) -> Vec<(&'static str, usize)> {
    for (text, number, spot) in cases {
        assert_eq!(reported(*number, spot.place, text), *spot, "{}", show(text));
    }
    let differs =
        |reading: Reading, (text, number, spot): &Case| reading(*number, spot.place, text) != (spot.line, spot.column);
    let count = |reading: Reading| cases.iter().filter(|case| differs(reading, case)).count();
    WRONG_READINGS.iter().map(|&(name, reading)| (name, count(reading))).collect()
}

#[test]
fn the_decided_texts_rule_out_wrong_readings() {
    let short = LINE_POINTS.iter().map(|point| {
        let (line, column) = point.line_and_column.expect("decided in section L");
        (point.text.to_vec(), point.number, Spot { place: point.place, line, column })
    });
    let long = long_line_points().into_iter().map(|point| (point.text, point.number, point.spot));
    let counts = told_apart(&short.chain(long).collect::<Vec<_>>());
    assert!(counts.iter().all(|&(_, count)| count > 0), "{counts:?}");
}

#[test]
fn the_stored_texts_rule_out_wrong_readings() {
    let stored: Vec<Case> =
        vectors::cases().into_iter().map(|case| (case.text, case.answer.number, case.answer.spot)).collect();
    let counts = told_apart(&stored);
    println!("{counts:?}");
    assert!(counts.iter().all(|&(_, count)| count >= 5), "{counts:?}");
}
