//! The points of docs/DECISIONS.md: those in the table, and those whose texts are long or whose object text matters.

mod helpers;
use helpers::*;
use reference::points::{points, Point};

#[test]
fn every_point_is_read_as_decided() {
    for point in points() {
        assert_eq!(verdict(point.text), (point.number, point.place), "{}: {}", point.name, show(point.text));
        if let Some(decided) = point.line_and_column {
            let spot = answer(point.text).spot;
            assert_eq!((spot.line, spot.column), decided, "{}: {}", point.name, show(point.text));
        }
        if !point.code.is_empty() {
            let program = segment(&answer(point.text).object, 0);
            assert_eq!(program, bytes(point.code), "{}: {}", point.name, show(point.text));
        }
    }
}

/// The line of the document that has the point.
fn decision(point: &Point) -> String {
    let escaped = |&byte: &u8| match byte {
        b'\n' => "\\n".to_string(),
        b'\r' => "\\r".to_string(),
        b'\t' => "\\t".to_string(),
        b' '..=b'~' => char::from(byte).to_string(),
        _ => format!("\\x{byte:02x}"),
    };
    let text: String = point.text.iter().map(escaped).collect();
    let place = if point.number == 0 { String::new() } else { format!(" at {}", point.place) };
    let line = point.line_and_column.map_or(String::new(), |(line, column)| format!(", line {line} column {column}"));
    let code = if point.code.is_empty() { String::new() } else { format!(", code {}", point.code) };
    format!("- `{text}` gives {}{place}{line}{code}", point.number)
}

#[test]
fn the_points_are_the_texts_of_the_document() {
    let document = include_str!("../../docs/DECISIONS.md");
    let mut told = Vec::new();
    let mut section = "";
    for line in document.lines() {
        if let Some(heading) = line.strip_prefix("### ") {
            section = heading.split(' ').next().unwrap_or(heading);
        }
        if line.starts_with("- `") && line.contains("` gives ") {
            told.push((section, line));
        }
    }
    for point in points() {
        let decision = decision(point);
        let is_it = |&(section, line): &(&str, &str)| {
            let behind = line.strip_prefix(decision.as_str());
            section == point.name && matches!(behind, Some(rest) if rest.is_empty() || rest.starts_with([';', ',']))
        };
        assert!(told.iter().any(is_it), "{}: {decision}", point.name);
    }
    assert_eq!(told.len(), points().count());
}

/// `text` has one `!` where the refusal is.
fn refused(point: &str, number: u32, text: &str) {
    println!("{point}");
    assert_refused(number, text);
}

#[test]
fn points_on_long_texts() {
    let padded = |blanks: usize| "BEGIN END @".to_string() + &" ".repeat(blanks);
    assert_eq!(verdict(padded(32_768 - 11).as_bytes()), (0, 0), "T1");
    assert_eq!(verdict(padded(32_768 - 10).as_bytes()), (1, 32_768), "T1");

    let names = |count: usize| -> Vec<String> { (0..count).map(|number| format!("N{number}")).collect() };
    let declared = |count: usize| format!("BEGIN INTEGER {}; END @", names(count).join(", "));
    assert_eq!(verdict(declared(241).as_bytes()), (0, 0), "N9");
    assert_eq!(verdict(declared(256).as_bytes()), (0, 0), "N9");
    refused("N9", 13, &declared(257).replace("N256", "!N256"));

    let blocks = |count: usize, inner: &str| format!("BEGIN {} END @", inner.repeat(count));
    let registers = "BEGIN INTEGER REGISTER X(1); END; ";
    assert_eq!(verdict(blocks(256, registers).as_bytes()), (0, 0), "N9");
    assert_eq!(verdict(blocks(257, registers).as_bytes()), (13, 6 + 256 * registers.len() + 23), "N9");
    let labels = "BEGIN L: END; ";
    assert_eq!(verdict(blocks(256, labels).as_bytes()), (0, 0), "N11");
    assert_eq!(verdict(blocks(257, labels).as_bytes()), (13, 6 + 256 * labels.len() + 6), "N11");
}

#[test]
fn points_on_object_texts() {
    let object = |text: &str| String::from_utf8(answer(text.as_bytes()).object).expect("hexadecimal");
    assert!(object("BEGIN SEGMENT BASE RC; END @").ends_with("\n0202000000000000\nFF\n"), "D2");
    assert!(object("BEGIN SHORT INTEGER S; R1 := 5; END @").contains("\n0201001800100012\n"), "D4");
    assert!(object("BEGIN END @").contains("\n0201001000100010\n00010000100"), "D5");
    assert!(object("BEGIN SHORT INTEGER S; END @").contains("\n0201001200100012\n"), "D6");
    assert!(
        object("BEGIN ARRAY (4) INTEGER A; END @").ends_with("\n000100101000000000000000000000000000000000\nFF\n"),
        "O1"
    );
}

#[test]
fn an_index_on_what_is_no_array_is_8_at_the_name_before_it() {
    refused("K2", 8, "BEGIN INTEGER I; R1 := !I(R2); END @");
    refused("K2", 8, "BEGIN INTEGER I; !I(R2) := R1; END @");
    refused("K2", 8, "BEGIN SHORT INTEGER I; R1 := R1 + !I(R2); END @");
}
