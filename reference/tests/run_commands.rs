//! The commands `run`, `runbatch`, `genrun` and `codetable` from outside.
use reference::runvectors::case_1;
use std::io::Write;
use std::process::{Command, Output, Stdio};

fn reference(args: &[&str], input: &[u8]) -> Output {
    let mut child = Command::new(env!("CARGO_BIN_EXE_reference"))
        .args(args)
        .stdin(Stdio::piped())
        .stdout(Stdio::piped())
        .stderr(Stdio::piped())
        .spawn()
        .unwrap();
    child.stdin.take().unwrap().write_all(input).unwrap();
    child.wait_with_output().unwrap()
}

fn text(output: &Output) -> String {
    String::from_utf8(output.stdout.clone()).unwrap()
}

/// A case of `runbatch`: this line, the object text of case 1, a newline.
fn case(line: &str) -> Vec<u8> {
    [line.as_bytes(), b"\n", &case_1(), b"\n"].concat()
}

#[test]
fn runbatch_answers_a_line_for_each_case() {
    let zeros = ["0"; 16].join(" ");
    let mut input = case(&format!("138 100 0 20480 {zeros}"));
    input.extend(case(&format!("138 100 4 20480 {zeros}")));
    input.extend(case(&format!("138 100 0 3 {zeros}")));
    let output = reference(&["runbatch"], &input);
    assert!(output.status.success());
    let lines: Vec<String> = text(&output).lines().map(str::to_string).collect();
    assert_eq!(lines.len(), 3);
    assert!(lines[0].starts_with("0 0 0 0 1 4108 2 3 0 8 0 0 0 0 0 0 0 0 0 0 0 0 8192 4096 "), "{}", lines[0]);
    assert!(lines[1].starts_with(&format!("18 0 0 0 0 0 4 0 {zeros} ")));
    // FNV-1a of three bytes 165, worked out by hand from its two constants.
    let hash = (0..3).fold(0xcbf29ce484222325u64, |hash, _| (hash ^ 165).wrapping_mul(0x100000001b3));
    assert_eq!(lines[2], format!("19 0 0 0 0 0 0 0 {zeros} {hash:016x}"));
}

#[test]
fn runbatch_refuses_input_that_is_no_row_of_cases() {
    for line in [
        "138 1 0 20480",
        "x",
        "138 4294967296 0 20480 0 0 0 0 0 0 0 0 0 0 0 0 0 0 0 0",
        "137 1 0 20480 0 0 0 0 0 0 0 0 0 0 0 0 0 0 0 0",
    ] {
        assert_eq!(reference(&["runbatch"], &case(line)).status.code(), Some(2), "{line}");
    }
    assert_eq!(reference(&["runbatch"], b"").status.code(), Some(0));
}

#[test]
fn run_reports_registers_and_refusals() {
    let path = std::env::temp_dir().join(format!("reference-case-1-{}", std::process::id()));
    std::fs::write(&path, case_1()).unwrap();
    let path = path.to_str().unwrap();
    let output = reference(&["run", path, "--reg", "2=-1", "--cc", "3", "--dump"], b"");
    assert_eq!(output.status.code(), Some(0));
    for part in [
        "stop 1: at 0A 00",
        "counter 4108 (00100C)",
        "instructions 3",
        "R1 00000008 8",
        "R2 FFFFFFFF -1",
        "002010  00000008 00000003",
    ] {
        assert!(text(&output).contains(part), "{part}");
    }
    let output = reference(&["run", path, "--budget", "2"], b"");
    assert!(text(&output).starts_with("stop 0: budget used\n"));
    let output = reference(&["run", path, "--storage", "20479"], b"");
    assert_eq!(
        (output.status.code(), text(&output).as_str()),
        (Some(1), "refusal 19 at 0: storage is under 20,480 bytes\n")
    );
    for wrong in [
        &["run"][..],
        &["run", path, "--reg", "16=1"],
        &["run", path, "--budget"],
        &["run", path, "--budget", "4294967296"],
    ] {
        assert_eq!(reference(wrong, b"").status.code(), Some(2), "{wrong:?}");
    }
    std::fs::remove_file(path).unwrap();
}

#[test]
fn genrun_feeds_runbatch() {
    let cases = reference(&["genrun", "5", "200"], b"").stdout;
    let answers = reference(&["runbatch"], &cases);
    assert_eq!(text(&answers).lines().count(), 200);
}

#[test]
fn codetable_has_a_row_for_every_listed_opcode() {
    let table = text(&reference(&["codetable"], b""));
    let mut opcodes: Vec<&str> = table.lines().map(|line| &line[..2]).collect();
    opcodes.sort_unstable();
    opcodes.dedup();
    assert_eq!(opcodes.len(), 44);
    assert!(table.contains("8910003F\tsll\tsll 1,63(0)\n"));
    assert!(table.contains("5810E010\tl\tl 1,16(0,14)\n"));
}
