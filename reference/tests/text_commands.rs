//! The commands on texts, as a user or a script calls them.

use reference::cmd_text::{fnv1a, read_case};
use reference::gen;
use reference::translate::translate;
use std::io::Write;
use std::process::{Command, Output, Stdio};

fn reference(args: &[&str], input: &[u8]) -> Output {
    let mut child = Command::new(env!("CARGO_BIN_EXE_reference"))
        .args(args)
        .stdin(Stdio::piped())
        .stdout(Stdio::piped())
        .stderr(Stdio::piped())
        .spawn()
        .expect("the command starts");
    let mut stdin = child.stdin.take().expect("standard input");
    let input = input.to_vec();
    let writer = std::thread::spawn(move || stdin.write_all(&input));
    let output = child.wait_with_output().expect("the command ends");
    writer.join().expect("the writer ends").expect("all input is taken");
    output
}

#[test]
fn translate_prints_the_object_text_or_the_refusal() {
    let dir = std::env::temp_dir().join(format!("reference-translate-{}", std::process::id()));
    std::fs::create_dir_all(&dir).expect("a directory");
    let file = dir.join("text");
    let path = file.to_str().expect("a path").to_string();

    let text = b"BEGIN INTEGER A(5); R1 := A + 3; A := R1; END @";
    std::fs::write(&file, text).expect("a file");
    let output = reference(&["translate", &path], b"");
    assert_eq!((output.status.code(), output.stdout), (Some(0), translate(text, None).object));

    let refused = [
        ("BEGIN\nRE := R1; END @", "refused 10 at 6, line 2 column 1\n"),
        ("\nBEGIN ARRAY (1020) INTEGER A; R1 := 5; END @", "refused 15 at 0\n"),
    ];
    for (text, said) in refused {
        std::fs::write(&file, text).expect("a file");
        let output = reference(&["translate", &path], b"");
        assert_eq!(output.status.code(), Some(1));
        assert_eq!((output.stdout.as_slice(), output.stderr.as_slice()), (&b""[..], said.as_bytes()));
    }
    std::fs::remove_dir_all(&dir).expect("the directory goes");
}

#[test]
fn batch_answers_each_case_on_a_line() {
    let cases = b"11\nBEGIN END @\n0\n\n21\nBEGIN RE := R1; END @\n6\nBE\nGIN\n12\nBEGIN END\n  \n";
    let output = reference(&["batch"], cases);
    let accepted = fnv1a(&translate(b"BEGIN END @", None).object);
    let nothing = "0 cbf29ce484222325";
    let wanted = format!(
        "0 0 0 0 87 {accepted:016x}\n4 0 1 1 {nothing}\n10 6 1 7 {nothing}\n4 0 1 1 {nothing}\n4 12 2 3 {nothing}\n"
    );
    assert_eq!(String::from_utf8_lossy(&output.stdout), wanted);
    assert_eq!(output.status.code(), Some(0));
}

#[test]
fn batch_takes_no_case_that_is_cut_short() {
    for input in ["11\nBEGIN", "x\nBEGIN END @\n", "11 BEGIN END @", "5\nBEGIN END @\n", "-1\n\n"] {
        assert_eq!(reference(&["batch"], input.as_bytes()).status.code(), Some(2), "{input}");
    }
    assert_eq!(reference(&["batch"], b"").status.code(), Some(0));
}

/// Known values of FNV-1a with 64 bits.
#[test]
fn the_hash_is_fnv_1a() {
    assert_eq!(fnv1a(b""), 0xcbf2_9ce4_8422_2325);
    assert_eq!(fnv1a(b"a"), 0xaf63_dc4c_8601_ec8c);
    assert_eq!(fnv1a(b"foobar"), 0x8594_4171_f739_67e8);
}

#[test]
fn gen_writes_cases_that_batch_takes() {
    let cases = reference(&["gen", "17", "300"], b"").stdout;
    assert_eq!(cases, reference(&["gen", "17", "300"], b"").stdout);
    let mut rest = cases.as_slice();
    for number in 0..300 {
        assert_eq!(read_case(&mut rest), Some(gen::case(17, number).as_slice()));
    }
    assert!(rest.is_empty());
    let answers = reference(&["batch"], &cases);
    assert_eq!(answers.stdout.iter().filter(|&&byte| byte == 10).count(), 300);
}

#[test]
fn other_words_are_no_command() {
    for args in [&[][..], &["translate"], &["gen", "x", "1"], &["batch", "more"], &["nothing"]] {
        let output = reference(args, b"");
        assert_eq!(output.status.code(), Some(2), "{args:?}");
        assert!(!output.stderr.is_empty());
    }
}
