//! The watcher of runs: it is silent at right programs, cries out at wrong ones, and reads a text as the translator does.

mod helpers;
use helpers::segment;
use reference::gen;
use reference::hunt::hunted;
use reference::meant::{meant, Does, Named};
use reference::objread;
use reference::random::Random;
use reference::runcase::Case;
use reference::slips::{Slip, SLIPS};
use reference::translate::{translate, translate_with};
use reference::watch::{watch, Clause, Cry, Given, Seen, Text, Watched};
use reference::watching::{
    campaign, reference_runner, reference_translator, try_changed_bytes, try_slip, Tally, Texts,
};

const STORAGE: usize = 20_480;

/// A run of the text from registers that hold 4·n, watched, with the object text of a translator with a slip.
fn watched(slip: Slip, text: &str, budget: u32) -> Result<Watched, Cry> {
    watched_from(std::array::from_fn(|n| 4 * n as u32), slip, text, budget)
}

fn watched_from(regs: [u32; 16], slip: Slip, text: &str, budget: u32) -> Result<Watched, Cry> {
    let object = translate_with(slip, text.as_bytes(), None).object;
    let program = objread::read(&object).unwrap_or_else(|| panic!("refused: {text}")).program;
    let known = Text { meant: meant(text.as_bytes()).expect("a program"), code: program };
    let given = Given { regs, cc: 0, budget, storage_length: STORAGE };
    let mut run = |budget| {
        let case = Case { object: object.clone(), budget, cc: given.cc, storage_length: STORAGE, regs: given.regs };
        reference_runner(&case)
    };
    watch(&known, &object, &given, &mut run).map(|(told, _)| told)
}

fn clause(slip: Slip, text: &str) -> Option<Clause> {
    watched(slip, text, 100).err().map(|cry| cry.clause)
}

#[test]
fn a_run_is_told_as_it_is() {
    let told = watched(Slip::None, "BEGIN PROCEDURE P(R5); R0 := R0 + R1; P; P; END @", 100).expect("right");
    let expected =
        Watched { stop: 1, instructions: 9, taken: 1, calls: 2, returns: 2, deepest: 1, ..Watched::default() };
    assert_eq!(told, expected);

    let text = "BEGIN SEGMENT BASE RC; ARRAY (2) INTEGER A; R1 := 7; A(4) := R1; R2 := A(R1); END @";
    let told = watched(Slip::None, text, 100).expect("right");
    let expected = Watched { stop: 3, instructions: 3, cells: 1, literals: 1, entries: 1, ..Watched::default() };
    assert_eq!(told, expected);

    let told = watched(Slip::None, "BEGIN L: GOTO L; END @", 12).expect("right");
    assert_eq!((told.stop, told.taken), (0, 12));
}

#[test]
fn a_chain_of_calls_is_followed_down_and_back() {
    let text = "BEGIN PROCEDURE A(R1); NULL; PROCEDURE B(R2); A; PROCEDURE C(R3); BEGIN B; A; END; C; C; END @";
    let told = watched(Slip::None, text, 100).expect("right");
    assert_eq!((told.calls, told.returns, told.deepest), (8, 8, 3));
}

#[test]
fn each_slip_is_cried_out_for() {
    let returns = "BEGIN PROCEDURE P(R5); R5 := R1; P; END @";
    assert_eq!(clause(Slip::ReturnsFree, returns), Some(Clause::Kept));
    let base = "BEGIN SEGMENT BASE RC; INTEGER A; BEGIN RC := R1; R2 := A; END; END @";
    assert_eq!(clause(Slip::BasesFreeInside, base), Some(Clause::Stops));
    let calls = "BEGIN PROCEDURE P(R5); R7 := R1; PROCEDURE Q(R6); P; PROCEDURE S(R7); Q; S; END @";
    assert_eq!(clause(Slip::CallsForgotten, calls), Some(Clause::Kept));
    let sibling =
        "BEGIN PROCEDURE P(R5); BEGIN SEGMENT BASE RC; INTEGER B; END; SEGMENT BASE RC; INTEGER A; P; R2 := A; END @";
    assert_eq!(clause(Slip::BasesForgotten, sibling), Some(Clause::Named));
    let literal = "BEGIN INTEGER A; R1 := 5; R1 := 6; END @";
    assert_eq!(clause(Slip::LiteralsFourOff, literal), Some(Clause::Named));
    let out = "BEGIN PROCEDURE P(R5); BEGIN GOTO L; END; P; L: END @";
    assert_eq!(clause(Slip::GotoOutOfBody, out), Some(Clause::Meant));
    let hidden = "BEGIN L: BEGIN GOTO L; R1 := R2; L: END; END @";
    assert_eq!(clause(Slip::GotoToOuter, hidden), Some(Clause::Meant));
    let state_3 = "BEGIN R1 := #7FFFFFFF + 1; IF < THEN R2 := R1; END @";
    assert_eq!(clause(Slip::LessAsTen, state_3), Some(Clause::Meant));
    for text in [literal, hidden, state_3] {
        assert_eq!(clause(Slip::None, text), None, "{text}");
    }
}

/// A runner that is the reference's but for what `spoil` does to the answer after so many instructions.
fn spoiled(text: &str, from: u32, spoil: impl Fn(&mut Seen)) -> Option<Clause> {
    let object = translate(text.as_bytes(), None).object;
    let known = Text { meant: meant(text.as_bytes()).expect("a program"), code: segment(&object, 0) };
    let given = Given { regs: [0; 16], cc: 0, budget: 100, storage_length: STORAGE };
    let mut run = |budget| {
        let case = Case { object: object.clone(), budget, cc: 0, storage_length: STORAGE, regs: [0; 16] };
        let mut seen = reference_runner(&case);
        if seen.answer.count >= from {
            spoil(&mut seen);
        }
        seen
    };
    watch(&known, &object, &given, &mut run).err().map(|cry| cry.clause)
}

#[test]
fn wrong_runners_are_cried_out_for() {
    let text = "BEGIN INTEGER A; R1 := 5; A := R1; IF R1 = 5 THEN R2 := A; END @";
    assert_eq!(spoiled(text, 0, |_| {}), None);
    assert_eq!(spoiled(text, 0, |seen| seen.answer.cc = 1), Some(Clause::Loaded));
    assert_eq!(spoiled(text, 0, |seen| seen.storage[8192 + 16] = 1), Some(Clause::Loaded));
    assert_eq!(spoiled(text, 1, |seen| seen.answer.counter += 2), Some(Clause::Meant));
    assert_eq!(spoiled(text, 2, |seen| seen.storage[8192 + 20] = 1), Some(Clause::Unchanged));
    assert_eq!(spoiled(text, 2, |seen| seen.storage[8192] = 1), Some(Clause::Unchanged));
    assert_eq!(spoiled(text, 2, |seen| seen.storage[4096] = 1), Some(Clause::Unchanged));
    assert_eq!(spoiled(text, 2, |seen| seen.storage[20_479] = 1), Some(Clause::Kept));
    assert_eq!(spoiled(text, 1, |seen| seen.answer.regs[7] = 1), Some(Clause::Kept));
    assert_eq!(spoiled(text, 1, |seen| seen.answer.regs[14] = 1), Some(Clause::Kept));
    assert_eq!(spoiled(text, 5, |seen| seen.answer.stop = 4), Some(Clause::OneRun));
    let at_end = |seen: &mut Seen, stop| {
        if seen.answer.stop == 1 {
            seen.answer.stop = stop;
        }
    };
    assert_eq!(spoiled(text, 5, |seen| at_end(seen, 4)), Some(Clause::Stops));
    assert_eq!(spoiled(text, 5, |seen| at_end(seen, 0)), Some(Clause::Stops));
    assert_eq!(spoiled(text, 5, |seen| at_end(seen, 2)), Some(Clause::Stops));
}

/// Both accounts of a text have the same instructions at the same places, with as many literals.
#[test]
fn a_text_is_read_as_it_is_translated() {
    let texts = (0..6_000).map(|number| gen::case(9, number));
    let hunts = (0..2_000).map(|number| hunted(&mut Random::new(9, number), Slip::None));
    let (mut accepted, mut kinds) = (0, [0; 9]);
    for text in texts.chain(hunts) {
        let answer = translate(&text, None);
        if answer.number != 0 {
            continue;
        }
        accepted += 1;
        let object = objread::read(&answer.object).expect("of the form");
        let meant = meant(&text).expect("a program");
        assert_eq!(meant.length(), object.program.len());
        assert_eq!(meant.literals.len() / 4 * 4, meant.literals.len());
        for one in &meant.written {
            let bytes = &object.program[one.offset..one.offset + one.length];
            let (opcode, target) = (bytes[0], u32::from(*bytes.last().expect("a byte")));
            let (length, kind) = match one.does {
                Does::OnRegisters => (if opcode < 0x40 { 2 } else { 4 }, 0),
                Does::WithOperand(operand) => {
                    assert_eq!(matches!(opcode, 0x40 | 0x42 | 0x50 | 0x92), operand.stored);
                    let size = match opcode {
                        0x42 | 0x43 | 0x92 | 0x95 => 1,
                        0x00..=0x4F => 2,
                        _ => 4,
                    };
                    assert_eq!(size, operand.size);
                    assert_eq!(opcode >= 0x90, operand.immediate);
                    assert_eq!(bytes[1] % 16 != 0 && !operand.immediate, operand.indexed);
                    if let Named::Entry(segment) = operand.named {
                        assert_eq!(target, 4 * segment as u32);
                    }
                    (4, 1)
                }
                Does::Address { operand, register } => {
                    assert_eq!((bytes[1] / 16, bytes[1] % 16 != 0), (register, operand.indexed));
                    (4 * usize::from(opcode == 0x41), 1)
                }
                Does::Branch { .. } => (4 * usize::from(opcode == 0x47), 2),
                Does::PassesOver { above, .. } => {
                    (4 * usize::from(bytes[..2] == [0x47, if above.is_some() { 0x20 } else { 0xC0 }]), 6)
                }
                Does::Chooses { register, .. } => (4 * usize::from(*bytes == [0x89, 16 * register, 0, 2]), 7),
                Does::EntersTable(table) => {
                    assert_eq!(usize::from(bytes[2] % 16) * 256 + usize::from(bytes[3]), meant.points[table] - 4);
                    (4 * usize::from(opcode == 0x47 && bytes[1] / 16 == 15 && bytes[1] % 16 != 0), 8)
                }
                Does::Call(_) => (4 * usize::from(opcode == 0x45), 3),
                Does::Return(_) => (2 * usize::from(opcode == 0x07), 4),
                Does::End => (2 * usize::from(bytes == [0x0A, 0x00]), 5),
            };
            assert_eq!(length, one.length, "{:?} as {bytes:02X?}", one.does);
            kinds[kind] += 1;
        }
    }
    assert!(accepted > 3_000, "{accepted}");
    assert!(kinds.iter().all(|&times| times > 1_000), "{kinds:?}");
}

#[test]
fn the_examples_are_watched_in_silence() {
    let text = |name: &str| {
        let file = format!("{}/../examples/{name}.pl360", env!("CARGO_MANIFEST_DIR"));
        std::fs::read_to_string(file).expect("an example")
    };
    let run = |name: &str, given: &[(usize, u32)]| {
        let mut regs = [0; 16];
        given.iter().for_each(|&(register, value)| regs[register] = value);
        watched_from(regs, Slip::None, &text(name), 100_000).unwrap_or_else(|cry| panic!("{name}: {cry}"))
    };
    let magic = run("magic", &[(0, 7)]);
    assert_eq!((magic.stop, magic.instructions, magic.calls), (1, 1153, 1));
    let search = run("search", &[(1, 34)]);
    assert_eq!((search.stop, search.instructions), (1, 40));
    let legs = run("legs", &[(3, 5)]);
    assert_eq!((legs.stop, legs.chosen, legs.passed_over), (1, 9, 3));
    let datum = run("datum", &[(1, 614_321), (3, 289_876)]);
    assert_eq!((datum.stop, datum.calls, datum.returns, datum.indexed), (1, 2, 2, 8));
}

fn silent(tally: &Tally, count: u64) {
    assert_eq!(tally.programs, count);
    assert!(tally.cries.is_empty(), "{:?}", tally.cries);
    assert!((0..4).all(|stop| tally.stops[&stop] > 0) && tally.stops.len() == 4, "{:?}", tally.stops);
}

#[test]
fn runs_of_generated_and_hunted_texts_are_watched_in_silence() {
    let tally = campaign(Texts::Generated, 11, 1_000, &mut reference_translator, &mut reference_runner);
    silent(&tally, 1_000);
    let tally = campaign(Texts::Hunted, 11, 1_000, &mut reference_translator, &mut reference_runner);
    silent(&tally, 1_000);
    assert!(tally.sum.deepest > 8 && tally.sum.calls > 3_000 && tally.refused[&10] > 20, "{}", tally.report());
}

#[test]
fn one_changed_byte_is_cried_out_for_wherever_it_matters() {
    for texts in [Texts::Generated, Texts::Hunted] {
        let trial = try_changed_bytes(texts, 13, 800);
        assert!(trial.missed.is_empty() && trial.cried() > 400, "{}", trial.report("one byte"));
        let clauses = [Clause::Loaded, Clause::Written, Clause::Named, Clause::Stops];
        assert!(clauses.iter().all(|clause| trial.cries.contains_key(clause)), "{}", trial.report("one byte"));
    }
}

#[test]
fn wrong_translators_are_cried_out_for_and_nothing_else_is() {
    for slip in SLIPS {
        let trial = try_slip(slip, Texts::Hunted, 17, 1_000);
        assert!(trial.false_cries.is_empty(), "{}", trial.report("slip"));
        assert!(trial.wrong > 0, "{slip:?}: {}", trial.report("slip"));
        let harmless = matches!(slip, Slip::NestedForgotten | Slip::CasesForgotten);
        assert_eq!(trial.cried() == 0, harmless, "{slip:?}: {}", trial.report("slip"));
    }
}
