//! Generated texts translated and run: the reader takes what the translator writes, and no run leaves the program.
use reference::assemble::text_of;
use reference::gen::case;
use reference::genrun::value;
use reference::objread::read;
use reference::random::Random;
use reference::runner::{run, STORAGE_NEEDED};
use reference::runvectors::{case_1, case_6, case_8};
use reference::translate::translate;

const TEXTS: u64 = 4_000;
const BUDGET: u32 = 5_000;

#[test]
fn translated_texts_are_read_and_run() {
    let (mut accepted, mut stops) = (0, [0; 5]);
    for number in 0..TEXTS {
        let answer = translate(&case(77, number), None);
        if answer.number != 0 {
            continue;
        }
        accepted += 1;
        let object = read(&answer.object).expect("of the form");
        assert_eq!(text_of(&object), answer.object);
        let mut random = Random::new(5, number);
        let regs =
            std::array::from_fn(|_| if random.chance(1, 2) { 4 * random.below(10) as u32 } else { value(&mut random) });
        let answer = run(&answer.object, regs, random.below(4) as u64, BUDGET, &mut vec![165; STORAGE_NEEDED]);
        assert_eq!(answer.number, 0);
        assert_ne!(answer.stop, 4, "text {number} of seed 77");
        assert_eq!((answer.regs[14], answer.regs[15]), (8192, 4096), "text {number} of seed 77");
        stops[answer.stop as usize] += 1;
    }
    assert!(accepted >= TEXTS as usize / 3, "{accepted}");
    assert!(stops[..4].iter().all(|&times| times > 0), "{stops:?}");
}

#[test]
fn the_papers_cases_made_by_hand_are_what_their_texts_translate_to() {
    for (source, object) in [
        ("BEGIN INTEGER A(5); R1 := A + 3; A := R1; END @", case_1()),
        ("BEGIN PROCEDURE P(R5); R0 := R0 + R1; P; END @", case_6()),
        ("BEGIN FOR R1 := 0 STEP 1 UNTIL 9 DO NULL; END @", case_8()),
    ] {
        assert_eq!(translate(source.as_bytes(), None).object, object, "{source}");
    }
}
