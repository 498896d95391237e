//! The translator: all passes, and the groups of refusals in order.

use crate::code::{code, literals, program_bytes, Findings};
use crate::grammar::program;
use crate::kinds::meanings;
use crate::labels::labels;
use crate::layout::{layout, next_multiple, FIRST_DATA, SEGMENT_LIMIT};
use crate::names::names;
use crate::object::{data_segments, object_text};
use crate::slips::Slip;
use crate::spot::Spot;
use crate::token::{tokens, Refusal, TEXT_LIMIT};
use crate::violations::Violations;

/// "Translator: number, place, length.", with line and column. The length is that of the object text, which is empty in a
/// refusal.
#[derive(Clone, PartialEq, Eq, Debug)]
pub struct Answer {
    pub number: u32,
    pub spot: Spot,
    pub object: Vec<u8>,
}

/// The answer for a source and a buffer of `room` bytes, None for one that is always long enough.
pub fn translate(source: &[u8], room: Option<usize>) -> Answer {
    translate_with(Slip::None, source, room)
}

/// The answer of a translator with a slip.
pub fn translate_with(slip: Slip, source: &[u8], room: Option<usize>) -> Answer {
    match object_for(slip, source, room) {
        Ok(object) => Answer { number: 0, spot: Spot::NONE, object },
        Err(Refusal { number, spot }) => Answer { number, spot, object: Vec::new() },
    }
}

/// "Groups in order: 1; 2, 3; 4, 5; 6 to 13; 14; 15; 16."
fn object_for(slip: Slip, source: &[u8], room: Option<usize>) -> Result<Vec<u8>, Refusal> {
    refuse_if(source.len() > TEXT_LIMIT, 1, TEXT_LIMIT)?;
    let tokens = &tokens(source)?;
    let program = &program(tokens)?;

    let mut violations = Violations::new(tokens);
    let found = names(program, tokens, &mut violations);
    let labels = labels(program, tokens, slip, &mut violations);
    let layout = layout(program, tokens, &mut violations);
    let meanings = meanings(program, tokens, &found, slip, &mut violations);
    if let Some(least) = violations.least() {
        return Err(least);
    }

    let findings = Findings { tokens, found: &found, meanings: &meanings, labels: &labels, layout: &layout, slip };
    let code = code(program, findings);
    refuse_if(code.length > SEGMENT_LIMIT, 14, 0)?;

    // "from the next multiple of 4 after segment 1's cells"
    let literals = literals(&code.instructions);
    let first_literal = next_multiple(layout.ends[FIRST_DATA], 4);
    refuse_if(!literals.is_empty() && first_literal + 4 * literals.len() > SEGMENT_LIMIT, 15, 0)?;

    let looked_for_at = if slip == Slip::LiteralsFourOff { first_literal + 4 } else { first_literal };
    let bytes = program_bytes(&code, &literals, looked_for_at);
    let data = data_segments(program, tokens, &layout, &literals, first_literal);
    let object = object_text(&bytes, &data);
    refuse_if(matches!(room, Some(room) if room < object.len()), 16, object.len())?;
    Ok(object)
}

/// Refusals 1 and 14 to 16, which report no line and column.
fn refuse_if(broken: bool, number: u32, place: usize) -> Result<(), Refusal> {
    if broken {
        return Err(Refusal { number, spot: Spot::without_line(place) });
    }
    Ok(())
}
