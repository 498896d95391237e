//! The proved translator, called through its static library.

use reference::spot::Spot;
use reference::translate::Answer;

extern "C" {
    /// The answer is place, line, column and length.
    fn tautgaff_translate(
        source: *const u8,
        source_length: usize,
        buffer: *mut u8,
        buffer_length: usize,
        answer: *mut [usize; 4],
    ) -> u64;
}

/// No object text is longer: four segments of 4,096 bytes each.
pub const ROOM: usize = 45_056;

/// "Translator: number, place, length.", with line and column.
#[derive(PartialEq, Eq, Debug)]
pub struct Told {
    pub number: u64,
    pub spot: Spot,
    pub length: usize,
}

/// What the reference says.
impl From<&Answer> for Told {
    fn from(answer: &Answer) -> Told {
        Told { number: answer.number as u64, spot: answer.spot, length: answer.object.len() }
    }
}

/// What is said of the source; its object text is left in the buffer.
pub fn proved_translation(source: &[u8], buffer: &mut [u8]) -> Told {
    let mut answer = [usize::MAX; 4];
    let number =
        unsafe { tautgaff_translate(source.as_ptr(), source.len(), buffer.as_mut_ptr(), buffer.len(), &mut answer) };
    let [place, line, column, length] = answer;
    Told { number, spot: Spot { place, line, column }, length }
}
