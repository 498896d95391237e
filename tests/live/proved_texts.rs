//! The proved token reader and grammar, called through their static library, and the reference's tokens.

use reference::spot::Spot;
use reference::token::{self, Refusal, Token, TEXT_LIMIT};

/// A reader of tokens: the text and five lists, each slice as its pointer and its length; then where place, line, column and the count of tokens go.
pub type Reader = unsafe extern "C" fn(
    *const u8,
    usize,
    *mut u8,
    usize,
    *mut u64,
    usize,
    *mut u32,
    usize,
    *mut u32,
    usize,
    *mut u32,
    usize,
    *mut [usize; 4],
) -> u64;

macro_rules! reader {
    ($name:ident) => {
        extern "C" {
            pub fn $name(
                text: *const u8,
                text_length: usize,
                kinds: *mut u8,
                kinds_length: usize,
                values: *mut u64,
                values_length: usize,
                places: *mut u32,
                places_length: usize,
                lines: *mut u32,
                lines_length: usize,
                columns: *mut u32,
                columns_length: usize,
                told: *mut [usize; 4],
            ) -> u64;
        }
    };
}
reader!(tautgaff_read_tokens);

extern "C" {
    /// Told are place, line and column.
    fn tautgaff_grammatical(text: *const u8, text_length: usize, told: *mut [usize; 3]) -> u64;
}

/// The number answered, and where.
pub type Verdict = (u64, Spot);

/// Refusals 1 to 5, or 0.
pub fn proved_grammar(text: &[u8]) -> Verdict {
    let mut told = [usize::MAX; 3];
    let number = unsafe { tautgaff_grammatical(text.as_ptr(), text.len(), &mut told) };
    let [place, line, column] = told;
    (number, Spot { place, line, column })
}

/// Room for the tokens of any text.
pub struct Lists {
    pub kinds: Vec<u8>,
    pub values: Vec<u64>,
    /// Places, lines and columns.
    pub spots: [Vec<u32>; 3],
}

impl Lists {
    pub fn new() -> Lists {
        let room = TEXT_LIMIT + 1;
        Lists { kinds: vec![0; room], values: vec![0; room], spots: [(); 3].map(|_| vec![0; room]) }
    }

    /// What the reader says with so much room lent, and how many tokens there are.
    pub fn read(&mut self, reader: Reader, text: &[u8], room: usize) -> (Verdict, usize) {
        let Lists { kinds, values, spots: [places, lines, columns] } = self;
        let mut told = [usize::MAX; 4];
        let number = unsafe {
            reader(
                text.as_ptr(),
                text.len(),
                kinds[..room].as_mut_ptr(),
                room,
                values[..room].as_mut_ptr(),
                room,
                places[..room].as_mut_ptr(),
                room,
                lines[..room].as_mut_ptr(),
                room,
                columns[..room].as_mut_ptr(),
                room,
                &mut told,
            )
        };
        let [place, line, column, count] = told;
        ((number, Spot { place, line, column }), count)
    }
}

/// Refusals 1 to 3, or the tokens.
pub fn reference_tokens(text: &[u8]) -> Result<Vec<Token>, Refusal> {
    if text.len() > TEXT_LIMIT {
        return Err(Refusal { number: 1, spot: Spot::without_line(TEXT_LIMIT) });
    }
    token::tokens(text)
}

pub fn verdict<T>(answer: &Result<T, Refusal>) -> Verdict {
    match answer {
        Ok(_) => (0, Spot::NONE),
        Err(refusal) => (refusal.number as u64, refusal.spot),
    }
}
