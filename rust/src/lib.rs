//! PL360, translated and run, with proof.
//!
//! A safe wrapper of `libtautgaff.a`, whose two functions are proved to do what the papers say, for all they may be handed (`docs/PROMISES.md`). They have
//! no state of their own, open, print and allocate nothing, and always return: they may be called from any thread, and from several at once.
//!
//! ```
//! let object = tautgaff::translated(b"BEGIN R1 := R1 + 2; END @").unwrap();
//! let mut storage = [0; tautgaff::STORAGE_NEEDED];
//! let mut registers = [0; 16];
//! registers[1] = 40;
//! let end = tautgaff::run(&object, 0, 1000, &mut registers, &mut storage).unwrap();
//! assert_eq!((end.stop, registers[1]), (tautgaff::Stop::AtEnd, 42));
//! ```
//!
//! Linking: `build.rs` looks for the library where `make library` puts it, or in the folder that the environment variable `TAUTGAFF_LIB` names. x86-64 Linux.

use std::fmt;

/// No source of more bytes is read.
pub const SOURCE_LIMIT: usize = 32_768;

/// Every object text fits a buffer of so many bytes: it has four segments of at most 4,096 bytes.
pub const OBJECT_LIMIT: usize = 44_095;

/// A run takes so many bytes of storage.
pub const STORAGE_NEEDED: usize = 20_480;

/// The longest source that is translated on the caller's stack, of which it takes at most 640 KB.
const ON_CALLERS_STACK: usize = 8_192;

/// The stack of the thread on which a longer one is.
const STACK_LONG: usize = 2_400 * 1_024;

extern "C" {
    fn tautgaff_translate(
        source: *const u8,
        source_length: usize,
        buffer: *mut u8,
        buffer_length: usize,
        answer: *mut [usize; 4],
    ) -> u64;

    fn tautgaff_run(
        object: *const u8,
        object_length: usize,
        code: u64,
        budget: u32,
        registers: *mut [u32; 16],
        storage: *mut u8,
        storage_length: usize,
        results: *mut [u64; 7],
    ) -> u64;
}

/// Why a source was not translated (1 to 16) or an object text not run (17 to 19); `docs/REFUSALS.md` says of each when it is given.
#[derive(Clone, Copy, Debug, PartialEq, Eq, Hash)]
pub struct Refusal {
    pub number: u8,
    /// The offset in the source of the first byte of what is refused; for 16 the length that the buffer has to have; for 14, 15 and 17 to 19 it is 0.
    pub place: usize,
    /// Its line and its column in the source, both from 1, counted in bytes; only byte 10 ends a line. For 1 and for 14 to 19 both are 0.
    pub line: usize,
    pub column: usize,
}

impl Refusal {
    /// What the number means, in a few words.
    pub fn meaning(&self) -> &'static str {
        match self.number {
            1 => "the source is too long",
            2 => "a byte that is in no token, or a comment that is not closed",
            3 => "a number out of range",
            4 => "no program goes on like this",
            5 => "constructs inside each other more than 64 deep",
            6 => "a name that is not declared, a label that is not set",
            7 => "declared twice",
            8 => "a name or token that does not fit",
            9 => "a register that cannot be this one",
            10 => "a protected register is written",
            11 => "a value that is out of bounds",
            12 => "a cell past the end of its segment, or a third base declaration",
            13 => "too many names",
            14 => "the program is too long",
            15 => "no room for the literals",
            16 => "the buffer is too short",
            17 => "no object text",
            18 => "no condition code",
            _ => "too little storage",
        }
    }
}

impl fmt::Display for Refusal {
    fn fmt(&self, f: &mut fmt::Formatter<'_>) -> fmt::Result {
        let Refusal { number, place, line, column } = self;
        match line {
            0 => write!(f, "refusal {number} at {place}: {}", self.meaning()),
            _ => write!(f, "refusal {number} at line {line}, column {column}: {}", self.meaning()),
        }
    }
}

impl std::error::Error for Refusal {}

/// Why a run stopped.
#[derive(Clone, Copy, Debug, PartialEq, Eq, Hash)]
pub enum Stop {
    BudgetUsed = 0,
    AtEnd = 1,
    ForbiddenOperand = 2,
    MisalignedOperand = 3,
    NoInstruction = 4,
}

impl Stop {
    fn of(number: u64) -> Stop {
        match number {
            0 => Stop::BudgetUsed,
            1 => Stop::AtEnd,
            2 => Stop::ForbiddenOperand,
            3 => Stop::MisalignedOperand,
            _ => Stop::NoInstruction,
        }
    }
}

/// How a run ended.
#[derive(Clone, Copy, Debug, PartialEq, Eq, Hash)]
pub struct End {
    pub stop: Stop,
    /// The address of the next instruction, or of the one that stopped.
    pub counter: u32,
    /// The condition code, 0 to 3.
    pub code: u8,
    /// Instructions completed.
    pub count: u32,
}

/// Translates a source, any bytes, into the buffer, and says how many bytes the object text has; every later byte of the buffer is as it was. Where the source
/// is refused every byte is.
///
/// A source of up to 1,024 bytes takes less than 128 KB of stack, one of up to 8,192 bytes less than 640 KB; a longer one is translated on a thread of its own.
///
/// # Panics
///
/// If the system has no thread to give for a source of more than 8,192 bytes.
pub fn translate(source: &[u8], buffer: &mut [u8]) -> Result<usize, Refusal> {
    if source.len() <= ON_CALLERS_STACK {
        return translate_here(source, buffer);
    }
    std::thread::scope(|threads| {
        let builder = std::thread::Builder::new().stack_size(STACK_LONG);
        let thread = builder.spawn_scoped(threads, || translate_here(source, buffer));
        thread.expect("a thread for a long source").join().expect("a translation always returns")
    })
}

fn translate_here(source: &[u8], buffer: &mut [u8]) -> Result<usize, Refusal> {
    let mut answer = [0; 4];
    // Safety: each pointer and length is that of a slice or a local, which are valid for the call; the ones written are lent alone.
    let number = unsafe {
        tautgaff_translate(source.as_ptr(), source.len(), buffer.as_mut_ptr(), buffer.len(), &mut answer)
    };
    let [place, line, column, length] = answer;
    if number == 0 {
        Ok(length)
    } else {
        Err(Refusal { number: number as u8, place, line, column })
    }
}

/// The object text of a source, as [`translate`] makes it.
///
/// # Panics
///
/// As [`translate`].
pub fn translated(source: &[u8]) -> Result<Vec<u8>, Refusal> {
    let mut buffer = vec![0; OBJECT_LIMIT];
    let length = translate(source, &mut buffer)?;
    buffer.truncate(length);
    Ok(buffer)
}

/// Loads an object text, any bytes, into the storage and runs it for at most `budget` instructions.
///
/// `code` is the condition code to begin with. When it has run, the registers are as the run left them (14 is 8192 and 15 is 4096 when it begins), the first
/// 20,480 bytes of the storage are program and data as it left them, whatever stood there before, and every later byte is as it was. Where it is refused,
/// registers and storage are as they were. The time is in proportion to the budget at most. It takes less than 16 KB of stack.
pub fn run(
    object: &[u8],
    code: u64,
    budget: u32,
    registers: &mut [u32; 16],
    storage: &mut [u8],
) -> Result<End, Refusal> {
    let mut results = [0; 7];
    // Safety: each pointer and length is that of a slice, an array or a local, which are valid for the call; the ones written are lent alone.
    let number = unsafe {
        tautgaff_run(
            object.as_ptr(),
            object.len(),
            code,
            budget,
            registers,
            storage.as_mut_ptr(),
            storage.len(),
            &mut results,
        )
    };
    let [place, line, column, stop, counter, code, count] = results;
    if number != 0 {
        let [place, line, column] = [place, line, column].map(|number| number as usize);
        return Err(Refusal { number: number as u8, place, line, column });
    }
    Ok(End { stop: Stop::of(stop), counter: counter as u32, code: code as u8, count: count as u32 })
}
