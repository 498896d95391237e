//! The runner: refusals 17 to 19, loading, and instructions until a stop.

use crate::machine::{origin, step, Map, Segment, State, Stop};
use crate::objread::{self, ObjectText};
use crate::spot::Spot;

/// "19 storage under 20,480 bytes".
pub const STORAGE_NEEDED: usize = 20_480;

/// The answer of a run; a refusal has registers and code as given and zeros elsewhere. Place, line and column are always 0.
#[derive(Clone, Copy, Debug, PartialEq, Eq)]
pub struct RunAnswer {
    pub number: u32,
    pub spot: Spot,
    pub stop: u32,
    pub counter: u32,
    pub regs: [u32; 16],
    pub cc: u64,
    pub count: u32,
}

/// Loads the object text into storage and carries out at most `budget` instructions.
pub fn run(object: &[u8], regs: [u32; 16], cc: u64, budget: u32, storage: &mut [u8]) -> RunAnswer {
    let refusal = |number| RunAnswer { number, spot: Spot::NONE, stop: 0, counter: 0, regs, cc, count: 0 };
    let object = match objread::read(object) {
        Some(object) => object,
        None => return refusal(17),
    };
    if cc > 3 {
        return refusal(18);
    }
    if storage.len() < STORAGE_NEEDED {
        return refusal(19);
    }
    load(&object, storage);
    let map = map(&object);
    let mut regs = regs;
    regs[15] = origin(0);
    regs[14] = origin(1);
    let mut state = State { regs: &mut regs, cc: cc as u32, counter: origin(0) };
    let (stop, count) = go(&mut state, &map, storage, budget);
    let (cc, counter) = (state.cc as u64, state.counter);
    RunAnswer { number: 0, spot: Spot::NONE, stop: stop as u32, counter, regs, cc, count }
}

/// "Segment k goes to 4096·(k+1); the word at offset 4k of segment 1 becomes segment k's origin where
/// segment k exists and the word fits; other bytes of the 20,480 are zero, bytes above stay."
pub fn load(object: &ObjectText, storage: &mut [u8]) {
    storage[..STORAGE_NEEDED].fill(0);
    let program_at = origin(0) as usize;
    storage[program_at..program_at + object.program.len()].copy_from_slice(&object.program);
    for (i, segment) in object.data.iter().enumerate() {
        let at = origin(i + 1) as usize;
        storage[at..at + segment.bytes.len()].copy_from_slice(&segment.bytes);
    }
    let table_at = origin(1) as usize;
    let segments = 1 + object.data.len();
    for k in 0..segments {
        if 4 * k + 4 <= object.data[0].bytes.len() {
            let entry = table_at + 4 * k;
            storage[entry..entry + 4].copy_from_slice(&origin(k).to_be_bytes());
        }
    }
}

/// Where the loaded segments lie and what of them is writable.
pub fn map(object: &ObjectText) -> Map {
    let mut map = Map::default();
    map[0] = Segment { length: object.program.len() as u32, from: 0, to: 0 };
    for (i, segment) in object.data.iter().enumerate() {
        map[i + 1] = Segment { length: segment.bytes.len() as u32, from: segment.from as u32, to: segment.to as u32 };
    }
    map
}

/// Instructions until one stops; "0 first": at the budget nothing is looked at.
#[inline(always)]
fn go(state: &mut State, map: &Map, storage: &mut [u8], budget: u32) -> (Stop, u32) {
    let mut count = 0;
    while count < budget {
        if let Err(stop) = step(state, map, storage) {
            return (stop, count);
        }
        count += 1;
    }
    (Stop::Budget, count)
}
