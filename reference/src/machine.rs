//! The machine: one instruction of document 01's list, or of document 02's 1/13, as System/360 carries it out.

/// "Segment k goes to 4096·(k+1)".
pub const SEGMENT_ROOM: u32 = 4096;
/// The segments a machine can have: the program and three of data.
pub const SEGMENTS: usize = 4;

/// "Addresses keep 24 bits".
const ADDRESS_BITS: u32 = 0x00FF_FFFF;
const SIGN: u32 = 0x8000_0000;

/// Why an instruction was not carried out; the numbers are document 01's.
#[derive(Clone, Copy, Debug, PartialEq, Eq)]
pub enum Stop {
    /// "0 budget used"
    Budget = 0,
    /// "1 at `0A 00`"
    End = 1,
    /// "2 forbidden operand"
    Forbidden = 2,
    /// "3 misaligned operand"
    Misaligned = 3,
    /// "4 an odd counter, an instruction not wholly in the program's bytes, one not listed, or an odd register field in 1C or 5C"
    Instruction = 4,
}

/// What a program can see of the machine beside storage.
pub struct State<'a> {
    pub regs: &'a mut [u32; 16],
    /// The condition code, 0 to 3.
    pub cc: u32,
    /// The address of the next instruction, 24 bits.
    pub counter: u32,
}

/// Offsets inside segments 0 to 3: a segment that does not exist has all of them 0, the program nothing writable.
#[derive(Clone, Copy, Debug, Default, PartialEq, Eq)]
pub struct Segment {
    pub length: u32,
    pub from: u32,
    pub to: u32,
}

/// Where the segments lie: segment k at 4096·(k+1).
pub type Map = [Segment; SEGMENTS];

/// The origin of segment k.
pub fn origin(k: usize) -> u32 {
    SEGMENT_ROOM * (k as u32 + 1)
}

/// One instruction: done, or the stop that kept it from changing anything. The budget is the caller's affair.
#[inline(always)]
pub fn step(state: &mut State, map: &Map, storage: &mut [u8]) -> Result<(), Stop> {
    let at = state.counter;
    if at % 2 != 0 || !in_program(map, at, 2) {
        return Err(Stop::Instruction);
    }
    // The listed opcodes below 40 have two bytes, the others four.
    let two = bytes(storage, at);
    if two[0] < 0x40 {
        two_bytes(state, two)
    } else if in_program(map, at, 4) {
        four_bytes(state, map, storage, bytes(storage, at))
    } else {
        Err(Stop::Instruction)
    }
}

/// "Two bytes: opcode, r·16+s."
#[inline(always)]
fn two_bytes(state: &mut State, [opcode, fields]: [u8; 2]) -> Result<(), Stop> {
    let r1 = (fields >> 4) as usize;
    let r2 = (fields & 15) as usize;
    let mut next = state.counter + 2;
    match opcode {
        // BCR: register 0 is no branch, whatever the mask.
        0x07 => {
            if r2 != 0 && taken(r1, state.cc) {
                next = state.regs[r2] & ADDRESS_BITS;
            }
        }
        // SVC 0 ends the program; no other supervisor call is listed.
        0x0A => return Err(if fields == 0 { Stop::End } else { Stop::Instruction }),
        // LPR, LNR, LCR
        0x10 => (state.regs[r1], state.cc) = positive(state.regs[r2]),
        0x11 => (state.regs[r1], state.cc) = negative(state.regs[r2]),
        0x13 => (state.regs[r1], state.cc) = complement(state.regs[r2]),
        // LTR: the code by the signed value.
        0x12 => {
            state.regs[r1] = state.regs[r2];
            state.cc = sign_code(state.regs[r1]);
        }
        // NR, OR, XR
        0x14 => (state.regs[r1], state.cc) = and(state.regs[r1], state.regs[r2]),
        0x16 => (state.regs[r1], state.cc) = or(state.regs[r1], state.regs[r2]),
        0x17 => (state.regs[r1], state.cc) = exclusive_or(state.regs[r1], state.regs[r2]),
        // LR, CR, AR, SR, MR
        0x18 => state.regs[r1] = state.regs[r2],
        0x19 => state.cc = compare(state.regs[r1], state.regs[r2]),
        0x1A => (state.regs[r1], state.cc) = add(state.regs[r1], state.regs[r2]),
        0x1B => (state.regs[r1], state.cc) = subtract(state.regs[r1], state.regs[r2]),
        0x1C => {
            if r1 % 2 != 0 {
                return Err(Stop::Instruction);
            }
            (state.regs[r1], state.regs[r1 + 1]) = multiply(state.regs[r1 + 1], state.regs[r2]);
        }
        // ALR, SLR
        0x1E => (state.regs[r1], state.cc) = add_logical(state.regs[r1], state.regs[r2]),
        0x1F => (state.regs[r1], state.cc) = subtract_logical(state.regs[r1], state.regs[r2]),
        _ => return Err(Stop::Instruction),
    }
    state.counter = next;
    Ok(())
}

/// "Four bytes: opcode, r·16+index, base·16 + displacement/256, displacement mod 256."
#[inline(always)]
fn four_bytes(state: &mut State, map: &Map, storage: &mut [u8], instruction: [u8; 4]) -> Result<(), Stop> {
    let [opcode, fields, _, _] = instruction;
    let r1 = (fields >> 4) as usize;
    let mut next = state.counter + 4;
    match opcode {
        // STH
        0x40 => {
            let address = indexed(state, instruction);
            writable(map, address, 2)?;
            store(storage, address, (state.regs[r1] as u16).to_be_bytes());
        }
        // LA: the address itself, high byte zero; storage is not touched.
        0x41 => state.regs[r1] = indexed(state, instruction),
        // STC: the low byte.
        0x42 => {
            let address = indexed(state, instruction);
            writable(map, address, 1)?;
            store(storage, address, [state.regs[r1] as u8]);
        }
        // IC: the low byte; the other 24 bits stay.
        0x43 => {
            let address = indexed(state, instruction);
            readable(map, address, 1)?;
            let [byte] = bytes(storage, address);
            state.regs[r1] = (state.regs[r1] & 0xFFFF_FF00) | u32::from(byte);
        }
        // BAL: the address is formed before the link is stored.
        0x45 => {
            let target = indexed(state, instruction);
            state.regs[r1] = link(state.cc, next);
            next = target;
        }
        // BC
        0x47 => {
            if taken(r1, state.cc) {
                next = indexed(state, instruction);
            }
        }
        // LH, CH, AH, SH, MH
        0x48 => state.regs[r1] = half(state, map, storage, instruction)?,
        0x49 => state.cc = compare(state.regs[r1], half(state, map, storage, instruction)?),
        0x4A => (state.regs[r1], state.cc) = add(state.regs[r1], half(state, map, storage, instruction)?),
        0x4B => (state.regs[r1], state.cc) = subtract(state.regs[r1], half(state, map, storage, instruction)?),
        0x4C => {
            // The low 32 bits of the product; the code stays.
            let factor = half(state, map, storage, instruction)?;
            state.regs[r1] = state.regs[r1].wrapping_mul(factor);
        }
        // ST
        0x50 => {
            let address = indexed(state, instruction);
            writable(map, address, 4)?;
            store(storage, address, state.regs[r1].to_be_bytes());
        }
        // N, O, X
        0x54 => (state.regs[r1], state.cc) = and(state.regs[r1], word(state, map, storage, instruction)?),
        0x56 => (state.regs[r1], state.cc) = or(state.regs[r1], word(state, map, storage, instruction)?),
        0x57 => (state.regs[r1], state.cc) = exclusive_or(state.regs[r1], word(state, map, storage, instruction)?),
        // L, C, A, S, M
        0x58 => state.regs[r1] = word(state, map, storage, instruction)?,
        0x59 => state.cc = compare(state.regs[r1], word(state, map, storage, instruction)?),
        0x5A => (state.regs[r1], state.cc) = add(state.regs[r1], word(state, map, storage, instruction)?),
        0x5B => (state.regs[r1], state.cc) = subtract(state.regs[r1], word(state, map, storage, instruction)?),
        0x5C => {
            if r1 % 2 != 0 {
                return Err(Stop::Instruction);
            }
            let factor = word(state, map, storage, instruction)?;
            (state.regs[r1], state.regs[r1 + 1]) = multiply(state.regs[r1 + 1], factor);
        }
        // AL, SL
        0x5E => (state.regs[r1], state.cc) = add_logical(state.regs[r1], word(state, map, storage, instruction)?),
        0x5F => (state.regs[r1], state.cc) = subtract_logical(state.regs[r1], word(state, map, storage, instruction)?),
        // SRL, SLL
        0x88 => {
            let amount = shift_amount(state, instruction);
            state.regs[r1] = (state.regs[r1] as u64 >> amount) as u32;
        }
        0x89 => {
            let amount = shift_amount(state, instruction);
            state.regs[r1] = ((state.regs[r1] as u64) << amount) as u32;
        }
        // SRA, SLA
        0x8A => {
            let amount = shift_amount(state, instruction);
            state.regs[r1] = (state.regs[r1] as i32 as i64 >> amount) as u32;
            state.cc = sign_code(state.regs[r1]);
        }
        0x8B => {
            let amount = shift_amount(state, instruction);
            (state.regs[r1], state.cc) = shift_left_arithmetic(state.regs[r1], amount);
        }
        // MVI: the second byte into storage.
        0x92 => {
            let address = unindexed(state, instruction);
            writable(map, address, 1)?;
            store(storage, address, [fields]);
        }
        // CLI: the byte in storage is the first operand, the second byte the other; both unsigned.
        0x95 => {
            let address = unindexed(state, instruction);
            readable(map, address, 1)?;
            let [byte] = bytes(storage, address);
            state.cc = compare(u32::from(byte), u32::from(fields));
        }
        _ => return Err(Stop::Instruction),
    }
    state.counter = next;
    Ok(())
}

/// Whether `size` bytes from `address` lie in the program's bytes.
#[inline(always)]
fn in_program(map: &Map, address: u32, size: u32) -> bool {
    let start = origin(0);
    address >= start && address - start + size <= map[0].length
}

/// Whether the mask (bit 8 for code 0, 4 for 1, 2 for 2, 1 for 3) selects the condition code.
#[inline(always)]
fn taken(mask: usize, cc: u32) -> bool {
    mask & (8 >> cc) != 0
}

/// 45's link: length code 2 (a four-byte instruction), condition code, program mask zero, address.
fn link(cc: u32, next: u32) -> u32 {
    (2 << 30) | (cc << 28) | next
}

/// The third and fourth byte of an instruction: base register's number, displacement.
#[inline(always)]
fn base_and_displacement([_, _, third, fourth]: [u8; 4]) -> (usize, u32) {
    ((third >> 4) as usize, 256 * (third & 15) as u32 + fourth as u32)
}

/// The content of a base or index register; number 0 stands for the value zero.
#[inline(always)]
fn base_value(state: &State, register: usize) -> u32 {
    if register == 0 {
        0
    } else {
        state.regs[register]
    }
}

/// The address that base, index and displacement give.
#[inline(always)]
fn indexed(state: &State, instruction: [u8; 4]) -> u32 {
    let index = (instruction[1] & 15) as usize;
    let (base, displacement) = base_and_displacement(instruction);
    let sum = base_value(state, base).wrapping_add(base_value(state, index)).wrapping_add(displacement);
    sum & ADDRESS_BITS
}

/// The address that base and displacement give, of an instruction that has a number in place of register and index.
#[inline(always)]
fn unindexed(state: &State, instruction: [u8; 4]) -> u32 {
    let (base, displacement) = base_and_displacement(instruction);
    base_value(state, base).wrapping_add(displacement) & ADDRESS_BITS
}

/// A shift's amount: the low six bits of base plus displacement; the field beside the register is ignored.
#[inline(always)]
fn shift_amount(state: &State, instruction: [u8; 4]) -> u32 {
    let (base, displacement) = base_and_displacement(instruction);
    base_value(state, base).wrapping_add(displacement) & 63
}

/// The data segment at an address and the offset in it; an aligned operand never reaches into the next one.
#[inline(always)]
fn data_segment(map: &Map, address: u32, size: u32) -> Result<(Segment, u32), Stop> {
    if address % size != 0 {
        return Err(Stop::Misaligned);
    }
    let room = (address / SEGMENT_ROOM) as usize;
    if room < 2 || room > SEGMENTS {
        return Err(Stop::Forbidden);
    }
    Ok((map[room - 1], address % SEGMENT_ROOM))
}

/// "What is read must lie wholly in one data segment's bytes".
#[inline(always)]
fn readable(map: &Map, address: u32, size: u32) -> Result<(), Stop> {
    let (segment, offset) = data_segment(map, address, size)?;
    if offset + size <= segment.length {
        Ok(())
    } else {
        Err(Stop::Forbidden)
    }
}

/// "what is stored in its writable part".
#[inline(always)]
fn writable(map: &Map, address: u32, size: u32) -> Result<(), Stop> {
    let (segment, offset) = data_segment(map, address, size)?;
    if segment.from <= offset && offset + size <= segment.to {
        Ok(())
    } else {
        Err(Stop::Forbidden)
    }
}

/// The full word that the instruction reads.
#[inline(always)]
fn word(state: &State, map: &Map, storage: &[u8], instruction: [u8; 4]) -> Result<u32, Stop> {
    let address = indexed(state, instruction);
    readable(map, address, 4)?;
    Ok(u32::from_be_bytes(bytes(storage, address)))
}

/// The half word that the instruction reads, its sign extended to 32 bits.
#[inline(always)]
fn half(state: &State, map: &Map, storage: &[u8], instruction: [u8; 4]) -> Result<u32, Stop> {
    let address = indexed(state, instruction);
    readable(map, address, 2)?;
    Ok(i16::from_be_bytes(bytes(storage, address)) as i32 as u32)
}

/// The bytes of storage from an address on that is known to be inside.
#[inline(always)]
fn bytes<const SIZE: usize>(storage: &[u8], address: u32) -> [u8; SIZE] {
    let start = address as usize;
    storage[start..start + SIZE].try_into().expect("as many as asked for")
}

/// Stores them there.
#[inline(always)]
fn store<const SIZE: usize>(storage: &mut [u8], address: u32, bytes: [u8; SIZE]) {
    let start = address as usize;
    storage[start..start + SIZE].copy_from_slice(&bytes);
}

/// 0 zero, 1 less than zero, 2 greater than zero.
fn sign_code(value: u32) -> u32 {
    let value = value as i32;
    if value == 0 {
        0
    } else if value < 0 {
        1
    } else {
        2
    }
}

/// 0 equal, 1 first operand low, 2 first operand high; both signed.
fn compare(first: u32, second: u32) -> u32 {
    let (first, second) = (first as i32, second as i32);
    if first == second {
        0
    } else if first < second {
        1
    } else {
        2
    }
}

// From here on each but the last answers the result and the condition code.

/// The sum wraps; 3 when the signed sum is none of the 32-bit numbers, else the sum's sign.
fn add(first: u32, second: u32) -> (u32, u32) {
    let sum = first.wrapping_add(second);
    let exact = first as i32 as i64 + second as i32 as i64;
    (sum, if exact == sum as i32 as i64 { sign_code(sum) } else { 3 })
}

fn subtract(first: u32, second: u32) -> (u32, u32) {
    let difference = first.wrapping_sub(second);
    let exact = first as i32 as i64 - second as i32 as i64;
    (difference, if exact == difference as i32 as i64 { sign_code(difference) } else { 3 })
}

/// Zero less the operand: only the smallest number overflows, and stays as it is.
fn complement(operand: u32) -> (u32, u32) {
    subtract(0, operand)
}

fn positive(operand: u32) -> (u32, u32) {
    if (operand as i32) < 0 {
        complement(operand)
    } else {
        (operand, sign_code(operand))
    }
}

fn negative(operand: u32) -> (u32, u32) {
    if (operand as i32) > 0 {
        complement(operand)
    } else {
        (operand, sign_code(operand))
    }
}

/// 0 zero and no carry, 1 not zero and no carry, 2 zero and carry, 3 not zero and carry.
fn carry_code(result: u32, carry: bool) -> u32 {
    2 * carry as u32 + (result != 0) as u32
}

fn add_logical(first: u32, second: u32) -> (u32, u32) {
    let exact = first as u64 + second as u64;
    (exact as u32, carry_code(exact as u32, exact >> 32 != 0))
}

/// The one's complement of the second operand and a low-order one are added: the carry is out of that sum.
fn subtract_logical(first: u32, second: u32) -> (u32, u32) {
    let exact = first as u64 + !second as u64 + 1;
    (exact as u32, carry_code(exact as u32, exact >> 32 != 0))
}

/// 0 when the result is zero, else 1.
fn logical(result: u32) -> (u32, u32) {
    (result, (result != 0) as u32)
}

fn and(first: u32, second: u32) -> (u32, u32) {
    logical(first & second)
}

fn or(first: u32, second: u32) -> (u32, u32) {
    logical(first | second)
}

fn exclusive_or(first: u32, second: u32) -> (u32, u32) {
    logical(first ^ second)
}

/// The 31 bits beside the sign are shifted, the sign stays; 3 when a bit unlike the sign is shifted out.
/// That is so exactly when the shifted number is none of the 32-bit numbers.
fn shift_left_arithmetic(value: u32, amount: u32) -> (u32, u32) {
    let exact = (value as i32 as i128) << amount;
    let result = (value & SIGN) | (exact as u32 & !SIGN);
    let fits = exact == exact as i32 as i128;
    (result, if fits { sign_code(result) } else { 3 })
}

/// The signed product in 64 bits: its high word for the even register, its low word for the odd one.
fn multiply(first: u32, second: u32) -> (u32, u32) {
    let product = first as i32 as i64 * second as i32 as i64;
    ((product >> 32) as u32, product as u32)
}
