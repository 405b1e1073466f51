//! Blocks: WRITE and EXECUTE of function 20h, and the read of function 28h.

use crate::frame::{Frame, Reply};
use crate::outcome;
use crate::state::State;

/// The block whose EXECUTE clears status bit 3.
const ERROR_ORDINAL: u8 = 0x00;
/// The block of the scan tables, whose EXECUTE clears status bit 7.
const TABLE_ORDINAL: u8 = 0x03;
const PARAMETER_ORDINAL: u8 = 0x06;
const REGISTER_ORDINAL: u8 = 0x0B;

/// The blocks that every unit has.
#[derive(Clone, Debug, PartialEq, Eq)]
pub struct FixedArea {
    /// The block of ordinal 00.
    pub block_00: [u8; 16],
    /// The block of ordinal 03: the table area.
    pub block_03: [u8; 256],
    /// The block of ordinal 0Bh.
    pub block_0b: [u8; 256],
}

impl FixedArea {
    /// All blocks 0.
    pub const EMPTY: FixedArea = FixedArea {
        block_00: [0; 16],
        block_03: [0; 256],
        block_0b: [0; 256],
    };
}

/// A write that waits for its EXECUTE.
#[derive(Clone, Copy, Debug, PartialEq, Eq)]
pub struct Write {
    /// The master that sent it, 0 to 31.
    pub master: u8,
    /// The first place in the block; not judged before the EXECUTE.
    pub bias: u16,
    /// The ordinal; not judged before the EXECUTE.
    pub ordinal: u8,
    /// Milliseconds since it was taken, not over the hold time.
    pub age: u32,
}

impl Write {
    /// The longest time in milliseconds that a write waits.
    pub const HOLD: u32 = 5_000;
}

/// A frame of this master came: its waiting write, if any, is dropped and handed over.
pub fn drop_own(state: &mut State, master: u8) -> Option<Write> {
    state.write.take_if(|write| write.master == master)
}

/// Function 20h command 30h; an own earlier write is dropped already.
pub fn write(state: &mut State, frame: &Frame) -> u8 {
    let &[low, high, ordinal] = frame.data else {
        return outcome::COUNT;
    };
    if state.write.is_some() {
        return outcome::WRITE_HELD;
    }
    let bias = u16::from_le_bytes([low, high]);
    state.write = Some(Write {
        master: frame.master,
        bias,
        ordinal,
        age: 0,
    });
    outcome::WRITE_TAKEN
}

/// Function 20h command 31h; `own` is the write of this master, dropped as the frame came.
pub fn execute(state: &mut State, params: &mut [u8], frame: &Frame, own: Option<Write>) -> u8 {
    if frame.data.is_empty() {
        return outcome::COUNT;
    }
    if state.write.is_some() {
        return outcome::WRITE_HELD;
    }
    let Some(write) = own else {
        return outcome::NONE_WAITS;
    };
    let count = frame.data.len();
    let Some(part) = find_mut(&mut state.fixed, params, write.ordinal, write.bias, count) else {
        return outcome::NOT_VALID;
    };
    part.copy_from_slice(frame.data);
    match write.ordinal {
        TABLE_ORDINAL => state.bit7 = false,
        ERROR_ORDINAL => state.bit3 = false,
        _ => {}
    }
    outcome::DONE
}

/// Function 28h command 30h; these two refusals show the master what it asked.
pub fn read(state: &State, params: &[u8], frame: &Frame, reply: &mut Reply) -> u8 {
    let &[low, high, ordinal, quantity] = frame.data else {
        reply.push_all(frame.data);
        return outcome::COUNT;
    };
    let bias = u16::from_le_bytes([low, high]);
    match find(&state.fixed, params, ordinal, bias, usize::from(quantity)) {
        Some(part) => {
            reply.push_all(part);
            outcome::DONE
        }
        None => {
            reply.push_all(frame.data);
            outcome::NOT_VALID
        }
    }
}

/// The part of the block that starts at the bias and has `count` bytes, if it lies within.
fn find<'a>(
    fixed: &'a FixedArea,
    params: &'a [u8],
    ordinal: u8,
    bias: u16,
    count: usize,
) -> Option<&'a [u8]> {
    let block: &[u8] = match ordinal {
        ERROR_ORDINAL => &fixed.block_00,
        TABLE_ORDINAL => &fixed.block_03,
        REGISTER_ORDINAL => &fixed.block_0b,
        PARAMETER_ORDINAL => params,
        _ => return None,
    };
    let start = usize::from(bias);
    block.get(start..start + count)
}

/// As `find`, for writing.
fn find_mut<'a>(
    fixed: &'a mut FixedArea,
    params: &'a mut [u8],
    ordinal: u8,
    bias: u16,
    count: usize,
) -> Option<&'a mut [u8]> {
    let block: &mut [u8] = match ordinal {
        ERROR_ORDINAL => &mut fixed.block_00,
        TABLE_ORDINAL => &mut fixed.block_03,
        REGISTER_ORDINAL => &mut fixed.block_0b,
        PARAMETER_ORDINAL => params,
        _ => return None,
    };
    let start = usize::from(bias);
    block.get_mut(start..start + count)
}

/// Time passed: the write ages, and past its hold time is dropped without a mark.
pub fn elapsed(state: &mut State, ms: u32) {
    if let Some(write) = &mut state.write {
        write.age = write.age.saturating_add(ms);
        if write.age > Write::HOLD {
            state.write = None;
        }
    }
}
