//! The requests of document 01.

use crate::clock::Clock;
use crate::config::{Calculation, Input, Output};
use crate::history::FILES;
use crate::scan::KIND_BITS;

/// The most data characters of a master frame.
const MOST_DATA: usize = 128;

/// A request; of a history request only what the caller wishes, as the master sets the bit.
#[derive(Clone, Debug, PartialEq, Eq)]
pub enum Request {
    /// 00: all words of the kinds whose command bits are set.
    Scan {
        /// The command character.
        kinds: u8,
    },
    /// 0Ah: the words of this table, 1 to 15.
    Table(u8),
    /// 03/80h: the values of all calculations.
    AllCalculations,
    /// 03/00: the values of 1 to 128 calculations.
    Calculations(Vec<Calculation>),
    /// 04: records of a file, 0 to 31.
    History {
        /// The file.
        file: u8,
        /// True for a dump, false for a single record.
        dump: bool,
    },
    /// 10h/10h or 10h/11h.
    Select {
        /// The output to select.
        output: Output,
        /// True to close, false to open.
        close: bool,
    },
    /// 10h/20h.
    Operate,
    /// 10h/21h.
    ResetSelect,
    /// 20h/00.
    Initialize,
    /// 20h/11h: sets an accumulator to 0.
    ResetCount(Input),
    /// 20h/30h.
    Write {
        /// The first place in the block.
        bias: u16,
        /// The block.
        ordinal: u8,
    },
    /// 20h/31h with 1 to 128 characters.
    Execute(Vec<u8>),
    /// 20h/38h.
    SetTime(Clock),
    /// 28h/30h.
    Read {
        /// The first place in the block.
        bias: u16,
        /// The block.
        ordinal: u8,
        /// The number of characters.
        quantity: u8,
    },
    /// 28h/31h.
    ReadTime,
    /// 20h/11h to all units.
    BroadcastResetCount(Input),
    /// 20h/38h to all units.
    BroadcastSetTime(Clock),
}

impl Request {
    /// Whether the figures make a request of document 01.
    pub fn valid(&self) -> bool {
        match self {
            Request::Scan { kinds } => kinds & !KIND_BITS == 0,
            Request::Table(number) => (1..=15).contains(number),
            Request::Calculations(numbers) => (1..=MOST_DATA).contains(&numbers.len()),
            Request::History { file, .. } => usize::from(*file) < FILES,
            Request::Execute(data) => (1..=MOST_DATA).contains(&data.len()),
            Request::SetTime(clock) | Request::BroadcastSetTime(clock) => clock.in_range(),
            _ => true,
        }
    }

    /// Whether it goes to all units.
    pub fn broadcast(&self) -> bool {
        matches!(
            self,
            Request::BroadcastResetCount(_) | Request::BroadcastSetTime(_)
        )
    }

    /// Function, command without the acknowledge bit, and data.
    pub fn parts(&self) -> (u8, u8, Vec<u8>) {
        match self {
            Request::Scan { kinds } => (0x00, *kinds, vec![]),
            Request::Table(number) => (0x0A, 0x40 | number, vec![]),
            Request::AllCalculations => (0x03, 0x80, vec![]),
            Request::Calculations(numbers) => (0x03, 0x00, numbers.iter().map(|n| n.0).collect()),
            Request::History { file, dump } => (0x04, u8::from(*dump) << 5 | file, vec![]),
            Request::Select { output, close } => (0x10, 0x10 | u8::from(*close), vec![output.0]),
            Request::Operate => (0x10, 0x20, vec![]),
            Request::ResetSelect => (0x10, 0x21, vec![]),
            Request::Initialize => (0x20, 0x00, vec![]),
            Request::ResetCount(number) | Request::BroadcastResetCount(number) => {
                (0x20, 0x11, vec![number.0])
            }
            Request::Write { bias, ordinal } => (0x20, 0x30, block(*bias, &[*ordinal])),
            Request::Execute(data) => (0x20, 0x31, data.clone()),
            Request::SetTime(clock) | Request::BroadcastSetTime(clock) => {
                (0x20, 0x38, clock.characters().to_vec())
            }
            Request::Read {
                bias,
                ordinal,
                quantity,
            } => (0x28, 0x30, block(*bias, &[*ordinal, *quantity])),
            Request::ReadTime => (0x28, 0x31, vec![]),
        }
    }
}

/// The bias word, and what follows it.
fn block(bias: u16, rest: &[u8]) -> Vec<u8> {
    [&bias.to_le_bytes(), rest].concat()
}
