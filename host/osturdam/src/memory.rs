//! A unit's memory as the library has it.

use crate::{header, BLOCK};

pub(crate) const CONFIG: usize = header::CONFIG as usize;
pub(crate) const UNIT: usize = header::UNIT as usize;

/// What the library is lent: records, and samples behind them, as many as the configuration asks for, or as a saved unit came with.
#[derive(Clone, Debug, PartialEq, Eq)]
pub(crate) struct Memory {
    pub unit: [u8; UNIT],
    pub block: [u8; BLOCK],
    pub records: Vec<u8>,
}

/// The word whose low character stands at this place.
pub(crate) fn word_at(chars: &[u8], place: usize) -> u16 {
    let at = |n: usize| chars.get(place + n).copied().unwrap_or(0);
    u16::from_le_bytes([at(0), at(1)])
}

/// How much of the block's memory is a parameter block of this length. Of one that does not fit none is lent, and each event tells.
pub(crate) fn fitting(length: u16) -> u64 {
    if usize::from(length) <= BLOCK {
        u64::from(length)
    } else {
        0
    }
}

impl Memory {
    /// With so many characters of records and samples.
    pub fn empty(room: usize) -> Box<Memory> {
        Box::new(Memory {
            unit: [0; UNIT],
            block: [0; BLOCK],
            records: vec![0; room],
        })
    }

    /// The characters of a part of the unit.
    pub fn part(&self, place: u32, length: u32) -> &[u8] {
        let place = place as usize;
        self.unit.get(place..place + length as usize).unwrap_or(&[])
    }

    /// How much of the block's memory is the parameter block, as the unit's configuration says.
    pub fn lent(&self) -> u64 {
        fitting(word_at(&self.unit, header::AT_LENGTH as usize))
    }

    /// How much room there is for records and samples.
    pub fn room(&self) -> u64 {
        self.records.len() as u64
    }

    /// Part after part, as C's `struct osturdam_together` begins.
    pub fn to_bytes(&self) -> Vec<u8> {
        [&self.unit[..], &self.block, &self.records].concat()
    }

    /// The same back: what is missing is 0, and all behind the block are records and samples.
    pub fn from_bytes(bytes: &[u8]) -> Box<Memory> {
        let records = bytes.get(UNIT + BLOCK..).unwrap_or(&[]);
        let mut made = Memory::empty(records.len());
        made.records.copy_from_slice(records);
        let mut rest = bytes.iter().copied();
        let mut next = || rest.next().unwrap_or(0);
        made.unit.fill_with(&mut next);
        made.block.fill_with(&mut next);
        made
    }
}
