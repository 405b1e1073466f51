//! What a believed reply tells, taken apart by the request that it answers.

use super::{Read, MEMORY};
use crate::{header, Clock, ControlOutput, File, Input, SpecialCalculation};

/// The data of a reply.
#[derive(Clone, Debug, PartialEq, Eq)]
pub enum Data<'a> {
    /// None: of a reply that is refused, too.
    Nothing,
    /// The words of inputs, in the order of the request.
    Words(Vec<u16>),
    /// The values of all calculations that the unit has, in the order of their numbers.
    Values(Vec<u32>),
    /// The calculations asked for, each with its value.
    Numbered(Vec<(SpecialCalculation, u32)>),
    /// Those of them that the unit does not have, of a NOP; none where it has all, and their values would not fit.
    Missing(Vec<SpecialCalculation>),
    /// Records, oldest first, and whether the file holds more.
    History {
        /// The records that came, kept or not.
        records: Vec<Record<'a>>,
        /// The file held more.
        more: bool,
    },
    /// The output that is selected.
    Selected(ControlOutput),
    /// The accumulator that was set to 0.
    Reset(Input),
    /// The characters of a block's part; those asked with, of a NOP.
    Block(&'a [u8]),
    /// The unit's time.
    Time(Clock),
}

/// A record of a history reply.
#[derive(Clone, Copy, Debug, PartialEq, Eq)]
pub struct Record<'a> {
    /// The file that it is of: that of the latest history request, which a repeat asks for again.
    pub file: File,
    /// Its characters.
    pub chars: &'a [u8],
}

impl Record<'_> {
    /// The event type.
    pub fn event(&self) -> u8 {
        self.chars.first().copied().unwrap_or(0)
    }

    /// When it was stored; a record has no milliseconds.
    pub fn stamp(&self) -> Clock {
        clock(self.chars.get(1..6).unwrap_or(&[]))
    }

    /// Its values.
    pub fn values(&self) -> Vec<u16> {
        words(self.chars.get(6..).unwrap_or(&[]))
    }
}

impl<'a> Data<'a> {
    /// By the memory as it was when the reply came.
    pub(crate) fn told(asked: &[u8; MEMORY], read: Read, reply: &'a [u8]) -> Data<'a> {
        let at = |place: u32| asked.get(place as usize).copied().unwrap_or(0);
        let history = at(header::POLL_AT_WAITING) == 1;
        let (function, command) = match history {
            true => (0x04, at(header::POLL_AT_LATEST)),
            false => (at(header::POLL_AT_FUNCTION), at(header::POLL_AT_COMMAND)),
        };
        let data = reply.get(7..reply.len().saturating_sub(2)).unwrap_or(&[]);
        match read {
            Read::Normal => normal(function, command, data),
            Read::Nop if (function, command) == (0x03, 0x00) => {
                Data::Missing(data.iter().map(|n| SpecialCalculation(*n)).collect())
            }
            Read::Nop if function == 0x28 => Data::Block(data),
            _ => Data::Nothing,
        }
    }
}

/// The data of a normal reply.
fn normal(function: u8, command: u8, data: &[u8]) -> Data<'_> {
    match (function, command, data) {
        (0x00 | 0x0A, ..) => Data::Words(words(data)),
        (0x03, 0x80, _) => Data::Values(data.chunks_exact(4).map(value).collect()),
        (0x03, ..) => {
            let entry = |entry: &[u8]| (SpecialCalculation(entry[0]), value(&entry[1..]));
            Data::Numbered(data.chunks_exact(5).map(entry).collect())
        }
        (0x04, ..) => records(File(command % 32), data),
        (0x10, _, [number]) => Data::Selected(ControlOutput(*number)),
        (0x20, _, [number]) => Data::Reset(Input(*number)),
        (0x28, 0x30, _) => Data::Block(data),
        (0x28, ..) => Data::Time(clock(data)),
        _ => Data::Nothing,
    }
}

/// The quantity in seven bits, the flag in the eighth, then so many records of one size.
fn records(file: File, data: &[u8]) -> Data<'_> {
    let (first, rest) = data.split_first().unwrap_or((&0, &[]));
    let size = rest.len().checked_div(usize::from(first % 128));
    let chunks = rest.chunks_exact(size.unwrap_or(0).max(1));
    Data::History {
        records: chunks.map(|chars| Record { file, chars }).collect(),
        more: *first >= 128,
    }
}

/// Words, low character first.
fn words(chars: &[u8]) -> Vec<u16> {
    let word = |pair: &[u8]| u16::from_le_bytes([pair[0], pair[1]]);
    chars.chunks_exact(2).map(word).collect()
}

/// A value of four characters, low one first.
fn value(chars: &[u8]) -> u32 {
    let high_first = chars.iter().rev();
    high_first.fold(0, |value, char| value << 8 | u32::from(*char))
}

/// A time of seven characters, or of five without milliseconds.
fn clock(chars: &[u8]) -> Clock {
    let at = |place: usize| u16::from(chars.get(place).copied().unwrap_or(0));
    let digits = |place: usize| at(place) / 16 * 10 + at(place) % 16;
    Clock {
        day: 100 * digits(0) + digits(1),
        hour: digits(2),
        minute: digits(3),
        second: digits(4),
        ms: at(5) * 256 + at(6),
    }
}
