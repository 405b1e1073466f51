//! Master frames read and replies built.

use crate::check::check_word;
use crate::outcome::{self, Sent};

/// The unit part of an address that speaks to every unit.
pub const BROADCAST: u16 = 0x7FF;

/// A whole master frame with right check characters.
#[derive(Clone, Copy, Debug, PartialEq, Eq)]
pub struct Frame<'a> {
    /// The two address characters as they came, for the echo.
    pub address: [u8; 2],
    /// The master, 0 to 31.
    pub master: u8,
    /// The unit spoken to, 0 to 7FFh.
    pub unit: u16,
    /// The function character with all its bits.
    pub function: u8,
    /// The command character.
    pub command: u8,
    /// The data characters, 0 to 128.
    pub data: &'a [u8],
}

impl<'a> Frame<'a> {
    /// A frame without data.
    pub const SHORTEST: usize = 8;
    /// A frame with 128 data characters.
    pub const LONGEST: usize = 136;

    /// Reads a stretch as a frame, or gives outcome 1 or 2.
    pub fn read(bytes: &'a [u8]) -> Result<Self, u8> {
        if bytes.len() < Self::SHORTEST || bytes.len() > Self::LONGEST {
            return Err(outcome::LENGTH);
        }
        let count = u16::from_le_bytes([bytes[4], bytes[5]]);
        if bytes.len() != Self::SHORTEST + usize::from(count) {
            return Err(outcome::LENGTH);
        }
        let (checked, check) = bytes.split_at(bytes.len() - 2);
        if check_word(checked).to_le_bytes() != check {
            return Err(outcome::CHECK);
        }
        let (master, unit) = split_address(u16::from_le_bytes([bytes[0], bytes[1]]));
        Ok(Frame {
            address: [bytes[0], bytes[1]],
            master,
            unit,
            function: bytes[2],
            command: bytes[3],
            data: &checked[6..],
        })
    }
}

/// What a stretch holds: one frame, or a WRITE and its EXECUTE with no idle mark between.
#[derive(Clone, Copy, Debug, PartialEq, Eq)]
pub struct Stretch<'a> {
    /// The WRITE that came in front of the frame.
    pub write: Option<Frame<'a>>,
    /// The only frame, or the EXECUTE.
    pub frame: Frame<'a>,
}

impl<'a> Stretch<'a> {
    /// A WRITE: three data characters.
    const WRITE: usize = Frame::SHORTEST + 3;
    /// A WRITE and the longest EXECUTE.
    pub const LONGEST: usize = Self::WRITE + Frame::LONGEST;

    /// Reads a stretch, or gives outcome 1 or 2 as for a single frame.
    pub fn read(bytes: &'a [u8]) -> Result<Self, u8> {
        match Self::read_pair(bytes) {
            Some(pair) => Ok(pair),
            None => Frame::read(bytes).map(|frame| Stretch { write: None, frame }),
        }
    }

    /// Both frames whole and checked, from one master to one unit, and nothing behind.
    fn read_pair(bytes: &'a [u8]) -> Option<Self> {
        let (front, rest) = bytes.split_at_checked(Self::WRITE)?;
        let write = Frame::read(front).ok()?;
        let frame = Frame::read(rest).ok()?;
        let pair = (write.function, write.command) == (0x20, 0x30)
            && (frame.function, frame.command) == (0x20, 0x31)
            && write.address == frame.address;
        pair.then_some(Stretch {
            write: Some(write),
            frame,
        })
    }
}

/// The master (high 5 bits) and the unit (low 11 bits) of an address word.
pub fn split_address(word: u16) -> (u8, u16) {
    ((word >> 11) as u8, word & 0x7FF)
}

/// A reply in the making: its data already stands in the lent buffer.
#[derive(Debug)]
pub struct Reply<'a> {
    buffer: &'a mut [u8],
    length: usize,
}

impl<'a> Reply<'a> {
    /// A reply with the most data; a lent buffer must have this room.
    pub const LONGEST: usize = 520;
    /// The most data characters of a reply.
    pub const DATA_LIMIT: usize = 511;
    /// The characters before the data.
    const HEAD: usize = 7;

    /// A reply without data so far; nothing is written yet.
    pub fn new(buffer: &'a mut [u8]) -> Self {
        Reply { buffer, length: 0 }
    }

    /// Adds one data character.
    pub fn push(&mut self, character: u8) {
        self.push_all(&[character]);
    }

    /// Adds a 16-bit word, low character first.
    pub fn push_word(&mut self, word: u16) {
        self.push_all(&word.to_le_bytes());
    }

    /// Adds several data characters.
    pub fn push_all(&mut self, characters: &[u8]) {
        let start = Self::HEAD + self.length;
        self.buffer[start..start + characters.len()].copy_from_slice(characters);
        self.length += characters.len();
    }

    /// Writes all but the data and returns the length of the whole reply.
    pub fn finish(self, address: [u8; 2], function: u8, status: u8, port: u8) -> usize {
        let count = (self.length as u16).to_le_bytes();
        let head = [
            address[0], address[1], function, status, port, count[0], count[1],
        ];
        self.buffer[..Self::HEAD].copy_from_slice(&head);
        let end = Self::HEAD + self.length;
        let check = check_word(&self.buffer[..end]).to_le_bytes();
        self.buffer[end..end + 2].copy_from_slice(&check);
        end + 2
    }
}

/// The function character of a reply of the given form.
pub fn reply_function(function: u8, sent: Sent) -> u8 {
    let low = function & 0x3F;
    match sent {
        Sent::Nop => low | 0x40,
        Sent::Rst => low | 0x80,
        Sent::Normal | Sent::Nothing => low,
    }
}
