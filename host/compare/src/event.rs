//! What happens to both units: the events of document 01, and changes of the kept state between them.

use crate::board::Lent;
use independent::{Clock, HistoryReply, Select, Write};
use std::fmt;

/// A select, or the mark of one that timed out: the proved unit keeps one of the two.
#[derive(Clone, Copy, Debug)]
pub enum Hold {
    Free,
    Held(Select),
    TimedOut(u8),
}

/// A change of the kept state, the same in both units. Places in the fixed area count through its three blocks.
#[derive(Clone)]
pub enum Change {
    Clock(Clock),
    Hold(Hold),
    Write(Option<Write>),
    Memory(Option<HistoryReply>),
    Bits {
        bit7: bool,
        bit3: bool,
        bit2: bool,
    },
    Port {
        silence: u16,
        mark: u8,
    },
    Word(u8, u16),
    /// The contacts of a group that have changed since its last reply.
    Changed(u8, u8),
    Value(u8, u32),
    /// The samples of a calculation.
    Samples(u8, Vec<i16>),
    Fixed(usize, Vec<u8>),
    Block(usize, Vec<u8>),
    Records(usize, Vec<Vec<u8>>),
    Lent(Lent),
}

/// One step of a run.
#[derive(Clone)]
pub enum Event {
    Stretch {
        bytes: Vec<u8>,
        room: usize,
        /// Milliseconds from the sync point to the idle mark.
        lag: u32,
    },
    Elapsed(u32),
    Word(u8, u16),
    Contact(u8, u8),
    Pulses(u8, u16),
    Value(u8, u32),
    Sample(u8),
    Store {
        file: u8,
        event: u8,
        values: Vec<u16>,
    },
    Change(Change),
}

/// Characters in capital hex.
pub fn hex(bytes: &[u8]) -> String {
    bytes.iter().map(|b| format!("{b:02X}")).collect()
}

impl fmt::Display for Change {
    fn fmt(&self, f: &mut fmt::Formatter) -> fmt::Result {
        match self {
            Change::Clock(clock) => write!(f, "{clock:?}"),
            Change::Hold(hold) => write!(f, "select: {hold:?}"),
            Change::Write(write) => write!(f, "write: {write:?}"),
            Change::Memory(memory) => write!(f, "history reply: {memory:?}"),
            Change::Bits { bit7, bit3, bit2 } => {
                write!(f, "bit 7 {bit7}, bit 3 {bit3}, bit 2 {bit2}")
            }
            Change::Port { silence, mark } => write!(f, "silence {silence}, mark {mark}"),
            Change::Word(number, word) => write!(f, "word {number:02X}h is {word}"),
            Change::Changed(group, bits) => write!(f, "changed of group {group} is {bits:02X}h"),
            Change::Value(number, value) => write!(f, "value {number:02X}h is {value:08X}h"),
            Change::Samples(number, samples) => write!(f, "samples of {number:02X}h: {samples:?}"),
            Change::Fixed(at, bytes) => write!(f, "fixed area from {at}: {}", hex(bytes)),
            Change::Block(at, bytes) => write!(f, "parameter block from {at}: {}", hex(bytes)),
            Change::Records(file, held) => {
                let records: Vec<String> = held.iter().map(|r| hex(r)).collect();
                write!(f, "file {file} holds {}: {}", held.len(), records.join(" "))
            }
            Change::Lent(lent) => write!(
                f,
                "{} of the parameter block and {} of records are lent",
                lent.block, lent.records
            ),
        }
    }
}

impl fmt::Display for Event {
    fn fmt(&self, f: &mut fmt::Formatter) -> fmt::Result {
        match self {
            Event::Stretch { bytes, room, lag } => {
                let bytes = hex(bytes);
                write!(f, "stretch {bytes} into a buffer of {room}, lag {lag}")
            }
            Event::Elapsed(ms) => write!(f, "elapsed {ms}"),
            Event::Word(number, word) => write!(f, "set word {number:02X}h to {word}"),
            Event::Contact(number, state) => write!(f, "contact {number} is {state}"),
            Event::Pulses(number, count) => write!(f, "pulses {number:02X}h: {count}"),
            Event::Value(number, value) => write!(f, "set value {number:02X}h to {value:08X}h"),
            Event::Sample(number) => write!(f, "sample {number:02X}h"),
            Event::Store {
                file,
                event,
                values,
            } => write!(f, "store in file {file}: event {event}, values {values:?}"),
            Event::Change(change) => write!(f, "kept state changed: {change}"),
        }
    }
}
