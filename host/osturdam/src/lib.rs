//! The proved remote unit of the Cooper 2179 serial protocol, behind a safe interface.
//!
//! A [`Unit`] owns its memory, in which its [`Config`] lies too. It has no clock and no port of its own: the caller hands over each stretch of
//! characters between two idle marks, the milliseconds that passed, and what happens locally. Every call takes every input and
//! tells by an [`Outcome`] what it made of it; none panics. Two units do not touch.
//!
//! ```
//! use osturdam::{Action, Config, Input, Outcome, Unit, REPLY};
//!
//! // unit 1234 with a simple status and an accumulator
//! let mut unit = Unit::fresh(Config::new(1234).input(Input(0x30)).input(Input(0x40)));
//! assert_eq!(unit.set_word(Input(0x30), 0x8001), Outcome::Done);
//!
//! // master 1 asks for both by function 00
//! let mut buffer = [0; REPLY];
//! let poll = [0xD2, 0x0C, 0x00, 0x41, 0x00, 0x00, 0x52, 0x67];
//! let turn = unit.stretch(&poll, 0, &mut buffer);
//! assert_eq!((turn.outcome, turn.action), (Outcome::Done, Action::Rest));
//! assert_eq!(turn.reply[7..11], [0x01, 0x80, 0x00, 0x00]);
//!
//! // store the unit, then send
//! let saved = unit.to_bytes();
//! assert_eq!(Unit::from_bytes(&saved).to_bytes(), saved);
//! ```
//!
//! The other end of the line is [`poll`]: a master that asks a unit and reads what it answers.
//!
//! The static libraries are looked for in the folder that the environment variable `BOARD_LIB` names while building, or else where the toolchain
//! leaves them.
#![deny(missing_docs, unsafe_op_in_unsafe_fn)]
#![deny(unsafe_code)]

mod config;
mod kept;
mod memory;
mod numbers;
#[macro_use]
mod outcome;
pub mod poll;
mod raw;
mod unit;

pub use config::Config;
pub use kept::{Clock, HistoryReply, Hold, Kept, Mark, Memory, Pending, Port, Select, View, Write};
pub use numbers::{Contact, ControlOutput, File, Input, Master, Ordinal, SpecialCalculation};
pub use outcome::{Action, Outcome, Sampled, Stored, Turn};
pub use unit::Unit;

/// The numbers of the C headers, taken over by the build.
mod header {
    include!(concat!(env!("OUT_DIR"), "/header.rs"));
}

/// The longest frame of a master.
pub const FRAME: usize = header::FRAME as usize;
/// The longest stretch that is not damage: a WRITE and its EXECUTE.
pub const STRETCH: usize = header::STRETCH as usize;
/// The longest reply, and the shortest buffer that a stretch is served with.
pub const REPLY: usize = header::REPLY as usize;
/// The longest parameter block.
pub const BLOCK: usize = header::BLOCK as usize;
/// How many records a file holds.
pub const ROOM: usize = header::ROOM as usize;
/// The most characters of records that a valid configuration asks for.
pub const RECORDS: usize = header::RECORDS as usize;
/// The most characters of records and samples that it asks for.
pub const LENT: usize = header::LENT as usize;
/// The most calculations that are means.
pub const MEANS: usize = header::MEANS as usize;
/// The most samples that a mean is over.
pub const SAMPLES: u16 = header::SAMPLES as u16;
/// The longest lag, in milliseconds, with which a Set Time is taken.
pub const LAG: u32 = header::LAG_MS;
/// The most values in a record.
pub const VALUES: usize = header::VALUES as usize;

/// The check of characters from a start: 0, or the check of what stands before them.
///
/// So head and data that lie in two buffers are checked in turn, and the check is that of the two joined.
///
/// ```
/// use osturdam::check;
///
/// let (head, data) = ([0xD2, 0x0C, 0x28, 0x41, 0x02, 0x00], [0x05, 0x00]);
/// let in_turn = check(check(0, &head), &data);
/// assert_eq!(in_turn, check(0, &[head.as_slice(), &data].concat()));
///
/// // with its check characters behind it, low one first, a frame leaves 0
/// assert_eq!(check(in_turn, &in_turn.to_le_bytes()), 0);
/// assert_eq!(check(in_turn, &[]), in_turn);
/// ```
pub fn check(start: u16, chars: &[u8]) -> u16 {
    raw::check(start, chars)
}
