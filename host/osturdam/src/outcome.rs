//! How an event ended.

use crate::{header, ControlOutput};

macro_rules! answers {
    ($(#[$doc:meta])* $name:ident { $($(#[$of:meta])* $case:ident = $number:ident,)* }) => {
        $(#[$doc])*
        #[derive(Clone, Copy, Debug, PartialEq, Eq, Hash)]
        #[repr(u8)]
        pub enum $name { $($(#[$of])* $case = header::$number as u8,)* }

        impl $name {
            /// Every case, in the order of the numbers.
            pub const ALL: &'static [$name] = &[$($name::$case),*];

            /// The number that the documents and the C interface have for it.
            pub fn number(self) -> u8 {
                self as u8
            }

            /// The case of this number, if there is one.
            pub fn from_number(number: u8) -> Option<$name> {
                Self::ALL.iter().copied().find(|case| case.number() == number)
            }

            /// The library's answer; a number that it does not have could only mean that it is another library.
            pub(crate) fn told(number: u8) -> $name {
                Self::from_number(number).unwrap_or($name::NotConfigured)
            }
        }
    };
}

answers! {
    /// How an event ended, but for storing a record.
    Outcome {
        /// Done; a stretch gets its normal reply.
        Done = DONE,
        /// No whole frame; not answered.
        NotWhole = NOT_WHOLE,
        /// Wrong check characters; not answered.
        CheckWrong = CHECK_WRONG,
        /// A frame for another unit; not answered.
        OtherUnit = OTHER_UNIT,
        /// A broadcast, carried out; not answered.
        BroadcastDone = BROADCAST_DONE,
        /// A WRITE waits for its EXECUTE; not answered.
        WriteTaken = WRITE_TAKEN,
        /// A function or command that the unit does not have; NOP.
        Unknown = UNKNOWN,
        /// A count that the command does not have; NOP.
        WrongCount = WRONG_COUNT,
        /// A number not equipped, a place not there, or a value not valid; NOP to a stretch.
        NotValid = NOT_VALID,
        /// More than a reply can carry; NOP.
        TooLong = TOO_LONG,
        /// No such reply to repeat; NOP.
        NothingAgain = NOTHING_AGAIN,
        /// This master's select has timed out; NOP.
        SelectTimedOut = SELECT_TIMED_OUT,
        /// This master broke its own select off; RST.
        BrokenOff = BROKEN_OFF,
        /// Another master's select is held; RST.
        SelectHeld = SELECT_HELD,
        /// Nothing to operate or to execute; RST.
        NothingWaits = NOTHING_WAITS,
        /// Another master's write waits; RST.
        WriteHeld = WRITE_HELD,
        /// A broadcast that is not carried out; not answered.
        BroadcastRefused = BROADCAST_REFUSED,
        /// The configuration is not valid or the kept state not in range; nothing was changed.
        NotConfigured = NOT_CONFIGURED,
        /// The buffer is shorter than [`REPLY`](crate::REPLY); nothing was changed.
        BufferShort = BUFFER_SHORT,
    }
}

answers! {
    /// How storing a record ended: no outcome, though some numbers are the same.
    Stored {
        /// The record is held.
        Stored = STORED,
        /// The file is full: nothing was stored, and the error bit is set.
        FileFull = FILE_FULL,
        /// The file is not equipped.
        NoFile = NO_FILE,
        /// Not as many values as the file's records have.
        WrongValues = WRONG_VALUES,
        /// As [`Outcome::NotConfigured`]: nothing was changed.
        NotConfigured = STORE_NOT_CONFIGURED,
    }
}

/// What the samples of a mean come to, once one more is in.
#[derive(Clone, Copy, Debug, PartialEq)]
pub enum Sampled {
    /// The mean of the last ones, exact: its product with their number is their whole-number sum.
    Ready(f32),
    /// So many are still missing.
    NotReady(u16),
}

impl Sampled {
    pub(crate) fn told(missing: u16, bits: u32) -> Sampled {
        match missing {
            0 => Sampled::Ready(f32::from_bits(bits)),
            _ => Sampled::NotReady(missing),
        }
    }
}

/// What the caller has a control output do now.
#[derive(Clone, Copy, Debug, PartialEq, Eq, Hash)]
pub enum Action {
    /// No output moves.
    Rest,
    /// This output opens.
    Open(ControlOutput),
    /// This output closes.
    Close(ControlOutput),
}

impl Action {
    pub(crate) fn told(action: u8, output: u8) -> Action {
        match u32::from(action) {
            header::OPEN => Action::Open(ControlOutput(output)),
            header::CLOSE => Action::Close(ControlOutput(output)),
            _ => Action::Rest,
        }
    }
}

/// How a stretch ended.
#[derive(Clone, Copy, Debug, PartialEq, Eq)]
pub struct Turn<'a> {
    /// How the event ended.
    pub outcome: Outcome,
    /// What a control output does now.
    pub action: Action,
    /// What is to be sent once the unit is stored: the filled front part of the lent buffer, empty where nothing is sent.
    pub reply: &'a [u8],
}
