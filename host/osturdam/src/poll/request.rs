//! The requests of a master, by their names.

use crate::raw::Figures;
use crate::{Clock, ControlOutput, File, Input, Ordinal, SpecialCalculation};

/// Kinds of inputs.
#[derive(Clone, Copy, Debug, Default, PartialEq, Eq)]
pub struct Kinds {
    /// 30h to 3Fh.
    pub simple_status: bool,
    /// 00 to 1Fh.
    pub two_bit_status: bool,
    /// 80h to FFh.
    pub analogs: bool,
    /// 40h to 5Fh.
    pub accumulators: bool,
}

/// A request to the unit polled, or to all units, which do not answer.
#[derive(Clone, Copy, Debug, PartialEq, Eq)]
pub enum Request<'a> {
    /// All inputs of some kinds.
    Scan(Kinds),
    /// The inputs of a table, 1 to 15.
    Table(u8),
    /// The values of all calculations.
    AllValues,
    /// The values of 1 to 128 calculations.
    Values(&'a [SpecialCalculation]),
    /// Records of a file: one, or as many as fit.
    History {
        /// The file.
        file: File,
        /// As many as fit.
        dump: bool,
    },
    /// Selects an output.
    Select {
        /// What is to operate.
        output: ControlOutput,
        /// To close, not to open.
        close: bool,
    },
    /// The output that this master selected does what it was selected for.
    Operate,
    /// 10h/21h, which no unit carries out.
    ResetSelect,
    /// The unit forgets its latest history reply.
    Initialise,
    /// An accumulator is set to 0.
    ResetCount(Input),
    /// The same in all units.
    ResetCountOfAll(Input),
    /// The clock is set.
    SetTime(Clock),
    /// The same in all units.
    SetTimeOfAll(Clock),
    /// Where the characters of the EXECUTE that follows go; a unit answers nothing to it, or RST.
    Write {
        /// The first place.
        bias: u16,
        /// The block.
        ordinal: Ordinal,
    },
    /// 1 to 128 characters for the WRITE before.
    Execute(&'a [u8]),
    /// A part of a block.
    Block {
        /// The first place.
        bias: u16,
        /// The block.
        ordinal: Ordinal,
        /// How many characters.
        count: u8,
    },
    /// The unit's time.
    Time,
}

impl Request<'_> {
    /// Function, command and data; figures of no request where one of them cannot be told in a character.
    pub(crate) fn figures(&self) -> Figures {
        match *self {
            Request::Scan(kinds) => to_one(0x00, kinds.command(), &[]),
            Request::Table(table) => to_one(0x0A, if table < 16 { 0x40 + table } else { 0 }, &[]),
            Request::AllValues => to_one(0x03, 0x80, &[]),
            Request::Values(numbers) => {
                let body: Vec<u8> = numbers.iter().map(|number| number.0).collect();
                to_one(0x03, 0x00, &body)
            }
            Request::History { file, dump } => to_one(0x04, poll_command(file, dump), &[]),
            Request::Select { output, close } => to_one(0x10, 0x10 + u8::from(close), &[output.0]),
            Request::Operate => to_one(0x10, 0x20, &[]),
            Request::ResetSelect => to_one(0x10, 0x21, &[]),
            Request::Initialise => to_one(0x20, 0x00, &[]),
            Request::ResetCount(input) => to_one(0x20, 0x11, &[input.0]),
            Request::ResetCountOfAll(input) => to_all(to_one(0x20, 0x11, &[input.0])),
            Request::SetTime(clock) => to_one(0x20, 0x38, &clock_chars(clock)),
            Request::SetTimeOfAll(clock) => to_all(to_one(0x20, 0x38, &clock_chars(clock))),
            Request::Write { bias, ordinal } => {
                let [low, high] = bias.to_le_bytes();
                to_one(0x20, 0x30, &[low, high, ordinal.0])
            }
            Request::Execute(chars) => to_one(0x20, 0x31, chars),
            Request::Block {
                bias,
                ordinal,
                count,
            } => {
                let [low, high] = bias.to_le_bytes();
                to_one(0x28, 0x30, &[low, high, ordinal.0, count])
            }
            Request::Time => to_one(0x28, 0x31, &[]),
        }
    }
}

impl Kinds {
    fn command(self) -> u8 {
        u8::from(self.simple_status)
            + 4 * u8::from(self.two_bit_status)
            + 8 * u8::from(self.analogs)
            + 64 * u8::from(self.accumulators)
    }
}

fn to_one(function: u8, command: u8, body: &[u8]) -> Figures {
    Figures {
        all: false,
        function,
        command,
        body: body.to_vec(),
    }
}

fn to_all(figures: Figures) -> Figures {
    Figures {
        all: true,
        ..figures
    }
}

/// A file from 32 on is none.
fn poll_command(file: File, dump: bool) -> u8 {
    if file.0 < 32 {
        file.0 + 32 * u8::from(dump)
    } else {
        0xFF
    }
}

/// The seven characters of a time; none where a number has more digits than they hold.
fn clock_chars(clock: Clock) -> Vec<u8> {
    let Clock {
        day,
        hour,
        minute,
        second,
        ms,
    } = clock;
    if day > 999 || [hour, minute, second].iter().any(|part| *part > 99) {
        return Vec::new();
    }
    let bcd = |part: u16| (part / 10 * 16 + part % 10) as u8;
    let [high, low] = ms.to_be_bytes();
    vec![
        (day / 100) as u8,
        bcd(day % 100),
        bcd(hour),
        bcd(minute),
        bcd(second),
        high,
        low,
    ]
}
