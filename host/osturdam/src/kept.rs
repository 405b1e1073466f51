//! What a unit keeps besides areas and records: plain numbers, and a typed view of them.

use crate::memory::word_at;
use crate::{header, ControlOutput, File, Master, Ordinal};

/// The numbers that a unit keeps besides its points, blocks and records. Any may be here: the library judges them, and [`Kept::view`]
/// reads those that a unit writes.
#[derive(Clone, Copy, Debug, PartialEq, Eq)]
pub struct Kept([u16; Kept::NUMBERS]);

/// What the kept numbers say.
#[derive(Clone, Copy, Debug, PartialEq, Eq)]
pub struct View {
    /// The clock.
    pub clock: Clock,
    /// The select.
    pub hold: Hold,
    /// The write.
    pub write: Pending,
    /// Status bit 7: the unit is to be configured.
    pub configure: bool,
    /// Status bit 3: a file was full.
    pub error: bool,
    /// Status bit 2: a broadcast was heard.
    pub broadcast: bool,
    /// The latest history reply.
    pub memory: Memory,
    /// The port.
    pub port: Port,
}

/// Day of the year and time.
#[derive(Clone, Copy, Debug, PartialEq, Eq)]
#[allow(missing_docs)]
pub struct Clock {
    pub day: u16,
    pub hour: u16,
    pub minute: u16,
    pub second: u16,
    pub ms: u16,
}

/// The unit's one select, or the mark that its master's has timed out.
#[derive(Clone, Copy, Debug, PartialEq, Eq)]
pub enum Hold {
    /// No select.
    Free,
    /// A select is held.
    Held(Select),
    /// This master's select has timed out.
    TimedOut(Master),
}

/// A select that waits for its operate.
#[derive(Clone, Copy, Debug, PartialEq, Eq)]
pub struct Select {
    /// Who selected.
    pub master: Master,
    /// What is to operate.
    pub output: ControlOutput,
    /// Whether it is to close.
    pub close: bool,
    /// Milliseconds since.
    pub age: u16,
}

/// The unit's one write.
#[derive(Clone, Copy, Debug, PartialEq, Eq)]
pub enum Pending {
    /// None.
    NoWrite,
    /// A write waits for its EXECUTE.
    Waits(Write),
}

/// A WRITE that was taken.
#[derive(Clone, Copy, Debug, PartialEq, Eq)]
pub struct Write {
    /// Who writes.
    pub master: Master,
    /// From which place of the block on.
    pub bias: u16,
    /// Into which block.
    pub ordinal: Ordinal,
    /// Milliseconds since.
    pub age: u16,
}

/// The latest history reply, if it is remembered.
#[derive(Clone, Copy, Debug, PartialEq, Eq)]
pub enum Memory {
    /// None.
    Nothing,
    /// This one: its master's next acknowledging request releases its records.
    Remembered(HistoryReply),
}

/// What a history reply said.
#[derive(Clone, Copy, Debug, PartialEq, Eq)]
pub struct HistoryReply {
    /// To whom it went.
    pub master: Master,
    /// Whose records it carried.
    pub file: File,
    /// Whether it carried as many as fit, or one.
    pub dump: bool,
    /// How many it carried.
    pub quantity: u8,
    /// Whether it said that more are held.
    pub more: bool,
}

/// What a unit knows of its port.
#[derive(Clone, Copy, Debug, PartialEq, Eq)]
pub struct Port {
    /// Milliseconds with no stretch, to 60,000.
    pub silence: u16,
    /// What its status says.
    pub mark: Mark,
}

/// A port's status.
#[derive(Clone, Copy, Debug, PartialEq, Eq)]
pub enum Mark {
    /// In order.
    Fine,
    /// Silent for a minute or more.
    Silent,
    /// Damage was heard.
    Damaged,
}

impl Kept {
    /// How many numbers there are.
    const NUMBERS: usize = header::KEPT as usize;

    /// The numbers that lie in a unit's memory.
    pub(crate) fn of_unit(unit: &[u8]) -> Kept {
        let first = header::AT_NUMBERS as usize;
        Kept(std::array::from_fn(|n| word_at(unit, first + 2 * n)))
    }

    /// The number of this name in the C header.
    fn at(&self, which: u32) -> u16 {
        self.0.get(which as usize).copied().unwrap_or(0)
    }

    /// What the numbers say, if they are such as a unit writes. Whether each is in range only the library says, by
    /// [`Outcome::NotConfigured`](crate::Outcome::NotConfigured).
    pub fn view(&self) -> Option<View> {
        Some(View {
            clock: Clock {
                day: self.at(header::DAY),
                hour: self.at(header::HOUR),
                minute: self.at(header::MINUTE),
                second: self.at(header::SECOND),
                ms: self.at(header::MS),
            },
            hold: self.hold()?,
            write: self.pending()?,
            configure: bit(self.at(header::STATUS_CONFIGURE))?,
            error: bit(self.at(header::STATUS_ERROR))?,
            broadcast: bit(self.at(header::STATUS_BROADCAST))?,
            memory: self.memory()?,
            port: Port {
                silence: self.at(header::SILENCE),
                mark: self.mark()?,
            },
        })
    }

    fn hold(&self) -> Option<Hold> {
        let master = self.at(header::SELECT_MASTER);
        let rest = [
            self.at(header::SELECT_OUTPUT),
            self.at(header::SELECT_CLOSE),
            self.at(header::SELECT_AGE),
        ];
        match (u32::from(self.at(header::SELECT)), master, rest) {
            (header::FREE, 0, [0, 0, 0]) => Some(Hold::Free),
            (header::HELD, _, [output, close, age]) => Some(Hold::Held(Select {
                master: Master(low(master)?),
                output: ControlOutput(low(output)?),
                close: bit(close)?,
                age,
            })),
            (header::TIMED_OUT, _, [0, 0, 0]) => Some(Hold::TimedOut(Master(low(master)?))),
            _ => None,
        }
    }

    fn pending(&self) -> Option<Pending> {
        let numbers = [
            self.at(header::WRITE_MASTER),
            self.at(header::WRITE_BIAS),
            self.at(header::WRITE_ORDINAL),
            self.at(header::WRITE_AGE),
        ];
        match (u32::from(self.at(header::WRITE)), numbers) {
            (header::NO_WRITE, [0, 0, 0, 0]) => Some(Pending::NoWrite),
            (header::WAITS, [master, bias, ordinal, age]) => Some(Pending::Waits(Write {
                master: Master(low(master)?),
                bias,
                ordinal: Ordinal(low(ordinal)?),
                age,
            })),
            _ => None,
        }
    }

    fn memory(&self) -> Option<Memory> {
        let numbers = [
            self.at(header::MEMORY_MASTER),
            self.at(header::MEMORY_FILE),
            self.at(header::MEMORY_DUMP),
            self.at(header::MEMORY_QUANTITY),
            self.at(header::MEMORY_MORE),
        ];
        match (u32::from(self.at(header::MEMORY)), numbers) {
            (header::NOTHING, [0, 0, 0, 0, 0]) => Some(Memory::Nothing),
            (header::REMEMBERED, [master, file, dump, quantity, more]) => {
                Some(Memory::Remembered(HistoryReply {
                    master: Master(low(master)?),
                    file: File(low(file)?),
                    dump: bit(dump)?,
                    quantity: low(quantity)?,
                    more: bit(more)?,
                }))
            }
            _ => None,
        }
    }

    fn mark(&self) -> Option<Mark> {
        match u32::from(self.at(header::MARK)) {
            header::FINE => Some(Mark::Fine),
            header::SILENT => Some(Mark::Silent),
            header::DAMAGED => Some(Mark::Damaged),
            _ => None,
        }
    }
}

fn bit(n: u16) -> Option<bool> {
    match n {
        0 => Some(false),
        1 => Some(true),
        _ => None,
    }
}

fn low(n: u16) -> Option<u8> {
    u8::try_from(n).ok()
}
