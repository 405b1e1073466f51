//! All that a unit keeps between events, and whether it is in range.

use crate::block::{FixedArea, Write};
use crate::clock::Clock;
use crate::config::{Config, Output};
use crate::control::Select;
use crate::history::{self, HistoryReply};
use crate::{contacts, means, port};

/// The highest master address.
pub const LAST_MASTER: u8 = 31;

/// The kept state of a unit, but for the parameter block that the caller lends.
#[derive(Clone, Debug, PartialEq, Eq)]
pub struct State {
    /// The clock.
    pub clock: Clock,
    /// Status bit 7: tables are to be loaded.
    pub bit7: bool,
    /// Status bit 3: a file was full, whether it dropped a record or refused one.
    pub bit3: bool,
    /// Status bit 2: a broadcast came.
    pub bit2: bool,
    /// The live select.
    pub select: Option<Select>,
    /// The master whose select timed out, while that is remembered.
    pub timed_out: Option<u8>,
    /// The waiting write.
    pub write: Option<Write>,
    /// The latest history reply.
    pub history: Option<HistoryReply>,
    /// The 32 files, each its held records, oldest first.
    pub files: Vec<Vec<Vec<u8>>>,
    /// The number of records that each file dropped, up to 65,535, where it stays.
    pub dropped: [u16; history::FILES],
    /// The word of each input number.
    pub words: [u16; 256],
    /// For each group of contacts, which changed since its last reply; says nothing where the
    /// mark is set.
    pub changed: [u8; contacts::GROUPS],
    /// The value of each calculation number, as a 32-bit pattern.
    pub values: [u32; 128],
    /// The last samples of each calculation number that is a mean, oldest first.
    pub samples: Vec<Vec<i16>>,
    /// The blocks of ordinals 00, 03 and 0Bh.
    pub fixed: FixedArea,
    /// Milliseconds without a non-empty stretch, not over 60,000.
    pub silence: u32,
    /// The mark of port 1: 0 is 00, 1 is 01, 2 is 10.
    pub mark: u8,
}

impl State {
    /// The state of a unit that has just started.
    pub fn fresh() -> Self {
        State {
            clock: Clock::START,
            bit7: true,
            bit3: false,
            bit2: false,
            select: None,
            timed_out: None,
            write: None,
            history: None,
            files: vec![Vec::new(); history::FILES],
            dropped: [0; history::FILES],
            words: [0; 256],
            changed: [0; contacts::GROUPS],
            values: [0; 128],
            samples: vec![Vec::new(); 128],
            fixed: FixedArea::EMPTY,
            silence: 0,
            mark: port::MARK_OK,
        }
    }

    /// The status character.
    pub fn status(&self) -> u8 {
        u8::from(self.bit7) << 7 | u8::from(self.bit3) << 3 | u8::from(self.bit2) << 2
    }
}

/// Whether the configuration is valid and the kept state in range; if not, all is outcome 17.
pub fn fits(config: &Config, state: &State, params_len: usize) -> bool {
    config.valid()
        && params_len == config.parameter_length
        && state.clock.in_range()
        && port::in_range(state)
        && state.timed_out.is_none_or(|master| master <= LAST_MASTER)
        && state
            .select
            .is_none_or(|select| select_fits(config, &select))
        && state
            .write
            .is_none_or(|write| write.master <= LAST_MASTER && write.age <= Write::HOLD)
        && means::in_range(config, state)
        && history::files_fit(config, state)
        && state
            .history
            .is_none_or(|reply| history::reply_fits(config, state, &reply))
}

/// Operating such a select must not reach an output that is missing.
fn select_fits(config: &Config, select: &Select) -> bool {
    select.master <= LAST_MASTER
        && select.age <= Select::HOLD
        && config.has_output(Output(select.output))
}
