//! The remote unit of the Cooper 2179 serial protocol, written from the
//! documents alone, as something to compare another build with.
//!
//! A caller keeps a [`Config`], a [`State`] and a parameter block, and hands
//! them to the entries in [`mod@unit`] together with one event each.

#![forbid(unsafe_code)]
#![warn(missing_docs)]

pub mod bench;
pub mod block;
pub mod check;
pub mod clock;
pub mod config;
pub mod contacts;
pub mod control;
pub mod frame;
pub mod hex;
pub mod history;
pub mod master;
pub mod means;
pub mod outcome;
pub mod port;
pub mod scan;
pub mod state;
pub mod unit;

pub use block::{FixedArea, Write};
pub use check::check_word;
pub use clock::Clock;
pub use config::{Calculation, Config, Input, InputKind, Output};
pub use control::{Action, Select};
pub use frame::{Frame, Reply, Stretch};
pub use history::HistoryReply;
pub use means::{Mean, Sampled};
pub use state::{fits, State};
pub use unit::{contact, elapsed, pulses, sample, set_value, set_word, store, stretch, Answer};
