//! What happens to both masters: a request wished, or a reply that comes.

use super::raw::Figures;
use crate::event::hex;
use independent::master::Request;
use independent::{Calculation, Clock, Input, Output};
use std::fmt;

/// A call of the master.
#[derive(Clone)]
pub enum Call {
    Ask {
        wish: Figures,
        /// Characters left for records.
        room: u64,
        /// Of the buffer for the frame.
        length: usize,
    },
    Reply {
        bytes: Vec<u8>,
        /// Lent for records.
        room: usize,
    },
}

/// A call, with some characters of the proved master's memory out of range as long as it lasts.
#[derive(Clone)]
pub struct Event {
    pub call: Call,
    pub spoilt: Option<(usize, Vec<u8>)>,
}

/// The request that figures make, as far as the independent master's types can say it; it judges the rest.
pub fn request_of(wish: &Figures) -> Option<Request> {
    let (all, body) = (wish.all != 0, wish.body.as_slice());
    let made = match (wish.function, wish.command, body) {
        (0x20, 0x11, &[n]) if all => Request::BroadcastResetCount(Input(n)),
        (0x20, 0x38, body) if all => Request::BroadcastSetTime(time(body)?),
        _ if all => return None,
        (0x00, kinds, []) => Request::Scan { kinds },
        (0x0A, command, []) => Request::Table(command.checked_sub(0x40)?),
        (0x03, 0x80, []) => Request::AllCalculations,
        (0x03, 0x00, body) => Request::Calculations(body.iter().map(|&n| Calculation(n)).collect()),
        (0x04, command, []) => history(command),
        (0x10, 0x10..=0x11, &[n]) => Request::Select {
            output: Output(n),
            close: wish.command == 0x11,
        },
        (0x10, 0x20, []) => Request::Operate,
        (0x10, 0x21, []) => Request::ResetSelect,
        (0x20, 0x00, []) => Request::Initialize,
        (0x20, 0x11, &[n]) => Request::ResetCount(Input(n)),
        (0x20, 0x30, &[low, high, ordinal]) => Request::Write {
            bias: u16::from_le_bytes([low, high]),
            ordinal,
        },
        (0x20, 0x31, body) => Request::Execute(body.to_vec()),
        (0x20, 0x38, body) => Request::SetTime(time(body)?),
        (0x28, 0x30, &[low, high, ordinal, quantity]) => Request::Read {
            bias: u16::from_le_bytes([low, high]),
            ordinal,
            quantity,
        },
        (0x28, 0x31, []) => Request::ReadTime,
        _ => return None,
    };
    Some(made)
}

fn time(body: &[u8]) -> Option<Clock> {
    Clock::from_characters(body.try_into().ok()?)
}

/// A command from 64 on names a file that is none.
fn history(command: u8) -> Request {
    let dump = (32..64).contains(&command);
    Request::History {
        file: command - 32 * u8::from(dump),
        dump,
    }
}

impl fmt::Display for Call {
    fn fmt(&self, f: &mut fmt::Formatter) -> fmt::Result {
        match self {
            Call::Ask { wish, room, length } => {
                let (all, body) = (wish.all, hex(&wish.body));
                write!(
                    f,
                    "ask {:02X}h/{:02X}h, all {all}, data {body}, room {room}, buffer {length}",
                    wish.function, wish.command
                )
            }
            Call::Reply { bytes, room } => write!(f, "reply {}, room {room}", hex(bytes)),
        }
    }
}

impl fmt::Display for Event {
    fn fmt(&self, f: &mut fmt::Formatter) -> fmt::Result {
        write!(f, "{}", self.call)?;
        match &self.spoilt {
            Some((at, with)) => write!(f, " while {} stands at {at}", hex(with)),
            None => Ok(()),
        }
    }
}
