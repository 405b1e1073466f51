//! The master: builds each request of document 01 and reads each reply
//! (document 02, request 1). One [`Master`] polls one unit.

pub mod judge;
pub mod read;
pub mod request;

use crate::frame::{Frame, Reply, BROADCAST};
use crate::state::LAST_MASTER;
use crate::{check_word, Config};
pub use read::{read, Data, Read, Refusal, Said};
pub use request::Request;

/// A history request as it was sent.
#[derive(Clone, Copy, Debug, PartialEq, Eq)]
pub struct Poll {
    /// The file, 0 to 31.
    pub file: u8,
    /// True for a dump, false for a single record.
    pub dump: bool,
    /// Whether it had the acknowledge bit.
    pub acknowledge: bool,
}

/// History data that was kept, to know a repeat by.
#[derive(Clone, Debug, PartialEq, Eq)]
pub struct Kept {
    /// The file asked for.
    pub file: u8,
    /// Whether a dump was asked for.
    pub dump: bool,
    /// All data characters of the reply.
    pub data: Vec<u8>,
}

/// A record with the file that it came from.
#[derive(Clone, Debug, PartialEq, Eq)]
pub struct Record {
    /// The file, 0 to 31.
    pub file: u8,
    /// Event type, stamp and values as they came.
    pub characters: Vec<u8>,
}

/// What a master keeps for the unit that it polls.
#[derive(Clone, Debug, PartialEq, Eq)]
pub struct Master {
    /// Its own address, valid to 31.
    pub master: u8,
    /// The unit that it polls, valid to 7FEh.
    pub unit: u16,
    /// The request that waits for its reply.
    pub outstanding: Option<Request>,
    /// The latest history request, a repeat too.
    pub latest: Option<Poll>,
    /// Whether a normal or NOP reply to the latest history request was believed.
    pub may_acknowledge: bool,
    /// Set by a refused reply, cleared by a believed one.
    pub retry: bool,
    /// The last history data that was kept; an empty reply too.
    pub last_kept: Option<Kept>,
    /// The history records in the order received.
    pub records: Vec<Record>,
}

impl Master {
    /// A master that has sent nothing yet.
    pub fn new(master: u8, unit: u16) -> Self {
        Master {
            master,
            unit,
            outstanding: None,
            latest: None,
            may_acknowledge: false,
            retry: false,
            last_kept: None,
            records: Vec::new(),
        }
    }

    /// The two address characters of a request, which its reply echoes.
    fn address(&self, request: Option<&Request>) -> [u8; 2] {
        let unit = match request {
            Some(request) if request.broadcast() => BROADCAST,
            _ => self.unit,
        };
        (u16::from(self.master) << 11 | unit).to_le_bytes()
    }

    /// The history request to send: a new one with the bit, or the latest again without it.
    fn next_poll(&self, file: u8, dump: bool) -> Poll {
        match self.latest {
            Some(latest) if !self.may_acknowledge => Poll {
                acknowledge: false,
                ..latest
            },
            _ => Poll {
                file,
                dump,
                acknowledge: true,
            },
        }
    }
}

/// Builds the frame of a request; `room` is the characters left for history records. None, with
/// nothing changed, for figures that make no request or a history request without room.
pub fn build(master: &mut Master, wish: &Request, room: usize) -> Option<Vec<u8>> {
    if master.master > LAST_MASTER || master.unit > Config::LAST_UNIT || !wish.valid() {
        return None;
    }
    let (request, acknowledge) = match *wish {
        Request::History { .. } if room < Reply::DATA_LIMIT => return None,
        Request::History { file, dump } => {
            let poll = master.next_poll(file, dump);
            master.latest = Some(poll);
            master.may_acknowledge = false;
            let (file, dump) = (poll.file, poll.dump);
            (Request::History { file, dump }, poll.acknowledge)
        }
        _ => (wish.clone(), false),
    };
    let frame = frame(master, &request, acknowledge);
    master.outstanding = Some(request);
    Some(frame)
}

/// The characters of a request, with the acknowledge bit where it is to be set.
fn frame(master: &Master, request: &Request, acknowledge: bool) -> Vec<u8> {
    let (function, command, data) = request.parts();
    let mut bytes = Vec::with_capacity(Frame::SHORTEST + data.len());
    bytes.extend_from_slice(&master.address(Some(request)));
    bytes.extend_from_slice(&[function, command | u8::from(acknowledge) << 6]);
    bytes.extend_from_slice(&(data.len() as u16).to_le_bytes());
    bytes.extend_from_slice(&data);
    let check = check_word(&bytes).to_le_bytes();
    bytes.extend_from_slice(&check);
    bytes
}
