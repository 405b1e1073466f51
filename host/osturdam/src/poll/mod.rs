//! The master's side: requests built and replies read, for one unit that is polled.
//!
//! A [`Poll`] is what a master keeps for one unit: what it asked, what it keeps of history, and whether it may acknowledge. It is to be stored,
//! with the records, before a request goes out. Every call takes every input, and none panics.
//!
//! ```
//! use osturdam::poll::{Data, Poll, Read, Request, FRAME, ROOM};
//! use osturdam::{Config, File, Master, Stored, Unit, REPLY};
//!
//! // a unit with a trip in file 3, and a master that polls it
//! let mut unit = Unit::fresh(Config::new(1234).file(File(3), 1));
//! assert_eq!(unit.store_record(File(3), 0x07, &[630]), Stored::Stored);
//! let mut poll = Poll::begin(Master(31), 1234);
//!
//! // the request, the unit's reply, and what the master makes of it
//! let (mut frame, mut buffer, mut room) = ([0; FRAME], [0; REPLY], [0; ROOM]);
//! let request = Request::History { file: File(3), dump: true };
//! let sent = poll.ask(request, room.len(), &mut frame).expect("it is a request");
//! let reply = unit.stretch(sent, 0, &mut buffer).reply;
//! let reading = poll.read(reply, &mut room);
//!
//! assert_eq!(reading.read, Read::Normal);
//! let Data::History { records, more: false } = reading.data else {
//!     panic!("history was asked for");
//! };
//! assert_eq!((records[0].file, records[0].event(), records[0].values()), (File(3), 0x07, vec![630]));
//! assert_eq!(reading.kept, records[0].chars);
//! ```
//!
//! A unit has no number that ties a reply to its request: wait longer than it takes to answer before the next request.

mod data;
mod request;

pub use data::{Data, Record};
pub use request::{Kinds, Request};

use crate::{header, raw, Master};

/// The characters of a master's memory, for one unit.
pub const MEMORY: usize = header::POLL_MEMORY as usize;
/// The longest frame, and the shortest buffer that one is built in.
pub const FRAME: usize = header::POLL_FRAME as usize;
/// The least room for records that history is asked for with, and a reply read with.
pub const ROOM: usize = header::POLL_ROOM as usize;

answers! {
    /// How a reply was read. The five refusals stand in the order in which they are judged.
    Read {
        /// The request was carried out.
        Normal = READ_NORMAL,
        /// No whole reply.
        NotWhole = READ_NOT_WHOLE,
        /// Wrong check characters.
        CheckWrong = READ_CHECK_WRONG,
        /// Another address than the request's.
        OtherAddress = READ_OTHER_ADDRESS,
        /// Another function than the request's, NOP and RST both set, or nothing is outstanding.
        OtherFunction = READ_OTHER_FUNCTION,
        /// Data that no unit could send to this request.
        NoSuchData = READ_NO_SUCH_DATA,
        /// The unit did not carry it out.
        Nop = READ_NOP,
        /// A select or a write stood in the way, or none waited.
        Rst = READ_RST,
        /// The memory is out of range; nothing was changed.
        NotConfigured = READ_NOT_CONFIGURED,
        /// The room is shorter than [`ROOM`]; nothing was changed.
        RoomShort = READ_ROOM_SHORT,
    }
}

impl Read {
    /// Whether the reply is believed: normal, NOP or RST.
    pub fn believed(self) -> bool {
        matches!(self, Read::Normal | Read::Nop | Read::Rst)
    }
}

/// What became of a reply.
#[derive(Clone, Debug, PartialEq, Eq)]
pub struct Reading<'a> {
    /// How it was read. One that is refused sets the retry mark and changes nothing else.
    pub read: Read,
    /// Status and port status of a reply that is believed.
    pub status: Option<[u8; 2]>,
    /// What it tells, taken apart by the request that it answers.
    pub data: Data<'a>,
    /// The characters of the records that are kept, one behind the other: the filled front part of the room, empty where none are. A repeat
    /// that was kept already is not kept again.
    pub kept: &'a [u8],
}

/// A master's memory for the one unit that it polls.
///
/// ```
/// use osturdam::poll::{Poll, Read, Request, FRAME, ROOM};
/// use osturdam::Master;
///
/// let mut poll = Poll::begin(Master(1), 1234);
/// let mut frame = [0; FRAME];
/// assert_eq!(poll.ask(Request::Time, 0, &mut frame).map(<[u8]>::len), Some(8));
///
/// // a table that is none is not asked for
/// assert_eq!(poll.ask(Request::Table(16), 0, &mut frame), None);
///
/// // noise is refused
/// assert_eq!(poll.read(b"noise", &mut [0; ROOM]).read, Read::NotWhole);
/// assert!(poll.retry());
///
/// // what was stored goes on where it was
/// assert_eq!(Poll::from_bytes(poll.to_bytes()), poll);
/// ```
#[derive(Clone, Debug, PartialEq, Eq)]
pub struct Poll {
    memory: [u8; MEMORY],
}

impl Poll {
    /// A fresh master, 0 to 31, of a unit, 0 to 2046; its first history request acknowledges. One of other numbers asks for nothing.
    pub fn begin(master: Master, unit: u16) -> Poll {
        let mut memory = [0; MEMORY];
        let address = match (master.0, unit) {
            (0..32, 0..0x7FF) => u16::from(master.0) << 11 | unit,
            _ => 0x7FF,
        };
        raw::poll_begin(&mut memory, address);
        Poll { memory }
    }

    /// The master that was saved. Any characters may be here: a memory out of range asks for nothing and believes nothing.
    ///
    /// ```
    /// use osturdam::poll::{Poll, Read, MEMORY, ROOM};
    ///
    /// let mut worn = Poll::from_bytes([0xFF; MEMORY]);
    /// assert_eq!(worn.read(&[0; 9], &mut [0; ROOM]).read, Read::NotConfigured);
    /// ```
    pub fn from_bytes(bytes: [u8; MEMORY]) -> Poll {
        Poll { memory: bytes }
    }

    /// The whole memory, to be stored before a request goes out: the same characters on every machine.
    pub fn to_bytes(&self) -> [u8; MEMORY] {
        self.memory
    }

    /// Builds a request; `room` is how much of the room for records is left. What is to be sent is the front of the buffer; None, and
    /// nothing changed, where the figures make no request, the buffer is shorter than [`FRAME`], or history finds less room than [`ROOM`].
    ///
    /// Where the latest history request was not answered, history is asked for by a repeat of that, whatever file and kind are wished.
    pub fn ask<'a>(
        &mut self,
        request: Request,
        room: usize,
        buffer: &'a mut [u8],
    ) -> Option<&'a [u8]> {
        let sent = raw::poll_ask(&mut self.memory, room, &request.figures(), buffer);
        buffer
            .get(..sent as usize)
            .filter(|frame| !frame.is_empty())
    }

    /// Reads a reply; records that are kept go into the front of the room.
    pub fn read<'a>(&mut self, reply: &'a [u8], room: &'a mut [u8]) -> Reading<'a> {
        let asked = self.memory;
        let (number, count, size) = raw::poll_read(&mut self.memory, reply, room);
        let read = Read::told(number);
        let status = match reply {
            [_, _, _, status, port, ..] if read.believed() => Some([*status, *port]),
            _ => None,
        };
        Reading {
            read,
            status,
            data: Data::told(&asked, read, reply),
            kept: room.get(..count * size).unwrap_or(&[]),
        }
    }

    /// The reply before was not believed.
    pub fn retry(&self) -> bool {
        raw::poll_retry(&self.memory)
    }
}
