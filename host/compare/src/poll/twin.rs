//! Both masters side by side: each event goes to both, and everything is compared.

use super::event::{request_of, Call, Event};
use super::faults::Fault;
use super::image::{address, difference, filled, lay, LATEST};
use super::raw::header::{POLL_FRAME, POLL_ROOM, READ_NOT_CONFIGURED, READ_ROOM_SHORT};
use super::raw::{self, Memory};
use crate::event::hex;
use independent::master::{build, read, Master, Record, Request, Said};
use std::mem::take;

/// The most that is lent for a frame or for records: more than is asked for.
pub const LENT: usize = POLL_ROOM + 80;

/// What stands in what is lent before an event, no two neighbours alike.
const PATTERN: [u8; LENT] = pattern();

const fn pattern() -> [u8; LENT] {
    let mut made = [0; LENT];
    let mut i = 0;
    while i < LENT {
        made[i] = (i * 7 + 3) as u8;
        i += 1;
    }
    made
}

/// Where a run starts: a fresh master made out of any memory, or one in the middle of its life.
#[derive(Clone)]
pub struct Start {
    pub master: Master,
    pub fresh: bool,
    pub fill: u8,
}

/// The proved master: its memory, and what the latest call made.
pub struct Proved {
    pub memory: Memory,
    /// The buffer of a frame, or the room for records.
    pub lent: [u8; LENT],
    pub sent: u64,
    pub number: u8,
    pub kept: [u8; 2],
}

/// What both say of an event.
pub struct Told {
    /// How a reply was read; of a request 0.
    pub number: u8,
    /// The frame of a request.
    pub frame: Option<Vec<u8>>,
    /// The records kept of a reply.
    pub records: Vec<Record>,
}

/// The proved master and the independent one.
pub struct Twin {
    pub proved: Proved,
    pub master: Master,
    /// The independent master before the latest event.
    pub before: Master,
    fault: Option<&'static Fault>,
}

impl Twin {
    pub fn new(start: &Start, fault: Option<&'static Fault>) -> Result<Twin, String> {
        let mut other = filled(if start.fresh { 0 } else { start.fill });
        lay(&start.master, &mut other);
        let mut memory = other;
        if start.fresh {
            memory.fill(start.fill);
            raw::begin(&mut memory, address(&start.master));
        }
        if let Some(found) = difference(&memory, &other) {
            return Err(format!("at the start: {found}"));
        }
        Ok(Twin {
            proved: Proved {
                memory,
                lent: PATTERN,
                sent: 0,
                number: 0,
                kept: [0; 2],
            },
            master: start.master.clone(),
            before: start.master.clone(),
            fault,
        })
    }

    /// Hands an event to both; tells what both say, or where they differ.
    pub fn take(&mut self, event: &Event) -> Result<Told, String> {
        let right = self.proved.memory;
        if let Some((at, with)) = &event.spoilt {
            self.proved.memory[*at..*at + with.len()].copy_from_slice(with);
        }
        let before = self.proved.memory;
        self.proved.hear(&event.call);
        if let Some(fault) = self.fault {
            (fault.plant)(event, &before, &mut self.proved);
        }
        self.before = self.master.clone();
        let told = self.independent(event);
        let mut expected = before;
        if event.spoilt.is_none() {
            lay(&self.master, &mut expected);
        }
        if let Some(found) = self.differs(&told, &expected) {
            return Err(found);
        }
        if event.spoilt.is_some() {
            self.proved.memory = right;
        }
        match self.rest_differs(&told) {
            Some(found) => Err(found.to_string()),
            None => Ok(told),
        }
    }

    fn independent(&mut self, event: &Event) -> Told {
        let mut told = Told {
            number: 0,
            frame: None,
            records: Vec::new(),
        };
        match &event.call {
            Call::Ask { wish, room, length } => {
                if *length >= POLL_FRAME && event.spoilt.is_none() {
                    let room = usize::try_from(*room).unwrap_or(usize::MAX);
                    let wish = request_of(wish);
                    told.frame = wish.and_then(|wish| build(&mut self.master, &wish, room));
                }
            }
            Call::Reply { room, .. } if *room < POLL_ROOM => told.number = READ_ROOM_SHORT as u8,
            Call::Reply { .. } if event.spoilt.is_some() => {
                told.number = READ_NOT_CONFIGURED as u8;
            }
            Call::Reply { bytes, .. } => {
                told.number = match read(&mut self.master, bytes) {
                    Ok(believed) => match believed.said {
                        Said::Normal(_) => 0,
                        Said::Nop(_) => 6,
                        Said::Rst => 7,
                    },
                    Err(refusal) => refusal as u8,
                };
                told.records = take(&mut self.master.records);
            }
        }
        told
    }

    fn differs(&self, told: &Told, expected: &Memory) -> Option<String> {
        let proved = &self.proved;
        if proved.number != told.number {
            return Some(format!(
                "read: proved {}, independent {}",
                proved.number, told.number
            ));
        }
        let frame = told.frame.as_deref().unwrap_or_default();
        if proved.sent != frame.len() as u64 {
            let (sent, many) = (proved.sent, frame.len());
            return Some(format!("sent: proved {sent}, independent {many}"));
        }
        let size = told.records.first().map_or(0, |r| r.characters.len());
        if proved.kept.map(usize::from) != [told.records.len(), size] {
            let (kept, many) = (proved.kept, told.records.len());
            return Some(format!(
                "kept: proved {kept:?}, independent {many} of {size}"
            ));
        }
        let records = told.records.iter().flat_map(|r| &r.characters);
        let made: Vec<u8> = frame.iter().chain(records).copied().collect();
        self.lent_differs(&made)
            .or_else(|| difference(&proved.memory, expected))
    }

    /// The frame or the records stand in front, and nothing else was written.
    fn lent_differs(&self, made: &[u8]) -> Option<String> {
        let (front, behind) = self.proved.lent.split_at(made.len());
        if front != made {
            let (proved, independent) = (hex(front), hex(made));
            return Some(format!("proved {proved}, independent {independent}"));
        }
        (behind != &PATTERN[made.len()..]).then(|| "what is lent was written behind it".to_string())
    }

    /// The call that tells the retry mark; and records and what is outstanding are of the file and the kind of the latest request.
    fn rest_differs(&self, told: &Told) -> Option<&'static str> {
        let memory = &self.proved.memory;
        if raw::retry(memory) != u8::from(self.master.retry) {
            return Some("the retry mark is told wrong");
        }
        let (file, dump) = (memory[LATEST] % 32, memory[LATEST] / 32 % 2 == 1);
        let asked = match self.master.outstanding {
            Some(Request::History { file: f, dump: d }) => (f, d) == (file, dump),
            _ => true,
        };
        let kept = told.records.iter().all(|r| r.file == file);
        (!asked || !kept).then_some("records or request of another file")
    }
}

impl Proved {
    /// A call of the library.
    fn hear(&mut self, call: &Call) {
        self.lent = PATTERN;
        (self.sent, self.number, self.kept) = (0, 0, [0; 2]);
        match call {
            Call::Ask { wish, room, length } => {
                self.sent = raw::ask(&mut self.memory, *room, wish, &mut self.lent[..*length]);
            }
            Call::Reply { bytes, room } => {
                self.kept = [0xA5; 2];
                let (lent, kept) = (&mut self.lent[..*room], &mut self.kept);
                self.number = raw::read(&mut self.memory, bytes, lent, kept);
            }
        }
    }
}
