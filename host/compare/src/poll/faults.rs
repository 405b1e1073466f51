//! Faults planted into the proved master's results, to show that the comparison finds each and makes its run short.

use super::event::{Call, Event};
use super::image::{FREE, KEPT, LENGTH, RETRY, WAITING};
use super::raw::header::*;
use super::raw::Memory;
use super::twin::Proved;

type Plant = fn(&Event, &Memory, &mut Proved);

/// A fault: it looks at the event, the memory before it and all that the master made of it, and spoils something.
pub struct Fault {
    pub name: &'static str,
    /// The most events that a run showing it needs.
    pub most: usize,
    pub plant: Plant,
}

/// The faults, one for each kind of thing that is compared.
pub static FAULTS: [Fault; 18] = [
    Fault {
        name: "a repeat has the acknowledge bit",
        most: 2,
        plant: |_, _, p| {
            if is_repeat(p) {
                p.lent[3] |= 0x40;
            }
        },
    },
    Fault {
        name: "a repeat names the file that is wished",
        most: 2,
        plant: |e, _, p| {
            if let (Call::Ask { wish, .. }, true) = (&e.call, is_repeat(p)) {
                p.lent[3] = wish.command;
            }
        },
    },
    Fault {
        name: "a character is written behind a frame",
        most: 1,
        plant: |_, _, p| {
            if p.sent > 0 {
                p.lent[p.sent as usize] ^= 1;
            }
        },
    },
    Fault {
        name: "history is asked for with too little room",
        most: 1,
        plant: |e, _, p| {
            let short = POLL_ROOM as u64 - 1;
            if matches!(&e.call, Call::Ask { wish, room, .. } if wish.function == 0x04 && *room == short)
            {
                p.sent = 8;
            }
        },
    },
    Fault {
        name: "a character that means nothing changes as a request is built",
        most: 1,
        plant: |_, _, p| p.memory[POLL_MEMORY - 1] ^= u8::from(p.sent > 0),
    },
    Fault {
        name: "RST lets the bit be set",
        most: 2,
        plant: |_, before, p| {
            if answers(before, p, READ_RST) {
                p.memory[FREE] = 0;
            }
        },
    },
    Fault {
        name: "NOP does not let the bit be set",
        most: 2,
        plant: |_, before, p| {
            if answers(before, p, READ_NOP) {
                p.memory[FREE] = 1;
            }
        },
    },
    Fault {
        name: "a reply to another request lets the bit be set",
        most: 3,
        plant: |e, before, p| {
            if replied(e) && before[WAITING] == 2 && usize::from(p.number) == READ_NORMAL {
                p.memory[FREE] = 0;
            }
        },
    },
    Fault {
        name: "a repeat is kept again",
        most: 5,
        plant: |e, before, p| {
            if answered(e, before, p) && told(e).len() > 1 && p.kept == [0; 2] {
                p.kept = [1, told(e).len() as u8 - 1];
            }
        },
    },
    Fault {
        name: "an empty reply leaves the last data kept",
        most: 2,
        plant: |e, before, p| {
            if answered(e, before, p) && told(e) == [0] {
                p.memory[KEPT..].copy_from_slice(&before[KEPT..]);
            }
        },
    },
    Fault {
        name: "data are kept without their last character",
        most: 2,
        plant: |_, _, p| p.memory[LENGTH] ^= u8::from(p.kept[0] > 0),
    },
    Fault {
        name: "the third record is changed",
        most: 2,
        plant: |_, _, p| p.lent[2 * usize::from(p.kept[1])] ^= u8::from(p.kept[0] > 2),
    },
    Fault {
        name: "a character is written behind the records",
        most: 2,
        plant: |_, _, p| {
            let end = usize::from(p.kept[0]) * usize::from(p.kept[1]);
            p.lent[end] ^= u8::from(end > 0);
        },
    },
    Fault {
        name: "a refused reply leaves the retry mark",
        most: 1,
        plant: |_, before, p| {
            if (READ_NOT_WHOLE..=READ_NO_SUCH_DATA).contains(&p.number.into()) {
                p.memory[RETRY] = before[RETRY];
            }
        },
    },
    Fault {
        name: "NOP leaves the retry mark",
        most: 3,
        plant: |_, before, p| {
            if usize::from(p.number) == READ_NOP {
                p.memory[RETRY] = before[RETRY];
            }
        },
    },
    Fault {
        name: "a request stays outstanding behind RST",
        most: 2,
        plant: |_, before, p| {
            if usize::from(p.number) == READ_RST {
                p.memory[WAITING] = before[WAITING];
            }
        },
    },
    Fault {
        name: "another address is told as another function",
        most: 1,
        plant: |_, _, p| p.number += u8::from(usize::from(p.number) == READ_OTHER_ADDRESS),
    },
    Fault {
        name: "a memory out of range is told as too little room",
        most: 1,
        plant: |_, _, p| p.number += u8::from(usize::from(p.number) == READ_NOT_CONFIGURED),
    },
];

/// A history request without the bit was built.
fn is_repeat(p: &Proved) -> bool {
    p.sent > 0 && p.lent[2] == 0x04 && p.lent[3] & 0x40 == 0
}

fn replied(event: &Event) -> bool {
    matches!(event.call, Call::Reply { .. })
}

/// The latest history request was answered so.
fn answers(before: &Memory, p: &Proved, number: usize) -> bool {
    before[WAITING] == 1 && usize::from(p.number) == number
}

/// The latest history request had a normal reply.
fn answered(event: &Event, before: &Memory, p: &Proved) -> bool {
    replied(event) && answers(before, p, READ_NORMAL)
}

/// The data of a reply that was believed.
fn told(event: &Event) -> &[u8] {
    match &event.call {
        Call::Reply { bytes, .. } => &bytes[7..bytes.len() - 2],
        Call::Ask { .. } => &[],
    }
}
