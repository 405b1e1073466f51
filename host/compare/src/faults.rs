//! Faults planted into the proved unit's results, to show that the comparison finds each and makes its run short.

use crate::board::header::{self, KEPT};
use crate::board::{Turned, Unit};
use crate::both::is_pair;
use crate::event::Event;
use crate::places::Places;

type Plant = fn(&Event, &[u16; KEPT], &Places, &mut Unit, &mut Turned, &mut [u8]);

/// A fault: it looks at the event, the kept numbers before it, where records lie and all that the unit made of it, and spoils something.
pub struct Fault {
    pub name: &'static str,
    /// The most events that a run showing it needs.
    pub most: usize,
    pub plant: Plant,
}

/// The faults, one for each kind of thing that is compared.
pub static FAULTS: [Fault; 23] = [
    Fault {
        name: "a select held by another is told as none",
        most: 2,
        plant: |_, _, _, _, t, _| t.outcome = if t.outcome == 13 { 14 } else { t.outcome },
    },
    Fault {
        name: "a close opens",
        most: 2,
        plant: |_, _, _, _, t, _| t.action = t.action.min(1),
    },
    Fault {
        name: "a history reply with the flag has a wrong character",
        most: 2,
        plant: |_, _, _, _, t, reply| {
            if t.sent > 9 && reply[2] == 0x04 && reply[7] & 0x80 != 0 {
                reply[t.sent - 3] ^= 1;
            }
        },
    },
    Fault {
        name: "a character is written behind a NOP",
        most: 1,
        plant: |_, _, _, _, t, reply| {
            if t.sent > 0 && reply[2] & 0x40 != 0 {
                reply[t.sent] ^= 1;
            }
        },
    },
    Fault {
        name: "a select ages too little past 3,000",
        most: 2,
        plant: |_, _, _, u, _, _| {
            let age = u.memory.kept(header::SELECT_AGE);
            if usize::from(u.memory.kept(header::SELECT)) == header::HELD && age > 3000 {
                u.memory.put_kept(header::SELECT_AGE, age - 1);
            }
        },
    },
    Fault {
        name: "a lag ages the select",
        most: 2,
        plant: |e, _, _, u, t, _| {
            let age = u.memory.kept(header::SELECT_AGE);
            if set_with_lag(e, t) && usize::from(u.memory.kept(header::SELECT)) == header::HELD {
                u.memory.put_kept(header::SELECT_AGE, age ^ 1);
            }
        },
    },
    Fault {
        name: "a lag is not added to the clock's seconds",
        most: 1,
        plant: |e, _, _, u, t, _| {
            if set_with_lag(e, t) {
                let sent = u16::from(set_second(e));
                u.memory.put_kept(header::SECOND, sent);
            }
        },
    },
    Fault {
        name: "a pair leaves its write",
        most: 1,
        plant: |e, _, _, u, t, _| {
            if matches!(e, Event::Stretch { bytes, .. } if is_pair(bytes)) && t.outcome == 0 {
                u.memory.put_kept(header::WRITE, 1);
            }
        },
    },
    Fault {
        name: "a contact's first change is marked",
        most: 1,
        plant: |e, _, _, u, t, _| {
            if let (Event::Contact(number, _), 0) = (e, t.outcome) {
                let group = usize::from(number / 8);
                let bits = u.memory.chars[header::AT_CHANGED + group];
                u.memory.chars[header::AT_WORDS + 2 * group + 1] |= bits;
            }
        },
    },
    Fault {
        name: "a NOP clears the marks",
        most: 2,
        plant: |_, _, _, u, t, reply| {
            if t.sent > 0 && reply[2] & 0x40 != 0 {
                (0..header::GROUPS).for_each(|g| u.memory.chars[header::AT_WORDS + 2 * g + 1] = 0);
            }
        },
    },
    Fault {
        name: "a scan of other kinds clears the tally",
        most: 2,
        plant: |e, _, _, u, t, _| {
            if matches!(e, Event::Stretch { bytes, .. } if t.outcome == 0 && bytes[2] == 0 && bytes[3] & 4 == 0)
            {
                u.memory.chars[header::AT_CHANGED..header::AT_CHANGED + header::GROUPS].fill(0);
            }
        },
    },
    Fault {
        name: "a point changes as another master's select is refused",
        most: 2,
        plant: |_, _, _, u, t, _| {
            u.memory.chars[header::AT_WORDS + 2 * 0xFF] ^= u8::from(t.outcome == 13)
        },
    },
    Fault {
        name: "the parameter block changes as bit 7 clears",
        most: 2,
        plant: |_, before, _, u, _, _| {
            let bit = header::STATUS_CONFIGURE;
            u.block[0] ^= u8::from(before[bit] > u.memory.kept(bit));
        },
    },
    Fault {
        name: "the third record of a file spoils the first",
        most: 3,
        plant: |e, _, p, u, t, _| {
            if let Event::Store { file, .. } = e {
                let file = usize::from(*file) % header::FILES;
                if let Some(first) = p.of_record(file, 0) {
                    u.records[first] ^= u8::from(t.outcome == 0 && u.memory.count(file) == 3);
                }
            }
        },
    },
    Fault {
        name: "a refused store writes past the records held",
        most: 1,
        plant: |e, _, p, u, t, _| {
            if matches!(e, Event::Store { .. }) && t.outcome == 3 {
                u.records[p.room - 1] ^= 1;
            }
        },
    },
    Fault {
        name: "a stored record writes behind all records",
        most: 1,
        plant: |e, _, p, u, t, _| {
            if matches!(e, Event::Store { .. }) && t.outcome == 0 {
                u.records[p.room] ^= 1;
            }
        },
    },
    Fault {
        name: "a sum of 0 gives minus zero",
        most: 3,
        plant: |e, _, _, u, t, _| {
            if is_mean(e, t) && t.sampled == [0; 6] {
                turn_sign(e, u, t);
            }
        },
    },
    Fault {
        name: "a mean below 0 is told as above",
        most: 2,
        plant: |e, _, _, u, t, _| {
            if is_mean(e, t) && t.sampled[5] & 0x80 != 0 {
                turn_sign(e, u, t);
            }
        },
    },
    Fault {
        name: "one sample fewer is told as missing",
        most: 1,
        plant: |e, _, _, _, t, _| {
            if matches!(e, Event::Sample(_)) && t.sampled[0] > 1 {
                t.sampled[0] -= 1;
            }
        },
    },
    Fault {
        name: "a sample writes behind all samples",
        most: 1,
        plant: |e, _, p, u, t, _| {
            if matches!(e, Event::Sample(_)) && t.outcome == 0 {
                u.records[p.room] ^= 1;
            }
        },
    },
    Fault {
        name: "a stored record changes a sample",
        most: 2,
        plant: |e, _, p, u, t, _| {
            if matches!(e, Event::Store { .. }) && t.outcome == 0 && p.room > p.records {
                u.records[p.records] ^= u8::from(u.memory.taken(0) > 0);
            }
        },
    },
    Fault {
        name: "a start by the line forgets the samples",
        most: 2,
        plant: |e, _, _, u, t, _| {
            if matches!(e, Event::Stretch { bytes, .. } if t.outcome == 0 && bytes[2..4] == [0x20, 0x00])
            {
                let taken = header::AT_TAKEN..header::AT_TAKEN + 2 * header::MEANS;
                u.memory.chars[taken].fill(0);
            }
        },
    },
    Fault {
        name: "an accumulator that counts changes the configuration",
        most: 1,
        plant: |e, _, _, u, t, _| {
            if matches!(e, Event::Pulses(..)) && t.outcome == 0 {
                u.memory.chars[header::AT_VALUES] ^= 1;
            }
        },
    },
];

/// A Set Time that was carried out came with a lag.
fn set_with_lag(event: &Event, turned: &Turned) -> bool {
    matches!(event, Event::Stretch { bytes, lag: 1.., .. } if bytes.len() == 15 && bytes[2..4] == [0x20, 0x38])
        && (turned.outcome == 0 || turned.outcome == 4)
}

/// A sample made a mean.
fn is_mean(event: &Event, turned: &Turned) -> bool {
    matches!(event, Event::Sample(_)) && turned.outcome == 0 && turned.sampled[..2] == [0, 0]
}

/// The mean's sign, as it is told and as the value has it.
fn turn_sign(event: &Event, unit: &mut Unit, turned: &mut Turned) {
    if let Event::Sample(number) = event {
        turned.sampled[5] ^= 0x80;
        unit.memory.chars[header::AT_RESULTS + 4 * usize::from(*number) + 3] ^= 0x80;
    }
}

/// The second that a Set Time sent.
fn set_second(event: &Event) -> u8 {
    match event {
        Event::Stretch { bytes, .. } => bytes[10] / 16 * 10 + bytes[10] % 16,
        _ => 0,
    }
}
