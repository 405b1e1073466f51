//! Kept states with one number out of range: 17 to every event.

use crate::board::{header, Lent, BLOCK};
use crate::event::{Change, Hold};
use crate::means::{self, place_of};
use crate::pair::Pair;
use crate::rng::Rng;
use crate::shapes;
use independent::history::record_size;
use independent::{Clock, HistoryReply, Select, Write};

/// For how long a select or a write is held.
const HOLD: u32 = header::HOLD_MS as u32;

type Bend = fn(&mut Rng, &Pair) -> Option<Change>;

/// Each field with what puts it out of range; none where the configuration leaves no room for it.
pub const BENDS: [(&str, Bend); 25] = [
    ("day", |rng, p| {
        clock(p, |c| c.day = rng.pick(&[0, 367, 65_535]))
    }),
    ("hour", |rng, p| clock(p, |c| c.hour = rng.pick(&[24, 255]))),
    ("minute", |rng, p| {
        clock(p, |c| c.minute = rng.pick(&[60, 255]))
    }),
    ("second", |rng, p| {
        clock(p, |c| c.second = rng.pick(&[60, 255]))
    }),
    ("ms", |rng, p| {
        clock(p, |c| c.ms = rng.pick(&[1000, 65_535]))
    }),
    ("select's master", |rng, p| {
        select(rng, p, |rng, s| s.master = no_master(rng))
    }),
    ("select's output", |rng, p| {
        let missing: Vec<u8> = (0..=255)
            .filter(|&n| p.equipment.outputs[usize::from(n)] == 0)
            .collect();
        let output = rng.pick_any(&missing)?;
        Some(Change::Hold(Hold::Held(Select {
            master: 1,
            output,
            close: rng.flip(),
            age: 0,
        })))
    }),
    ("select's age", |rng, p| {
        select(rng, p, |rng, s| s.age = rng.pick(&[HOLD + 1, 65_535]))
    }),
    ("timed-out master", |rng, _| {
        Some(Change::Hold(Hold::TimedOut(no_master(rng))))
    }),
    ("write's master", |rng, p| {
        write(rng, p, |rng, w| w.master = no_master(rng))
    }),
    ("write's age", |rng, p| {
        write(rng, p, |rng, w| w.age = rng.pick(&[HOLD + 1, 65_535]))
    }),
    ("reply's master", |rng, p| {
        reply(rng, p, |rng, _, h| h.master = no_master(rng))
    }),
    ("reply's file", |rng, p| {
        let missing: Vec<u8> = (0..=255)
            .filter(|&f| p.config.file_values(f).is_none())
            .collect();
        reply_of(rng.pick_any(&missing)?, false, 0, false)
    }),
    ("reply's quantity", |rng, p| {
        reply(rng, p, |rng, p, h| {
            h.quantity = p.unit.memory.count(h.file.into()) + 1 + rng.byte() % 200
        })
    }),
    ("reply's flag", |rng, p| {
        reply(rng, p, |_, p, h| {
            (h.quantity, h.more) = (p.unit.memory.count(h.file.into()), true)
        })
    }),
    ("dump's quantity", |rng, p| reply(rng, p, short_dump)),
    ("single's quantity", |rng, p| {
        reply(rng, p, |rng, _, h| {
            (h.dump, h.quantity) = (false, rng.pick(&[2, 3, 255]))
        })
    }),
    ("silence", |rng, p| {
        Some(Change::Port {
            silence: rng.pick(&[header::SILENT_MS as u16 + 1, 65_535]),
            mark: p.state.mark,
        })
    }),
    ("mark", |rng, p| {
        Some(Change::Port {
            silence: p.unit.memory.kept(header::SILENCE),
            mark: rng.pick(&[3, 4, 128, 255]),
        })
    }),
    ("records of a file", |rng, p| {
        let file = file(rng, p, true)?;
        let many = rng.pick(&[header::ROOM + 1, header::ROOM + 2, 64, 255]);
        Some(Change::Records(
            file,
            shapes::records(rng, p.equipment.values[file], many),
        ))
    }),
    ("records of no file", |rng, p| {
        let (file, many) = (
            file(rng, p, false)?,
            rng.pick(&[1, 2, header::ROOM, header::ROOM + 1]),
        );
        Some(Change::Records(file, shapes::records(rng, 1, many)))
    }),
    ("samples of a mean", |rng, p| {
        let mean = means::any(rng, &p.equipment)?;
        let many = mean.window.saturating_add(rng.pick(&[1, 2, 256]));
        Some(Change::Samples(mean.calculation, vec![7; many.into()]))
    }),
    ("samples of no mean", |rng, p| {
        let unused = p.equipment.means.iter().any(|m| !m.used());
        let (number, many) = (rng.byte() % 128, rng.pick(&[1, 2, 256]));
        let change = Change::Samples(number, vec![7; many]);
        Some(change).filter(|_| unused && place_of(p, number).is_none())
    }),
    ("block's length", |rng, p| {
        let length = p.lent.block;
        let (less, more) = (length.saturating_sub(1), (length + 1).min(BLOCK));
        let block = rng.pick(&[0, less, more, header::BLOCK, BLOCK]);
        let lent = Lent { block, ..p.lent };
        Some(Change::Lent(lent)).filter(|_| length == usize::from(p.equipment.length))
    }),
    ("room of the records", |rng, p| {
        let less = p.places.room.checked_sub(1)?;
        let any = rng.below(p.places.room);
        let records = rng.pick(&[0, 1, any, less, less]);
        Some(Change::Lent(Lent { records, ..p.lent }))
    }),
];

fn no_master(rng: &mut Rng) -> u8 {
    rng.pick(&[32, 33, 64, 255])
}

fn clock(pair: &Pair, bend: impl FnOnce(&mut Clock)) -> Option<Change> {
    let mut clock = pair.state.clock;
    bend(&mut clock);
    Some(Change::Clock(clock))
}

fn select(rng: &mut Rng, pair: &Pair, bend: fn(&mut Rng, &mut Select)) -> Option<Change> {
    let equipped: Vec<u8> = (0..=255)
        .filter(|&n| pair.equipment.outputs[usize::from(n)] != 0)
        .collect();
    let output = rng.pick_any(&equipped)?;
    let mut select = Select {
        master: 1,
        output,
        close: rng.flip(),
        age: 0,
    };
    bend(rng, &mut select);
    Some(Change::Hold(Hold::Held(select)))
}

fn write(rng: &mut Rng, pair: &Pair, bend: fn(&mut Rng, &mut Write)) -> Option<Change> {
    let (bias, ordinal) = shapes::place(rng, &pair.equipment, 1);
    let mut write = Write {
        master: 1,
        bias,
        ordinal,
        age: 0,
    };
    bend(rng, &mut write);
    Some(Change::Write(Some(write)))
}

fn reply(
    rng: &mut Rng,
    pair: &Pair,
    bend: fn(&mut Rng, &Pair, &mut HistoryReply),
) -> Option<Change> {
    let mut reply = shapes::memory(rng, &pair.equipment, &pair.state)?;
    bend(rng, pair, &mut reply);
    Some(Change::Memory(Some(reply)))
}

fn reply_of(file: u8, dump: bool, quantity: u8, more: bool) -> Option<Change> {
    Some(Change::Memory(Some(HistoryReply {
        master: 1,
        file,
        dump,
        quantity,
        more,
    })))
}

/// A dump that said that more were held, and did not carry as many as fit; in an empty file, one of too many.
fn short_dump(rng: &mut Rng, pair: &Pair, reply: &mut HistoryReply) {
    let most = 510 / record_size(pair.equipment.values[usize::from(reply.file)]);
    let held = usize::from(pair.unit.memory.count(reply.file.into()));
    let quantity = rng.below(most.min(held) + 1) as u8;
    reply.dump = true;
    (reply.quantity, reply.more) = if rng.flip() {
        (quantity, true)
    } else {
        (most as u8 + 1, false)
    };
}

fn file(rng: &mut Rng, pair: &Pair, equipped: bool) -> Option<usize> {
    let files: Vec<usize> = (0..header::FILES)
        .filter(|&f| (pair.equipment.files[f] != 0) == equipped)
        .collect();
    rng.pick_any(&files)
}
