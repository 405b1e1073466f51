//! Calls of one function: whole and damaged, with right and wrong data, about the state as it stands.

use crate::aims::Aim;
use crate::board::header::{self, FILES, GROUPS, HOLD_MS, LAG_MS, REPLY, SILENT_MS};
use crate::both;
use crate::event::Event;
use crate::frames::{damaged, Draft};
use crate::pair::{Pair, BUFFER};
use crate::rng::Rng;
use crate::shapes;
use independent::Config;

/// The address that speaks to every unit.
const BROADCAST: u16 = 0x7FF;

/// One call of the function.
pub fn call(rng: &mut Rng, pair: &Pair, aim: Aim) -> Event {
    let c = &pair.config;
    match aim {
        Aim::Elapsed => Event::Elapsed(elapsed(rng, pair)),
        Aim::SetWord => Event::Word(number(rng, &c.inputs), rng.word()),
        Aim::Contact => contact(rng, c),
        Aim::SetValue => Event::Value(number(rng, &c.calculations), rng.long()),
        Aim::Sample => Event::Sample(mean(rng, c)),
        Aim::Pulses => Event::Pulses(accumulator(rng, c), count(rng)),
        Aim::Store => store(rng, c),
        Aim::Both => {
            let (write, execute) = pair_of(rng, pair);
            let lag = lag(rng, aim);
            both::sent(rng, write, execute, lag)
        }
        _ => {
            let draft = draft(rng, pair, aim);
            let lag = lag(rng, aim);
            sent(rng, draft, lag)
        }
    }
}

/// Mostly an equipped number, else any.
fn number(rng: &mut Rng, equipped: &[bool; 256]) -> u8 {
    let start = rng.byte();
    if rng.percent(15) {
        return start;
    }
    (0..=255)
        .map(|i| start.wrapping_add(i))
        .find(|&n| equipped[usize::from(n)])
        .unwrap_or(start)
}

/// Mostly a mean.
fn mean(rng: &mut Rng, c: &Config) -> u8 {
    let means: Vec<u8> = c.means.iter().map(|m| m.calculation.0).collect();
    match rng.pick_any(&means) {
        Some(n) if rng.percent(90) => n,
        _ => number(rng, &c.calculations),
    }
}

/// Mostly an equipped accumulator.
fn accumulator(rng: &mut Rng, c: &Config) -> u8 {
    let start = rng.below(32) as u8;
    let found = (0..32)
        .map(|i| 0x40 + (start + i) % 32)
        .find(|&n| c.inputs[usize::from(n)]);
    match found {
        Some(n) if rng.percent(85) => n,
        _ => number(rng, &c.inputs),
    }
}

/// Mostly a contact of an equipped group, often one of the first of it, so that the same one changes again.
fn contact(rng: &mut Rng, c: &Config) -> Event {
    let start = rng.below(GROUPS) as u8;
    let found = (0..GROUPS as u8)
        .map(|i| (start + i) % GROUPS as u8)
        .find(|&g| c.inputs[usize::from(g)]);
    let any = rng.below(8) as u8;
    let number = match found {
        Some(group) if rng.percent(90) => 8 * group + rng.pick(&[0, 0, 1, 7, any]),
        _ => rng.byte(),
    };
    let state = if rng.percent(4) {
        rng.pick(&[2, 3, 255])
    } else {
        rng.below(2) as u8
    };
    Event::Contact(number, state)
}

fn count(rng: &mut Rng) -> u16 {
    let any = rng.word();
    rng.pick(&[0, 1, 65_535, any, any])
}

fn file(rng: &mut Rng, c: &Config) -> u8 {
    let start = rng.below(FILES);
    let found = (0..FILES)
        .map(|i| (start + i) % FILES)
        .find(|&f| c.files[f].is_some());
    match found {
        Some(f) if rng.percent(90) => f as u8,
        _ => start as u8,
    }
}

fn store(rng: &mut Rng, c: &Config) -> Event {
    let file = if rng.percent(3) {
        rng.pick(&[32, 33, 64, 255])
    } else {
        file(rng, c)
    };
    let right = usize::from(c.file_values(file).unwrap_or(1));
    let many = match rng.below(12) {
        0 => rng.pick(&[0, 16, 17, 40, right.saturating_sub(1), right + 1]),
        _ => right,
    };
    let values = (0..many).map(|_| rng.word()).collect();
    Event::Store {
        file,
        event: rng.byte(),
        values,
    }
}

/// Just to, just before and just past each limit of time, or any time.
fn elapsed(rng: &mut Rng, pair: &Pair) -> u32 {
    let (hold, silent) = (HOLD_MS as u32, SILENT_MS as u32);
    let kept = |which| u32::from(pair.unit.memory.kept(which));
    let seconds = (kept(header::HOUR) * 60 + kept(header::MINUTE)) * 60 + kept(header::SECOND);
    let of_day = seconds * 1000 + kept(header::MS);
    let limit = match rng.below(9) {
        0 => hold.saturating_sub(kept(header::SELECT_AGE)),
        1 => hold.saturating_sub(kept(header::WRITE_AGE)),
        2 => silent.saturating_sub(kept(header::SILENCE)),
        3 => 86_400_000_u32.saturating_sub(of_day),
        4 => rng.pick(&[0, hold, silent, 86_400_000, u32::MAX]),
        5 => return rng.long(),
        _ => return rng.below(3000) as u32,
    };
    rng.pick(&[limit.saturating_sub(1), limit, limit.saturating_add(1)])
}

/// A frame of the function as a master would send it.
fn draft(rng: &mut Rng, pair: &Pair, aim: Aim) -> Draft {
    let c = &pair.config;
    let low = rng.pick(&[1, 1, 2, 3, 4, 15]);
    let (function, command, data) = match aim {
        Aim::Inputs => (0x00, rng.byte() & 0x4D, vec![]),
        Aim::Tables => (0x0A, 0x40 + rng.between(1, low) as u8, vec![]),
        Aim::AllValues => (0x03, 0x80, vec![]),
        Aim::AskedValues => (0x03, 0x00, asked(rng, c)),
        Aim::Control => control(rng, c),
        Aim::Initialise => (0x20, 0x00, vec![]),
        Aim::ResetCount => (0x20, 0x11, vec![accumulator(rng, c)]),
        Aim::Write => (0x20, 0x30, place(rng, pair, 5)),
        Aim::Execute => (0x20, 0x31, executed(rng, pair)),
        Aim::SetTime => (0x20, 0x38, time(rng)),
        Aim::Read => (0x28, 0x30, read(rng, pair)),
        Aim::ReadTime => (0x28, 0x31, vec![]),
        _ => (0x04, history(rng, pair), vec![]),
    };
    Draft {
        master: master(rng, pair, aim),
        unit: c.unit,
        function,
        command,
        data,
    }
}

/// A WRITE, and an EXECUTE for the place that it names.
fn pair_of(rng: &mut Rng, pair: &Pair) -> (Draft, Draft) {
    let any = rng.between(1, 128);
    let many = rng.pick(&[1, 2, any, any, 118, 128]);
    let write = Draft {
        master: master(rng, pair, Aim::Both),
        unit: pair.config.unit,
        function: 0x20,
        command: 0x30,
        data: place(rng, pair, many),
    };
    let execute = Draft {
        command: 0x31,
        data: rng.bytes(many),
        ..write.clone()
    };
    (write, execute)
}

/// Half the time the master whose select, write or history reply the function is about.
fn master(rng: &mut Rng, pair: &Pair, aim: Aim) -> u8 {
    let s = &pair.state;
    let concerned = match aim {
        Aim::Control => s.select.map(|x| x.master).or(s.timed_out),
        Aim::Write | Aim::Execute => s.write.map(|x| x.master),
        Aim::Both => (s.write.map(|x| x.master)).or(s.select.map(|x| x.master)),
        Aim::History => s.history.map(|x| x.master),
        _ => None,
    };
    match concerned {
        Some(master) if rng.flip() => master & 31,
        _ if rng.percent(2) => rng.below(32) as u8,
        _ => shapes::master(rng, pair.config.unit),
    }
}

/// Numbers of calculations: often just as many as fit, seldom some that are not equipped.
fn asked(rng: &mut Rng, c: &Config) -> Vec<u8> {
    let any = rng.between(1, 128);
    let many = rng.pick(&[1, 2, 3, 10, any, 101, 102, 103, 128]);
    let stray = rng.percent(15);
    let equipped: Vec<u8> = (0..128)
        .filter(|&n| c.calculations[usize::from(n)])
        .collect();
    let mut one = || match rng.pick_any(&equipped) {
        Some(n) if !(stray && rng.percent(30)) => n,
        _ => rng.byte(),
    };
    (0..many).map(|_| one()).collect()
}

fn control(rng: &mut Rng, c: &Config) -> (u8, u8, Vec<u8>) {
    match rng.below(8) {
        0..2 => (0x10, 0x10, vec![number(rng, &c.outputs)]),
        2..4 => (0x10, 0x11, vec![number(rng, &c.outputs)]),
        4..7 => (0x10, 0x20, vec![]),
        _ => (0x10, 0x21, vec![]),
    }
}

/// Bias and ordinal.
fn place(rng: &mut Rng, pair: &Pair, count: usize) -> Vec<u8> {
    let (bias, ordinal) = shapes::place(rng, &pair.equipment, count);
    let [low, high] = bias.to_le_bytes();
    vec![low, high, ordinal]
}

/// Characters for the write that waits: often up to its block's end, or one further.
fn executed(rng: &mut Rng, pair: &Pair) -> Vec<u8> {
    let any = rng.between(1, 128);
    let waits = pair.state.write.and_then(|w| {
        let length = shapes::block_length(w.ordinal, &pair.equipment)?;
        length.checked_sub(w.bias.into())
    });
    let left = waits.unwrap_or(any);
    let many = rng.pick(&[1, 2, any, left, left + 1, 128]).clamp(1, 128);
    rng.bytes(many)
}

/// What the driver measured: for a Set Time mostly what it is taken with, and the limit from both sides; for any other stretch anything.
fn lag(rng: &mut Rng, aim: Aim) -> u32 {
    let (most, any) = (LAG_MS as u32, rng.long());
    let within = rng.below(LAG_MS + 1) as u32;
    match aim {
        Aim::SetTime => rng.pick(&[0, 1, within, within, within, most, most + 1, u32::MAX, any]),
        _ => rng.pick(&[0, 0, within, most + 1, any]),
    }
}

/// A valid time, often at the end of an hour, and often with one character changed.
fn time(rng: &mut Rng) -> Vec<u8> {
    let mut clock = shapes::clock(rng);
    if rng.percent(20) {
        (clock.minute, clock.second) = (59, 59);
    }
    let mut made = clock.characters();
    if rng.percent(40) {
        let i = rng.below(7);
        let any = rng.byte();
        made[i] = rng.pick(&[
            any,
            made[i] ^ 0x80,
            made[i].wrapping_add(1),
            0x24,
            0x60,
            0x67,
            0x0A,
            0x00,
        ]);
    }
    made.to_vec()
}

fn read(rng: &mut Rng, pair: &Pair) -> Vec<u8> {
    let any = rng.byte();
    let quantity = rng.pick(&[0, 1, 16, 254, 255, any, any]);
    let mut data = place(rng, pair, quantity.into());
    data.push(quantity);
    data
}

/// A command of function 04: often about the file and the kind of the latest reply.
fn history(rng: &mut Rng, pair: &Pair) -> u8 {
    let kind = rng.byte() & 0x60;
    match pair.state.history {
        Some(h) if rng.percent(40) => kind & 0x40 | u8::from(h.dump) << 5 | h.file & 0x1F,
        _ => kind | file(rng, &pair.config),
    }
}

/// What the line makes of a frame: most come whole, some to others, some wrong in one thing.
fn sent(rng: &mut Rng, mut draft: Draft, lag: u32) -> Event {
    let mut room = rng.between(REPLY, BUFFER);
    match rng.below(100) {
        0..3 => draft.unit ^= 1 << rng.below(11),
        3..7 => draft.unit = BROADCAST,
        7..9 => draft.function |= rng.pick(&[0x40, 0x80, 0xC0]),
        9 => draft.function = rng.byte(),
        10..12 => draft.command = rng.byte(),
        12..16 => draft.data = recounted(rng, &draft.data),
        16..20 => {
            return Event::Stretch {
                bytes: damaged(rng, &draft),
                room,
                lag,
            }
        }
        20..22 => room = rng.pick(&[0, 1, REPLY - 1, room - REPLY]),
        22 => room = rng.below(REPLY),
        _ => {}
    }
    Event::Stretch {
        bytes: draft.bytes(),
        room,
        lag,
    }
}

/// Data of another length.
fn recounted(rng: &mut Rng, data: &[u8]) -> Vec<u8> {
    let any = rng.below(129);
    let many = rng.pick(&[
        0,
        data.len().saturating_sub(1),
        (data.len() + 1).min(128),
        any,
        128,
    ]);
    let mut made = rng.bytes(many);
    let same = many.min(data.len());
    made[..same].copy_from_slice(&data[..same]);
    made
}
