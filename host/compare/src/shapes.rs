//! Random parts of a kept state that are in range, with the limits of each often.

use crate::board::header::{self, FILES, INPUTS};
use crate::board::{Equipment, BLOCK};
use crate::event::Hold;
use crate::means;
use crate::rng::Rng;
use independent::history::record_size;
use independent::{Clock, HistoryReply, Select, State, Write};

/// Three masters share a run, so that a frame is often the holder's own and often another's.
pub fn master(rng: &mut Rng, unit: u16) -> u8 {
    let base = (unit % 29) as u8;
    rng.pick(&[base, base + 1, 31 - base / 2])
}

/// A whole state for this configuration.
pub fn state(rng: &mut Rng, e: &Equipment) -> State {
    let mut made = State::fresh();
    made.clock = clock(rng);
    (made.bit7, made.bit3, made.bit2) = (rng.flip(), rng.flip(), rng.flip());
    match hold(rng, e) {
        Hold::Free => {}
        Hold::Held(select) => made.select = Some(select),
        Hold::TimedOut(master) => made.timed_out = Some(master),
    }
    made.write = write(rng, e);
    made.words = std::array::from_fn(|_| rng.word());
    made.values = std::array::from_fn(|_| rng.long());
    rng.fill(&mut made.fixed.block_00);
    rng.fill(&mut made.fixed.block_0b);
    made.fixed.block_03 = tables(rng, e);
    let full = rng.percent(4);
    for file in (0..FILES).filter(|&f| e.files[f] != 0) {
        let many = if full {
            header::ROOM
        } else {
            many_records(rng, e)
        };
        made.files[file] = records(rng, e.values[file], many);
    }
    made.dropped = std::array::from_fn(|_| dropped(rng));
    made.changed = std::array::from_fn(|_| changed(rng));
    for mean in e.means.iter().filter(|p| p.used()) {
        let word = made.words[usize::from(mean.analog)];
        let samples = means::samples(rng, mean.window, word);
        made.samples[usize::from(mean.calculation)] = samples;
    }
    made.history = memory(rng, e, &made);
    (made.silence, made.mark) = port(rng);
    made
}

pub fn clock(rng: &mut Rng) -> Clock {
    let last = rng.percent(20);
    let mut any = |low, high| if last { high } else { rng.between(low, high) };
    Clock {
        day: any(1, 366) as u16,
        hour: any(0, 23) as u8,
        minute: any(0, 59) as u8,
        second: any(0, 59) as u8,
        ms: any(0, 999) as u16,
    }
}

fn age(rng: &mut Rng) -> u32 {
    let hold = header::HOLD_MS as u32;
    let any = rng.below(header::HOLD_MS + 1) as u32;
    rng.pick(&[0, hold - 1, hold, any])
}

pub fn hold(rng: &mut Rng, e: &Equipment) -> Hold {
    let master = master(rng, e.unit);
    let start = rng.below(INPUTS);
    let output = (0..INPUTS)
        .map(|i| (start + i) % INPUTS)
        .find(|&n| e.outputs[n] != 0);
    match (rng.below(10), output) {
        (0..5, Some(output)) => {
            let (output, close, age) = (output as u8, rng.flip(), age(rng));
            Hold::Held(Select {
                master,
                output,
                close,
                age,
            })
        }
        (5..8, _) => Hold::TimedOut(master),
        _ => Hold::Free,
    }
}

/// The length of a block, if the ordinal has one; what is configured may be any number.
pub fn block_length(ordinal: u8, e: &Equipment) -> Option<usize> {
    match usize::from(ordinal) {
        header::ORDINAL_00 => Some(header::LENGTH_00),
        header::ORDINAL_03 => Some(header::LENGTH_03),
        header::ORDINAL_0B => Some(header::LENGTH_0B),
        header::ORDINAL_06 => Some(usize::from(e.length).min(BLOCK)),
        _ => None,
    }
}

/// A place in a block, so that so many characters often just fit, or just do not.
pub fn place(rng: &mut Rng, e: &Equipment, count: usize) -> (u16, u8) {
    let any = rng.byte();
    let ordinal = rng.pick(&[0x00, 0x03, 0x03, 0x06, 0x06, 0x0B, 0x02, 0x05, any]);
    let length = block_length(ordinal, e).unwrap_or(16);
    let bias = match rng.below(8) {
        0..3 => length.saturating_sub(count),
        3 => (length + 1).saturating_sub(count),
        4 => rng.pick(&[length, length + 1, 0xFFFF, 0x100]),
        _ => rng.below(length + 1),
    };
    (bias as u16, ordinal)
}

pub fn write(rng: &mut Rng, e: &Equipment) -> Option<Write> {
    if rng.percent(30) {
        return None;
    }
    let count = rng.pick(&[1, 2, 5, 16, 128]);
    let (bias, ordinal) = place(rng, e, count);
    Some(Write {
        master: master(rng, e.unit),
        bias,
        ordinal,
        age: age(rng),
    })
}

pub fn port(rng: &mut Rng) -> (u32, u8) {
    let silent = header::SILENT_MS as u32;
    let any = rng.below(header::SILENT_MS + 1) as u32;
    (rng.pick(&[0, silent - 1, silent, any]), rng.below(3) as u8)
}

/// As many records as a dump carries, one more, none, all, or any number.
pub fn many_records(rng: &mut Rng, e: &Equipment) -> usize {
    let few = e.files.iter().filter(|&&f| f != 0).count() > 8;
    let (room, any) = (header::ROOM, rng.below(header::ROOM + 1));
    let many = rng.pick(&[0, 1, 2, 13, 14, 15, 16, 17, 18, room - 1, room, any]);
    if few {
        many % 4
    } else {
        many
    }
}

/// How many records a file dropped: often all that can be told, or one less.
fn dropped(rng: &mut Rng) -> u16 {
    let (most, any) = (header::DROPPED as u16, rng.word());
    rng.pick(&[0, 1, 255, most - 1, most, most, any])
}

/// The contacts of a group that have changed: often none, so that scans with nothing to clear are met too.
pub fn changed(rng: &mut Rng) -> u8 {
    let any = rng.byte();
    rng.pick(&[0, 0, 1, 0xFF, any])
}

/// Records no longer than their places, even where the configuration asks for more values than it may.
pub fn records(rng: &mut Rng, values: u8, many: usize) -> Vec<Vec<u8>> {
    let size = record_size(values.min(header::VALUES as u8));
    (0..many).map(|_| rng.bytes(size)).collect()
}

/// A reply that an equipped file could have given when it held no more than now.
pub fn memory(rng: &mut Rng, e: &Equipment, state: &State) -> Option<HistoryReply> {
    let start = rng.below(FILES);
    let equipped = |f: &usize| e.files[*f] != 0;
    let file = (0..FILES).map(|i| (start + i) % FILES).find(equipped)?;
    if rng.percent(15) {
        return None;
    }
    let dump = rng.flip();
    let most = if dump {
        510 / record_size(e.values[file])
    } else {
        1
    };
    let now = state.files[file].len();
    let then = if rng.flip() { now } else { rng.below(now + 1) };
    let quantity = then.min(most);
    Some(HistoryReply {
        master: master(rng, e.unit),
        file: file as u8,
        dump,
        quantity: quantity as u8,
        more: then > quantity,
    })
}

/// A table area: a run of tables, one that just ends at the area's end or passes it, or anything.
pub fn tables(rng: &mut Rng, e: &Equipment) -> [u8; 256] {
    let mut area = [0; 256];
    if rng.percent(15) {
        rng.fill(&mut area);
        return area;
    }
    let inputs: Vec<u8> = (0..=255)
        .filter(|&n| e.inputs[usize::from(n)] != 0)
        .collect();
    let stray = rng.percent(25);
    let mut at = 0;
    while at + 2 <= 256 && rng.percent(93) {
        let left = 254 - at;
        let any = rng.below(20);
        let quantity = rng
            .pick(&[0, 1, 3, any, any, 60, 84, 85, 86, 127, left, left + 1])
            .min(255);
        area[at] = nibbles(rng);
        area[at + 1] = quantity as u8;
        for place in area[at + 2..].iter_mut().take(quantity) {
            let number = rng.byte();
            *place = if stray && rng.percent(2) {
                number
            } else {
                rng.pick_any(&inputs).unwrap_or(number)
            };
        }
        at += 2 + quantity;
    }
    area
}

/// The low tables are named most, as they are the ones that stand.
fn nibbles(rng: &mut Rng) -> u8 {
    let any = rng.byte();
    rng.pick(&[0x00, 0x11, 0x10, 0x01, 0x12, 0x22, 0x21, any])
}
