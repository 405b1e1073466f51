//! The independent master as the characters of the proved one's memory, and the characters that no master writes.

use super::raw::{header, Memory};
use crate::rng::Rng;
use independent::master::{Master, Request};

/// Where each part stands, one behind the other.
const ADDRESS: usize = 0;
pub const RETRY: usize = ADDRESS + 2;
pub const FREE: usize = RETRY + 1;
pub const LATEST: usize = header::POLL_AT_LATEST;
pub const WAITING: usize = header::POLL_AT_WAITING;
const FUNCTION: usize = header::POLL_AT_FUNCTION;
const ALL: usize = header::POLL_AT_COMMAND + 1;
const COUNT: usize = ALL + 1;
const BODY: usize = COUNT + 1;
pub const KEPT: usize = BODY + header::POLL_FRAME - 8;
const FILE: usize = KEPT + 1;
pub const LENGTH: usize = FILE + 1;
pub const DATA: usize = LENGTH + 2;

/// A memory in range, with this character where any may stand.
pub fn filled(fill: u8) -> Memory {
    let mut made = [0; header::POLL_MEMORY];
    for part in [FUNCTION..ALL, BODY..KEPT, DATA..header::POLL_MEMORY] {
        made[part].fill(fill);
    }
    made
}

/// The address word of a master and the unit that it polls.
pub fn address(m: &Master) -> u16 {
    u16::from(m.master) << 11 | m.unit
}

/// A file and a kind as one character.
fn file_and_kind(file: u8, dump: bool) -> u8 {
    file + 32 * u8::from(dump)
}

/// Lays over a memory what a master keeps; characters that mean nothing then stay as they were.
pub fn lay(m: &Master, memory: &mut Memory) {
    let mut put = |at: usize, part: &[u8]| memory[at..at + part.len()].copy_from_slice(part);
    put(ADDRESS, &address(m).to_le_bytes());
    put(RETRY, &[u8::from(m.retry)]);
    put(FREE, &[u8::from(m.latest.is_some() && !m.may_acknowledge)]);
    if let Some(latest) = m.latest {
        let asked = file_and_kind(latest.file, latest.dump);
        put(LATEST, &[asked + 64 * u8::from(latest.acknowledge)]);
    }
    match &m.outstanding {
        None => put(WAITING, &[0]),
        Some(Request::History { .. }) => put(WAITING, &[1]),
        Some(other) => {
            let (function, command, body) = other.parts();
            let (all, count) = (u8::from(other.broadcast()), body.len() as u8);
            put(WAITING, &[2, function, command, all, count]);
            put(BODY, &body);
        }
    }
    put(KEPT, &[u8::from(m.last_kept.is_some())]);
    if let Some(kept) = &m.last_kept {
        put(FILE, &[file_and_kind(kept.file, kept.dump)]);
        put(LENGTH, &(kept.data.len() as u16).to_le_bytes());
        put(DATA, &kept.data);
    }
}

/// The first place where two memories differ.
pub fn difference(proved: &Memory, independent: &Memory) -> Option<String> {
    let at = (0..proved.len()).find(|&at| proved[at] != independent[at])?;
    let (is, other) = (proved[at], independent[at]);
    Some(format!("memory at {at}: proved {is}, independent {other}"))
}

type Spoil = fn(&mut Rng) -> (usize, Vec<u8>);

/// Characters that no master writes: where they stand, and what stands there.
pub const SPOILS: [(&str, Spoil); 9] = [
    ("retry mark over 1", |rng| (RETRY, vec![over(rng, 1)])),
    ("free mark over 1", |rng| (FREE, vec![over(rng, 1)])),
    ("latest request over 127", |rng| {
        (LATEST, vec![over(rng, 127)])
    }),
    ("outstanding over 2", |rng| (WAITING, vec![over(rng, 2)])),
    ("to all over 1", |rng| (ALL, vec![over(rng, 1)])),
    ("data asked over 128", |rng| (COUNT, vec![over(rng, 128)])),
    ("kept mark over 1", |rng| (KEPT, vec![over(rng, 1)])),
    ("kept file over 63", |rng| (FILE, vec![over(rng, 63)])),
    ("data kept over 511", |rng| {
        let any = rng.between(512, 65_535) as u16;
        let length = rng.pick(&[512, 513, 0x1000, 0xFFFF, any]);
        (LENGTH, length.to_le_bytes().to_vec())
    }),
];

/// A character over the highest that is written.
fn over(rng: &mut Rng, highest: u8) -> u8 {
    let any = rng.between(usize::from(highest) + 1, 255) as u8;
    rng.pick(&[highest + 1, 255, any])
}
