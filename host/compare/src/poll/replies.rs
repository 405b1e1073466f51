//! Replies: what some unit could send to a request, what none could, and what the line makes of them.

use super::raw::header::POLL_ROOM;
use crate::frames::burst;
use crate::rng::Rng;
use crate::shapes;
use independent::history::record_size;
use independent::master::Request;
use independent::{check_word, Calculation};

/// The characters of the shortest reply and of the longest.
pub const SHORTEST: usize = 9;
pub const LONGEST: usize = SHORTEST + POLL_ROOM;

/// A reply before it is sent.
#[derive(Clone)]
pub struct Draft {
    /// Address, function, status and port status.
    pub head: [u8; 5],
    pub data: Vec<u8>,
}

impl Draft {
    /// The parts of a reply that came whole.
    fn of(bytes: &[u8]) -> Option<Draft> {
        let head = bytes.first_chunk()?;
        let data = bytes.get(SHORTEST - 2..bytes.len().checked_sub(2)?)?;
        Some(Draft {
            head: *head,
            data: data.to_vec(),
        })
    }

    /// The characters with their count and their check.
    pub fn bytes(&self) -> Vec<u8> {
        let count = (self.data.len() as u16).to_le_bytes();
        checked([&self.head[..], &count, &self.data].concat())
    }
}

/// Puts the right check behind.
fn checked(mut bytes: Vec<u8>) -> Vec<u8> {
    let check = check_word(&bytes).to_le_bytes();
    bytes.extend_from_slice(&check);
    bytes
}

/// A reply with one thing changed: by the line, or under a right check.
pub fn damaged(rng: &mut Rng, bytes: &[u8]) -> Vec<u8> {
    let (mut line, any) = (bytes.to_vec(), rng.byte());
    let Some(mut draft) = Draft::of(bytes) else {
        return noise(rng);
    };
    match rng.below(14) {
        0 => line.truncate(rng.below(bytes.len())),
        1..3 => burst(rng, &mut line),
        3 => line.extend(rng.bytes(1 + usize::from(any % 4))),
        4 => {
            line.truncate(bytes.len() - 2);
            line[rng.pick(&[5, 6])] ^= 1 << (any % 8);
            line = checked(line);
        }
        5 => return noise(rng),
        kind => {
            match kind {
                6 => draft.head[rng.below(2)] ^= 1 << (any % 8),
                7 => toward_all(&mut draft.head),
                8..10 => draft.head[2] ^= rng.pick(&[0x40, 0x80, 0xC0, 0x01, 0x20, 0x28, any]),
                10 => draft.head[3] ^= any,
                _ => change(rng, &mut draft.data),
            }
            line = draft.bytes();
        }
    }
    line
}

/// Gives a head the address of the master's broadcasts.
fn toward_all(head: &mut [u8; 5]) {
    head[0] = 0xFF;
    head[1] |= 0x07;
}

/// Other data: a character changed, some too many or some too few.
fn change(rng: &mut Rng, data: &mut Vec<u8>) {
    let any = rng.byte();
    let at = rng.below(data.len() + 1);
    match rng.below(4) {
        0 if at < data.len() => data[at] = any,
        1 if at < data.len() => data[at] ^= 1 << (any % 8),
        2 => data.truncate(at),
        _ => {
            let many = rng.pick(&[1, 2, 4, 5, usize::from(any)]);
            data.extend(rng.bytes(many));
        }
    }
    data.truncate(POLL_ROOM + 1);
}

/// Anything, or nothing but 0, of a length next to a limit; nine characters of 0 are a reply.
fn noise(rng: &mut Rng) -> Vec<u8> {
    let length = rng.pick(&[0, 1, 8, 9, 9, 10, LONGEST - 1, LONGEST, LONGEST + 1, 5_000]);
    if rng.flip() {
        rng.bytes(length)
    } else {
        vec![0; length]
    }
}

/// A reply to a request, such as a unit could send or one like it.
pub fn made(rng: &mut Rng, address: u16, request: &Request) -> Vec<u8> {
    let function = request.parts().0;
    let (bits, mut data) = match rng.below(10) {
        0..2 => (0x40, refused(rng, request)),
        2 => (0x80, vec![]),
        3 if rng.percent(20) => (0xC0, vec![]),
        _ => (0x00, told(rng, request)),
    };
    if rng.percent(8) {
        change(rng, &mut data);
    }
    let [low, high] = address.to_le_bytes();
    let mut head = [low, high, function + bits, rng.byte(), rng.byte()];
    if request.broadcast() && rng.percent(70) {
        toward_all(&mut head);
    }
    Draft { head, data }.bytes()
}

/// The last history data kept, once more.
pub fn again(address: u16, data: &[u8]) -> Vec<u8> {
    let [low, high] = address.to_le_bytes();
    let (head, data) = ([low, high, 0x04, 0, 0], data.to_vec());
    Draft { head, data }.bytes()
}

/// The data of a normal reply.
fn told(rng: &mut Rng, request: &Request) -> Vec<u8> {
    let any = rng.byte();
    match request {
        Request::Scan { kinds } => {
            let most = 2 * most_words(*kinds);
            let many = rng.pick(&[0, 2, most, most, most + 2, most + 1, 2 * usize::from(any)]);
            rng.bytes(many.min(POLL_ROOM))
        }
        Request::Table(_) => {
            let many = rng.pick(&[0, 2, 2 * usize::from(any), 509, 510, 511]);
            rng.bytes(many)
        }
        Request::AllCalculations => {
            let many = rng.pick(&[0, 4, 4 * usize::from(any % 128), 507, 508, 509, 510]);
            rng.bytes(many)
        }
        Request::Calculations(asked) => values(rng, asked),
        Request::History { dump, .. } => history(rng, *dump),
        Request::Read { quantity, .. } => rng.bytes((*quantity).into()),
        Request::ReadTime => {
            let mut time = shapes::clock(rng).characters();
            if rng.percent(20) {
                time[usize::from(any) % 7] = rng.pick(&[0x0A, 0x24, 0x60, 0x67, 0xFF]);
            }
            time.to_vec()
        }
        Request::Select { output, .. } => vec![output.0],
        Request::ResetCount(number) | Request::BroadcastResetCount(number) => vec![number.0],
        _ => vec![],
    }
}

/// How many inputs there are of the kinds chosen.
fn most_words(kinds: u8) -> usize {
    let of = |bit: u8, many: usize| if kinds & bit != 0 { many } else { 0 };
    of(1, 16) + of(4, 32) + of(8, 128) + of(64, 32)
}

/// Each number with its value; seldom a number with two values.
fn values(rng: &mut Rng, asked: &[Calculation]) -> Vec<u8> {
    let held: [u32; 256] = std::array::from_fn(|_| rng.long());
    let torn = rng.percent(10);
    let mut made = Vec::with_capacity(5 * asked.len());
    for number in asked {
        let value = held[usize::from(number.0)] ^ u32::from(torn && rng.percent(5));
        made.push(number.0);
        made.extend_from_slice(&value.to_le_bytes());
    }
    made.truncate(POLL_ROOM);
    made
}

/// Records of one size, as many as fit or fewer, stamped; seldom too many, of a size that is none, or with a stamp that is none.
fn history(rng: &mut Rng, dump: bool) -> Vec<u8> {
    if rng.percent(12) {
        return rng.pick(&[&[0][..], &[0], &[0], &[0x80], &[]]).to_vec();
    }
    let values = rng.pick(&[1, 2, 4, 5, 12, 13, 16, 16]);
    let size = match rng.below(20) {
        0 => rng.pick(&[5, 6, 7, 9, 39, 40]),
        _ => record_size(values),
    };
    let fit = (POLL_ROOM - 1) / size;
    let any = rng.between(1, fit.min(32));
    let many = match rng.below(10) {
        0..4 if dump => any,
        4..7 if dump => fit.min(32),
        7 if dump => fit,
        8 => rng.pick(&[2, 32, 33]).min(fit),
        _ => 1,
    };
    let flag = if rng.percent(30) { 0x80 } else { 0 };
    let mut made = vec![many as u8 | flag];
    (0..many).for_each(|_| made.extend(record(rng, size)));
    made
}

/// A record of so many characters.
fn record(rng: &mut Rng, size: usize) -> Vec<u8> {
    let mut made = rng.bytes(size);
    let stamp = shapes::clock(rng).stamp();
    let room = size.min(6);
    made[1..room].copy_from_slice(&stamp[..room - 1]);
    if rng.percent(1) {
        made[rng.between(1, 4)] = rng.pick(&[0x0A, 0x24, 0x60, 0xFF]);
    }
    made
}

/// The data of a NOP.
fn refused(rng: &mut Rng, request: &Request) -> Vec<u8> {
    match request {
        Request::Calculations(asked) => missing(rng, asked),
        Request::Read { .. } => request.parts().2,
        _ => vec![],
    }
}

/// Of the numbers asked those that a unit lacks: none, all, or some.
fn missing(rng: &mut Rng, asked: &[Calculation]) -> Vec<u8> {
    let share = rng.pick(&[0, 0, 30, 100]);
    let lacks: [bool; 256] = std::array::from_fn(|n| n > 127 || rng.percent(share));
    let numbers = asked.iter().map(|number| number.0);
    numbers.filter(|&n| lacks[usize::from(n)]).collect()
}
