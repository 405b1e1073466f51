//! Frames of masters, and what becomes of them on the line.

use crate::board::header;
use crate::rng::Rng;
use independent::check_word;

/// A stretch far longer than any line brings.
pub const VERY_LONG: usize = 100_000;

/// A frame before it is sent.
#[derive(Clone)]
pub struct Draft {
    pub master: u8,
    pub unit: u16,
    pub function: u8,
    pub command: u8,
    pub data: Vec<u8>,
}

impl Draft {
    /// The characters with their check.
    pub fn bytes(&self) -> Vec<u8> {
        let address = u16::from(self.master) << 11 | (self.unit & 0x7FF);
        let mut made = Vec::with_capacity(8 + self.data.len());
        made.extend_from_slice(&address.to_le_bytes());
        made.extend_from_slice(&[self.function, self.command]);
        made.extend_from_slice(&(self.data.len() as u16).to_le_bytes());
        made.extend_from_slice(&self.data);
        checked(made)
    }
}

/// Puts the right check behind.
fn checked(mut bytes: Vec<u8>) -> Vec<u8> {
    let check = check_word(&bytes);
    bytes.extend_from_slice(&check.to_le_bytes());
    bytes
}

/// A stretch that is no good frame, or is another than was sent.
pub fn damaged(rng: &mut Rng, draft: &Draft) -> Vec<u8> {
    let mut bytes = draft.bytes();
    let length = bytes.len();
    match rng.below(12) {
        0..4 => burst(rng, &mut bytes),
        4 => bytes.truncate(rng.below(length)),
        5 => drop(bytes.drain(..rng.between(1, length - 1))),
        6 => bytes.extend(rng.bytes(1 + length % 9)),
        7 => bytes.swap(length - 2, length - 1),
        8 => bytes = long(rng, draft),
        9 => bytes = miscounted(rng, bytes),
        10 => bytes.insert(0, 0),
        _ => bytes = noise(rng),
    }
    bytes
}

/// Changes bits within 16 neighbouring ones, the low bit of each character first.
pub fn burst(rng: &mut Rng, bytes: &mut [u8]) {
    let bits = 8 * bytes.len();
    let first = rng.below(bits);
    let mask = rng.word() | 1;
    for i in (0..16).filter(|i| mask >> i & 1 == 1 && first + i < bits) {
        bytes[(first + i) / 8] ^= 1 << ((first + i) % 8);
    }
}

/// A frame with one data character too many, and right in all else.
fn long(rng: &mut Rng, draft: &Draft) -> Vec<u8> {
    let data = rng.bytes(header::FRAME - 7);
    Draft {
        data,
        ..draft.clone()
    }
    .bytes()
}

/// A wrong count under a right check.
fn miscounted(rng: &mut Rng, mut bytes: Vec<u8>) -> Vec<u8> {
    bytes.truncate(bytes.len() - 2);
    let count = rng.pick(&[4, 5]);
    bytes[count] ^= 1 << rng.below(8);
    checked(bytes)
}

/// Anything, or nothing but 0, of a length next to a limit or far beyond all; eight characters of 0 are a frame.
fn noise(rng: &mut Rng) -> Vec<u8> {
    let (frame, stretch, some) = (header::FRAME, header::STRETCH, rng.flip());
    let around = [frame - 1, frame, frame + 1, stretch, stretch + 1];
    let length = match rng.below(10) {
        0..3 => rng.pick(&around),
        3 => rng.pick(&[600, VERY_LONG]),
        _ => rng.pick(&[0, 1, 7, 8, 9]),
    };
    if some {
        rng.bytes(length)
    } else {
        vec![0; length]
    }
}
