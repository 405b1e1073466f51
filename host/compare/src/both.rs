//! WRITE and EXECUTE in one stretch: as a master sends them, what the line makes of the two, and what is known of such a stretch.

use crate::board::header::{FRAME, REPLY, STRETCH};
use crate::event::Event;
use crate::frames::{burst, Draft};
use crate::pair::BUFFER;
use crate::rng::Rng;
use independent::check_word;

/// The characters of a WRITE.
const WRITE: usize = STRETCH - FRAME;

/// The two as one stretch: most come whole, some to others, some wrong in one thing.
pub fn sent(rng: &mut Rng, mut write: Draft, mut execute: Draft, lag: u32) -> Event {
    let mut room = rng.between(REPLY, BUFFER);
    match rng.below(100) {
        0..3 => write.unit ^= 1 << rng.below(11),
        3..7 => write.unit = 0x7FF,
        7..9 => write.data.truncate(rng.below(3)),
        9 => write.command = rng.byte(),
        10 => execute.command = rng.byte(),
        11..14 => execute.data.clear(),
        14..17 => execute.data = rng.bytes(FRAME - 7),
        17..20 => room = rng.pick(&[0, 1, REPLY - 1, room - REPLY]),
        _ => {}
    }
    execute.unit = write.unit;
    match rng.below(100) {
        0..4 => execute.master ^= 1 << rng.below(5),
        4..6 => execute.unit ^= 1 << rng.below(11),
        _ => {}
    }
    let bytes = line(rng, &write.bytes(), &execute.bytes());
    Event::Stretch { bytes, room, lag }
}

/// What the line makes of the two.
fn line(rng: &mut Rng, write: &[u8], execute: &[u8]) -> Vec<u8> {
    let mut bytes = [write, execute].concat();
    let seam = write.len();
    match rng.below(60) {
        0..4 => bytes.truncate(seam),
        4..6 => bytes.truncate(rng.below(bytes.len())),
        6..9 => burst(rng, &mut bytes[..seam]),
        9..12 => burst(rng, &mut bytes[seam..]),
        12..15 => burst(rng, &mut bytes[seam - 2..seam + 2]),
        15..17 => bytes = [execute, write].concat(),
        17 => bytes.extend_from_slice(execute),
        18 => bytes.extend(rng.bytes(1 + seam % 3)),
        19..22 => span(&mut bytes),
        _ => {}
    }
    bytes
}

/// Has the count of the first frame tell the length of the whole stretch.
fn span(bytes: &mut [u8]) {
    let count = (bytes.len() as u16).wrapping_sub(8);
    bytes[4..6].copy_from_slice(&count.to_le_bytes());
}

/// Whether the characters are a whole frame of this command of function 20h, with the right check.
fn right(bytes: &[u8], command: u8) -> bool {
    let Some((before, check)) = bytes.split_last_chunk::<2>() else {
        return false;
    };
    before.len() >= 6
        && bytes[2..4] == [0x20, command]
        && usize::from(u16::from_le_bytes([bytes[4], bytes[5]])) == before.len() - 6
        && check_word(before).to_le_bytes() == *check
}

/// A stretch that has a WRITE and an EXECUTE, as far as its length and its commands tell: whether the one and the other is right.
pub fn halves(bytes: &[u8]) -> Option<(bool, bool)> {
    let (write, execute) = bytes.split_at_checked(WRITE)?;
    let two = (8..=FRAME).contains(&execute.len()) && write[3] == 0x30 && execute[3] == 0x31;
    two.then(|| (right(write, 0x30), right(execute, 0x31)))
}

/// Whether the stretch is a pair.
pub fn is_pair(bytes: &[u8]) -> bool {
    halves(bytes) == Some((true, true)) && bytes[..2] == bytes[WRITE..WRITE + 2]
}
