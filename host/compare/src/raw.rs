//! Memory that the independent unit's types cannot hold: kept numbers that no unit writes, or another layout. 17, and not a character
//! changed.

use crate::aims::AIMS;
use crate::board::header::*;
use crate::board::{layout, Memory, Turned};
use crate::calls::call;
use crate::event::Event;
use crate::pair::{proved, Pair, BUFFER};
use crate::rng::Rng;
use crate::scene::Scene;

/// Kept numbers by what they may hold.
const CHARACTERS: [usize; 3] = [HOUR, MINUTE, SECOND];
const BITS: [usize; 3] = [STATUS_CONFIGURE, STATUS_ERROR, STATUS_BROADCAST];
/// A tag, its highest value, and its part's numbers: characters, bits, and those that stay 0 under each tag.
type Part = (
    usize,
    u16,
    &'static [usize],
    &'static [usize],
    &'static [&'static [usize]],
);
#[rustfmt::skip]
const PARTS: [Part; 4] = [
    (SELECT, 2, &[SELECT_MASTER, SELECT_OUTPUT], &[SELECT_CLOSE],
     &[&[SELECT_MASTER, SELECT_OUTPUT, SELECT_CLOSE, SELECT_AGE], &[], &[SELECT_OUTPUT, SELECT_CLOSE, SELECT_AGE]]),
    (WRITE, 1, &[WRITE_MASTER, WRITE_ORDINAL], &[],
     &[&[WRITE_MASTER, WRITE_BIAS, WRITE_ORDINAL, WRITE_AGE], &[]]),
    (MEMORY, 1, &[MEMORY_MASTER, MEMORY_FILE, MEMORY_QUANTITY], &[MEMORY_DUMP, MEMORY_MORE],
     &[&[MEMORY_MASTER, MEMORY_FILE, MEMORY_DUMP, MEMORY_QUANTITY, MEMORY_MORE], &[]]),
    (MARK, 2, &[], &[], &[&[], &[], &[]]),
];

/// Of so many calls one is of another layout.
const LAYOUT_ONE_IN: usize = 6;

/// Puts one number among the kept ones that no unit writes there.
fn spoil(rng: &mut Rng, kept: &mut [u16; KEPT]) {
    let (tag, highest, characters, bits, unused) = rng.pick(&PARTS);
    let unused = unused[usize::from(kept[tag])];
    let held = kept[tag] == 1;
    let over = rng.pick(&[0x100, 0x200, 0x8000, 0xFF00]);
    match rng.below(6) {
        0 => kept[tag] = highest + rng.pick(&[1, 2, 0x100, 0x8000]),
        1 if held && !characters.is_empty() => kept[rng.pick(characters)] |= over,
        2 if held && !bits.is_empty() => kept[rng.pick(bits)] = rng.pick(&[2, 3, 0x100, 0xFFFF]),
        3 => kept[rng.pick(&CHARACTERS)] |= over,
        4 => kept[rng.pick(&BITS)] = rng.pick(&[2, 3, 0x101, 0xFFFF]),
        _ if !unused.is_empty() => kept[rng.pick(unused)] = rng.pick(&[1, 2, 31, 0x100, 0xFFFF]),
        _ => kept[tag] = highest + 1,
    }
}

/// The number of another layout.
fn other_layout(rng: &mut Rng) -> u16 {
    let (own, any) = (layout(), rng.word());
    let other = rng.pick(&[0, own + 1, own.swap_bytes(), 0xFFFF, any]);
    if other == own {
        !own
    } else {
        other
    }
}

/// The memory spoilt in one thing.
fn spoilt(rng: &mut Rng, memory: &Memory, call: usize) -> Memory {
    let mut made = memory.clone();
    if call.is_multiple_of(LAYOUT_ONE_IN) {
        made.put_layout(other_layout(rng));
    } else {
        let mut kept = memory.all_kept();
        spoil(rng, &mut kept);
        made.put_all_kept(&kept);
    }
    made
}

/// Some calls on one unit, each with a number of its own spoilt.
pub fn run(mut rng: Rng, calls: usize) -> Result<(), String> {
    let pair = Pair::new(&Scene::random(&mut rng), None)?;
    let mut unit = pair.unit.clone();
    for number in 0..calls {
        let aim = rng.pick(&AIMS).0;
        let event = call(&mut rng, &pair, aim);
        unit.memory = spoilt(&mut rng, &pair.unit.memory, number);
        let before = unit.clone();
        let mut buffer = [0xA5; BUFFER];
        let short = matches!(&event, Event::Stretch { room, .. } if *room < REPLY);
        let told = proved(&mut unit, pair.lent, &mut buffer, &event);
        let untouched = *unit == *before && buffer == [0xA5; BUFFER];
        if told != Turned::silent(if short { 18 } else { 17 }) || !untouched {
            let (number, kept) = (before.memory.layout(), before.memory.all_kept());
            return Err(format!(
                "layout {number}, kept {kept:?}, {event}: {told:?}, untouched {untouched}"
            ));
        }
    }
    Ok(())
}
