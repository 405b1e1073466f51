//! Changes of the kept state between calls that leave it in range, so that each call finds what matters to it.

use crate::aims::Aim;
use crate::board::{header, BLOCK};
use crate::event::{Change, Hold};
use crate::means;
use crate::pair::Pair;
use crate::rng::Rng;
use crate::shapes;

/// Changes before a call of this function: mostly none or one.
pub fn stirs(rng: &mut Rng, pair: &Pair, aim: Aim) -> Vec<Change> {
    let of_aim = match aim {
        Aim::Control if rng.percent(50) => 1,
        Aim::Write if rng.percent(30) => 2,
        Aim::Execute if rng.percent(75) => 2,
        Aim::Both if rng.percent(40) => rng.pick(&[1, 2]),
        Aim::History if rng.percent(30) => rng.pick(&[3, 3, 10]),
        Aim::Store if rng.percent(8) => 10,
        Aim::Store if rng.percent(15) => 12,
        Aim::Tables if rng.percent(8) => 11,
        Aim::Elapsed if rng.percent(70) => rng.pick(&[0, 1, 2, 5]),
        Aim::SetTime | Aim::ReadTime if rng.percent(20) => 0,
        Aim::Contact if rng.percent(10) => 13,
        Aim::Sample if rng.percent(25) => 14,
        Aim::AllValues | Aim::AskedValues if rng.percent(10) => 14,
        _ if rng.percent(6) => rng.below(15),
        _ => return Vec::new(),
    };
    change(rng, pair, of_aim)
}

fn change(rng: &mut Rng, pair: &Pair, part: usize) -> Vec<Change> {
    let e = &pair.equipment;
    let one = match part {
        0 => Change::Clock(shapes::clock(rng)),
        1 => Change::Hold(shapes::hold(rng, e)),
        2 => Change::Write(shapes::write(rng, e)),
        3 => Change::Memory(shapes::memory(rng, e, &pair.state)),
        4 => Change::Bits {
            bit7: rng.flip(),
            bit3: rng.flip(),
            bit2: rng.flip(),
        },
        5 => port(rng),
        6 => Change::Word(rng.byte(), rng.word()),
        13 => Change::Changed(rng.below(header::GROUPS) as u8, shapes::changed(rng)),
        7 => Change::Value(rng.byte() % header::CALCULATIONS as u8, rng.long()),
        8 => Change::Fixed(rng.below(header::FIXED - 7), rng.bytes(8)),
        9 => Change::Block(rng.below(BLOCK - 7), rng.bytes(8)),
        10 => return records(rng, pair),
        14 => return samples(rng, pair),
        12 => return filled(rng, pair),
        _ => Change::Fixed(
            header::AT_03 - header::AT_FIXED,
            shapes::tables(rng, e).to_vec(),
        ),
    };
    vec![one]
}

fn port(rng: &mut Rng) -> Change {
    let (silence, mark) = shapes::port(rng);
    Change::Port {
        silence: silence as u16,
        mark,
    }
}

/// Other records in a file; a reply remembered from it would no longer be one that it could have given.
fn records(rng: &mut Rng, pair: &Pair) -> Vec<Change> {
    let e = &pair.equipment;
    let equipped: Vec<usize> = (0..header::FILES).filter(|&f| e.files[f] != 0).collect();
    let Some(file) = rng.pick_any(&equipped) else {
        return Vec::new();
    };
    let many = shapes::many_records(rng, e);
    let mut made = vec![Change::Records(
        file,
        shapes::records(rng, e.values[file], many),
    )];
    if pair
        .state
        .history
        .is_some_and(|h| usize::from(h.file) == file)
    {
        made.push(Change::Memory(None));
    }
    made
}

/// Other samples of a mean, and often the analog at a limit.
fn samples(rng: &mut Rng, pair: &Pair) -> Vec<Change> {
    let Some(mean) = means::any(rng, &pair.equipment) else {
        return Vec::new();
    };
    let any = rng.word();
    let own = pair.state.words[usize::from(mean.analog)];
    let word = rng.pick(&[own, any, 0, 0x8000, 0x7FFF]);
    let samples = means::samples(rng, mean.window, word);
    vec![
        Change::Word(mean.analog, word),
        Change::Samples(mean.calculation, samples),
    ]
}

/// Every file full that has a place for it, and then a reply remembered from one of them, or none.
fn filled(rng: &mut Rng, pair: &Pair) -> Vec<Change> {
    let (e, mut state) = (&pair.equipment, pair.state.clone());
    let equipped: Vec<usize> = (0..header::FILES).filter(|&f| e.files[f] != 0).collect();
    let mut made = vec![Change::Memory(None)];
    for file in equipped.into_iter().take(4) {
        state.files[file] = shapes::records(rng, e.values[file], header::ROOM);
        made.push(Change::Records(file, state.files[file].clone()));
    }
    made.push(Change::Memory(shapes::memory(rng, e, &state)));
    made
}

/// The change that sets the same part to what it is now.
pub fn undo(pair: &Pair, change: &Change) -> Change {
    let s = &pair.state;
    match change {
        Change::Clock(_) => Change::Clock(s.clock),
        Change::Hold(_) => Change::Hold(match (s.select, s.timed_out) {
            (Some(select), _) => Hold::Held(select),
            (None, Some(master)) => Hold::TimedOut(master),
            (None, None) => Hold::Free,
        }),
        Change::Write(_) => Change::Write(s.write),
        Change::Memory(_) => Change::Memory(s.history),
        Change::Port { .. } => Change::Port {
            silence: s.silence as u16,
            mark: s.mark,
        },
        Change::Samples(number, _) => {
            Change::Samples(*number, s.samples[usize::from(*number)].clone())
        }
        Change::Records(file, _) => Change::Records(*file, s.files[*file].clone()),
        Change::Lent(_) => Change::Lent(pair.lent),
        other => other.clone(),
    }
}
