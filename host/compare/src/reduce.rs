//! Makes a failing run short: events are left out, and what the start holds, as long as the two units still differ.

use crate::board::header::{self, FILES, GROUPS, INPUTS, MEANS};
use crate::board::BLOCK;
use crate::event::Event;
use crate::faults::Fault;
use crate::means::Place;
use crate::pair::Pair;
use crate::runs::Run;
use crate::scene::Scene;
use independent::{FixedArea, State};

/// Where a run fails first, as its number of events and the difference.
pub fn fails(
    scene: &Scene,
    events: &[Event],
    fault: Option<&'static Fault>,
) -> Option<(usize, String)> {
    let mut pair = match Pair::new(scene, fault) {
        Ok(pair) => pair,
        Err(found) => return Some((0, found)),
    };
    events
        .iter()
        .enumerate()
        .find_map(|(i, event)| pair.take(event).err().map(|found| (i + 1, found)))
}

/// The short run.
pub fn reduce(mut failure: Run, fault: Option<&'static Fault>) -> Run {
    fewer_events(&mut failure, fault);
    simpler_start(&mut failure, fault);
    fewer_events(&mut failure, fault);
    failure
}

/// Leaves out events of a run of the units.
fn fewer_events(failure: &mut Run, fault: Option<&'static Fault>) {
    let scene = &failure.scene;
    fewer(&mut failure.events, |events| {
        fails(scene, events, fault).map(|x| x.0)
    });
}

/// Leaves out halves, quarters and so on down to single events, until none can be spared; `needed` tells with how many of its events a run
/// fails, if it does.
pub fn fewer<E: Clone>(events: &mut Vec<E>, needed: impl Fn(&[E]) -> Option<usize>) {
    let mut part = events.len();
    while part > 0 {
        let before = events.len();
        let mut at = 0;
        while at < events.len() {
            if !without(events, at, part, &needed) {
                at += part;
            }
        }
        if part > 1 || events.len() == before {
            part /= 2;
        }
    }
}

/// Leaves out some events, and all behind the first difference, if the run still fails.
fn without<E: Clone>(
    events: &mut Vec<E>,
    at: usize,
    part: usize,
    needed: impl Fn(&[E]) -> Option<usize>,
) -> bool {
    let mut fewer = events.clone();
    fewer.drain(at..(at + part).min(fewer.len()));
    let Some(many) = needed(&fewer) else {
        return false;
    };
    fewer.truncate(many);
    *events = fewer;
    true
}

/// Makes the start fresh in whole or in parts, and the configuration small.
fn simpler_start(failure: &mut Run, fault: Option<&'static Fault>) {
    for simpler in SIMPLER {
        try_start(failure, fault, simpler);
    }
    for file in 0..FILES {
        try_start(failure, fault, |s| s.state.files[file].clear());
        try_start(failure, fault, |s| s.equipment.files[file] = 0);
        try_start(failure, fault, |s| s.equipment.oldest[file] = 1);
    }
    for place in 0..MEANS {
        try_start(failure, fault, |s| s.equipment.means[place] = Place::UNUSED);
    }
    for at in (0..INPUTS).step_by(16) {
        try_start(failure, fault, |s| s.equipment.inputs[at..at + 16].fill(0));
        try_start(failure, fault, |s| s.equipment.outputs[at..at + 16].fill(0));
        try_start(failure, fault, |s| {
            s.equipment.calculations[at..at + 16].fill(0)
        });
    }
}

/// Keeps a simpler start if the run still fails.
fn try_start(failure: &mut Run, fault: Option<&'static Fault>, simpler: impl Fn(&mut Scene)) {
    let mut scene = failure.scene.clone();
    simpler(&mut scene);
    if let Some((needed, _)) = fails(&scene, &failure.events, fault) {
        failure.events.truncate(needed);
        failure.scene = scene;
    }
}

/// Ways to make a start simpler; the first makes all of it so.
const SIMPLER: [fn(&mut Scene); 16] = [
    |s| {
        s.state = State::fresh();
        s.params = vec![0; BLOCK];
        s.fresh = true;
    },
    |s| s.params = vec![0; BLOCK],
    |s| (s.lent.block, s.equipment.length) = (0, 0),
    |s| s.lent.records = header::LENT,
    |s| s.state.words = [0; 256],
    |s| s.state.values = [0; 128],
    |s| s.state.dropped = [0; FILES],
    |s| s.state.changed = [0; GROUPS],
    |s| s.state.samples = State::fresh().samples,
    |s| s.state.fixed = FixedArea::EMPTY,
    |s| (s.state.select, s.state.timed_out) = (None, None),
    |s| s.state.write = None,
    |s| s.state.history = None,
    |s| s.state.clock = State::fresh().clock,
    |s| (s.state.silence, s.state.mark) = (0, 0),
    |s| (s.state.bit7, s.state.bit3, s.state.bit2) = (true, false, false),
];
