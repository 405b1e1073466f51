//! Random runs of both masters, which poll both units: every reply of a unit is one that the two of them gave alike.

use super::asks::{ask, good, KINDS};
use super::event::{request_of, Call, Event};
use super::faults::Fault;
use super::image::{address, SPOILS};
use super::raw::header::POLL_ROOM;
use super::replies::{again, damaged, made};
use super::tally::Tally;
use super::twin::{Start, Twin, LENT};
use crate::aims::Aim;
use crate::board::header::REPLY;
use crate::calls::call;
use crate::event::Event as UnitEvent;
use crate::pair::Pair;
use crate::rng::Rng;
use crate::scene::Scene;
use crate::shapes;
use independent::master::{Kept, Master, Poll, Request};

/// A run as it was played: where it started and what happened. One in which the two masters differ ends there.
pub struct Run {
    pub start: Start,
    pub events: Vec<Event>,
}

/// Why a run ended early.
pub enum Failure {
    /// The two masters differ.
    Masters(Box<Run>),
    /// The two units, that they polled, differ.
    Units(String),
}

/// How many replies are remembered, to come late.
const PAST: usize = 6;

/// One run in the making.
struct Maker {
    rng: Rng,
    units: Pair,
    /// The files that the units have.
    files: Vec<u8>,
    /// Replies of the unit, the latest one last.
    past: Vec<Vec<u8>>,
    events: Vec<Event>,
}

impl Maker {
    /// A call with its memory in range, or seldom not.
    fn event(&mut self, call: Call) -> (Event, Option<usize>) {
        let spoil = self.rng.percent(4).then(|| self.rng.below(SPOILS.len()));
        let spoilt = spoil.map(|i| (SPOILS[i].1)(&mut self.rng));
        (Event { call, spoilt }, spoil)
    }

    /// Hands a call to both masters; None where they differ.
    fn play(&mut self, twin: &mut Twin, call: Call, tally: &mut Tally) -> Option<Option<Vec<u8>>> {
        let (event, spoil) = self.event(call);
        self.events.push(event);
        let event = &self.events[self.events.len() - 1];
        let told = twin.take(event).ok()?;
        tally.count(event, spoil, twin, &told);
        Some(told.frame)
    }

    /// Something happens at the unit, so that there is something to be told of.
    fn stir(&mut self) -> Result<(), String> {
        let aim = self.rng.pick(&[
            Aim::Store,
            Aim::Store,
            Aim::Elapsed,
            Aim::SetWord,
            Aim::SetValue,
        ]);
        let event = call(&mut self.rng, &self.units, aim);
        self.units.take(&event).map(drop)
    }

    /// The frame goes to the unit; its reply is remembered.
    fn send(&mut self, bytes: Vec<u8>) -> Result<(), String> {
        let (room, lag) = (REPLY, 0);
        self.units.take(&UnitEvent::Stretch { bytes, room, lag })?;
        if !self.units.reply().is_empty() {
            if self.past.len() == PAST {
                self.past.remove(0);
            }
            self.past.push(self.units.reply().to_vec());
        }
        Ok(())
    }

    /// A reply: the unit's latest, an earlier one, the last data kept, or one made up for the request that is outstanding.
    fn reply(&mut self, master: &Master) -> Call {
        let (rng, past, address) = (&mut self.rng, &self.past, address(master));
        let late = rng.below(PAST);
        let bytes = match rng.below(100) {
            0..52 => past.last().cloned(),
            52..58 => past.get(late).cloned(),
            58..62 => master
                .last_kept
                .as_ref()
                .map(|kept| again(address, &kept.data)),
            _ => None,
        };
        let mut bytes = bytes.unwrap_or_else(|| match &master.outstanding {
            Some(request) => made(rng, address, request),
            None => made(rng, address, &Request::ReadTime),
        });
        if rng.percent(35) {
            bytes = damaged(rng, &bytes);
        }
        let room = match rng.below(40) {
            0..2 => rng.pick(&[0, 1, POLL_ROOM - 1]),
            _ => rng.between(POLL_ROOM, LENT),
        };
        Call::Reply { bytes, room }
    }
}

/// A unit whose records have good stamps, as those have that it stored itself.
fn scene(rng: &mut Rng) -> Scene {
    let mut scene = match rng.below(4) {
        0 => Scene::fresh(rng),
        _ => Scene::random(rng),
    };
    for record in scene.state.files.iter_mut().flatten() {
        record[1..6].copy_from_slice(&shapes::clock(rng).stamp());
    }
    scene
}

/// A master of that unit, fresh or not; seldom a fresh one of all units, which asks for nothing.
fn start(rng: &mut Rng, unit: u16) -> Start {
    let none = rng.percent(2);
    let number = shapes::master(rng, unit);
    let mut master = Master::new(number, if none { 0x7FF } else { unit });
    let fresh = none || rng.percent(30);
    if !fresh {
        alive(rng, &mut master);
    }
    Start {
        master,
        fresh,
        fill: rng.byte(),
    }
}

/// A master in the middle of its life: of history asked for or not, with data kept or not.
fn alive(rng: &mut Rng, master: &mut Master) {
    let poll = |rng: &mut Rng| (rng.below(32) as u8, rng.flip());
    master.retry = rng.flip();
    if rng.percent(70) {
        let ((file, dump), acknowledge) = (poll(rng), rng.flip());
        master.latest = Some(Poll {
            file,
            dump,
            acknowledge,
        });
        master.may_acknowledge = rng.flip();
        master.outstanding = rng.flip().then_some(Request::History { file, dump });
    }
    if rng.flip() {
        let kind = rng.below(KINDS.len());
        let other = request_of(&good(rng, kind));
        let history = matches!(other, Some(Request::History { .. }));
        master.outstanding = other.filter(|_| !history).or(master.outstanding.take());
    }
    if rng.percent(60) {
        let ((file, dump), many) = (poll(rng), rng.pick(&[1, 9, 300, 511]));
        let data = rng.bytes(many);
        master.last_kept = Some(Kept { file, dump, data });
    }
}

/// One run.
pub fn run(mut rng: Rng, fault: Option<&'static Fault>, tally: &mut Tally) -> Result<(), Failure> {
    let units = Pair::new(&scene(&mut rng), None).map_err(Failure::Units)?;
    let start = start(&mut rng, units.config.unit);
    let calls = rng.pick(&[20, 100, 300]);
    let (past, events) = (Vec::new(), Vec::with_capacity(3 * calls));
    let has = |&file: &u8| units.config.file_values(file).is_some();
    let files = (0..32).filter(has).collect();
    let mut maker = Maker {
        rng,
        units,
        files,
        past,
        events,
    };
    let played = Twin::new(&start, fault)
        .ok()
        .map(|mut twin| played(&mut maker, &mut twin, calls, tally));
    let run = Run {
        start,
        events: maker.events,
    };
    match played {
        Some(Ok(true)) => Ok(()),
        Some(Err(units)) => Err(Failure::Units(units)),
        _ => Err(Failure::Masters(Box::new(run))),
    }
}

/// Requests, most of them sent, and what comes then. False where the masters differ.
fn played(
    maker: &mut Maker,
    twin: &mut Twin,
    calls: usize,
    tally: &mut Tally,
) -> Result<bool, String> {
    for _ in 0..calls {
        if maker.rng.percent(20) {
            maker.stir()?;
        }
        let wish = ask(&mut maker.rng, &maker.files);
        match maker.play(twin, wish, tally) {
            Some(Some(frame)) if maker.rng.percent(90) => maker.send(frame)?,
            Some(_) => {}
            None => return Ok(false),
        }
        for _ in 0..maker.rng.pick(&[0, 1, 1, 1, 2, 3]) {
            let reply = maker.reply(&twin.master);
            if maker.play(twin, reply, tally).is_none() {
                return Ok(false);
            }
        }
    }
    Ok(true)
}
