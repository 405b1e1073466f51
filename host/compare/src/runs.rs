//! Random runs, and runs that call one function most of all.

use crate::aims::{Aim, AIMS};
use crate::bends::BENDS;
use crate::calls::call;
use crate::event::{Change, Event};
use crate::faults::Fault;
use crate::pair::Pair;
use crate::rng::Rng;
use crate::scene::Scene;
use crate::stirs::{stirs, undo};
use crate::tally::Tally;

/// A run as it was played: where it started and what happened. One in which the two units differ ends there.
pub struct Run {
    pub scene: Scene,
    pub events: Vec<Event>,
}

/// One run in the making.
struct Maker {
    rng: Rng,
    /// A number is out of range: which, and what puts it right again.
    bent: Option<(usize, Change)>,
}

impl Maker {
    /// Changes of the kept state before a call. A number out of range is put right before anything else changes.
    fn changes(&mut self, pair: &Pair, aim: Aim) -> Vec<Change> {
        if self.bent.is_some() {
            let right = self.bent.take_if(|_| self.rng.percent(75));
            return right.map(|(_, change)| change).into_iter().collect();
        }
        if self.rng.percent(3) {
            let bend = self.rng.below(BENDS.len());
            if let Some(change) = (BENDS[bend].1)(&mut self.rng, pair) {
                self.bent = Some((bend, undo(pair, &change)));
                return vec![change];
            }
        }
        stirs(&mut self.rng, pair, aim)
    }

    fn aim(&mut self, most: Option<Aim>) -> Aim {
        match most {
            Some(aim) if self.rng.percent(90) => aim,
            _ => self.rng.pick(&AIMS).0,
        }
    }
}

/// Where a run starts, and how many calls it makes.
fn start(rng: &mut Rng) -> (Scene, usize) {
    match rng.below(20) {
        0..2 => (Scene::faulty(rng), 12),
        2..6 => (Scene::fresh(rng), rng.pick(&[50, 300])),
        _ => (Scene::random(rng), rng.pick(&[50, 200, 400])),
    }
}

/// One run: all of random calls, or most of one function.
pub fn run(
    mut rng: Rng,
    most: Option<Aim>,
    fault: Option<&'static Fault>,
    tally: &mut Tally,
) -> Result<Run, Box<Run>> {
    let (scene, calls) = start(&mut rng);
    let mut events = Vec::with_capacity(2 * calls);
    let Ok(mut pair) = Pair::new(&scene, fault) else {
        return Err(Box::new(Run { scene, events }));
    };
    let mut maker = Maker { rng, bent: None };
    for _ in 0..calls {
        let aim = maker.aim(most);
        for change in maker.changes(&pair, aim) {
            pair.change(&change);
            events.push(Event::Change(change));
        }
        let event = call(&mut maker.rng, &pair, aim);
        events.push(event);
        let event = &events[events.len() - 1];
        let Ok(Some(answer)) = pair.take(event) else {
            return Err(Box::new(Run { scene, events }));
        };
        tally.call(aim, event, &pair, &answer);
        if most.is_none() {
            tally.event(aim, &answer);
        }
        if answer.outcome == 17 {
            tally.turned_away(maker.bent.as_ref().map(|x| x.0), scene.faulty);
        }
    }
    Ok(Run { scene, events })
}
