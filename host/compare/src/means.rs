//! Means: their places in a configuration, their samples as the proved unit keeps them, and how what is worth seeing of them is known.

use crate::board::header::{self, CALCULATIONS, MEANS};
use crate::board::{Equipment, Memory, Unit};
use crate::event::Event;
use crate::known::heard;
use crate::pair::Pair;
use crate::places::Places;
use crate::rng::Rng;
use independent::{Answer, Calculation, Input, Mean, Sampled, State};

/// A place for a mean; one over 0 samples is not used, and may name anything.
#[derive(Clone, Copy)]
pub struct Place {
    pub calculation: u8,
    pub analog: u8,
    pub window: u16,
}

impl Place {
    pub const UNUSED: Place = Place {
        calculation: 0,
        analog: 0,
        window: 0,
    };

    pub fn used(&self) -> bool {
        self.window != 0
    }

    pub fn mean(&self) -> Mean {
        Mean {
            calculation: Calculation(self.calculation),
            analog: Input(self.analog),
            n: self.window,
        }
    }

    /// The samples of its number; a number that no calculation has, has none.
    fn samples<'a>(&self, state: &'a State) -> &'a [i16] {
        let known = state.samples.get(usize::from(self.calculation));
        known.map_or(&[], |samples| samples)
    }
}

/// What a sample came to, as the six characters of the C call.
pub fn characters(sampled: Option<Sampled>) -> [u8; 6] {
    let (missing, bits) = match sampled {
        Some(Sampled::Mean(bits)) => (0, bits),
        Some(Sampled::Missing(missing)) => (missing, 0_u32),
        None => (0, 0),
    };
    let mut made = [0; 6];
    made[..2].copy_from_slice(&missing.to_le_bytes());
    made[2..].copy_from_slice(&bits.to_le_bytes());
    made
}

/// How many samples each place says are in. Samples of a number that is no mean stand in the places that are not used.
pub fn lay_taken(memory: &mut Memory, places: &[Place; MEANS], state: &State) {
    let named = |n: usize| {
        let mut used = places.iter().filter(|p| p.used());
        used.any(|p| usize::from(p.calculation) == n)
    };
    let samples = state.samples.iter().enumerate();
    let mut stray = samples.filter(|(n, s)| !s.is_empty() && !named(*n));
    for (i, place) in places.iter().enumerate() {
        let taken = if place.used() {
            place.samples(state).len()
        } else {
            stray.next().map_or(0, |(_, s)| s.len())
        };
        let at = header::AT_TAKEN + 2 * i;
        memory.lay(at, &(taken as u16).to_le_bytes());
    }
}

/// Writes the samples of a number into the proved unit's memory, as many as have a place there.
pub fn put_samples(state: &State, places: &Places, unit: &mut Unit) {
    for (i, place) in places.means.iter().enumerate() {
        for (n, sample) in place.samples(state).iter().enumerate() {
            if let Some(at) = places.of_sample(i, n) {
                unit.records[at..at + 2].copy_from_slice(&sample.to_le_bytes());
            }
        }
    }
}

/// The first place with a sample that does not stand where it should.
pub fn samples_difference(state: &State, places: &Places, unit: &Unit) -> Option<String> {
    for (i, place) in places.means.iter().enumerate() {
        let differs = |(n, sample): (usize, &i16)| {
            let at = places.of_sample(i, n);
            at.is_some_and(|at| unit.records[at..at + 2] != sample.to_le_bytes())
        };
        if let Some(n) = place.samples(state).iter().enumerate().position(differs) {
            return Some(format!("mean {i}: sample {n} differs"));
        }
    }
    None
}

/// None, a few or all: often of one or two samples, so that they are soon ready, and often of one analog.
pub fn equip(rng: &mut Rng, made: &mut Equipment) {
    let table = |table: &[u8; 256], from: usize, to: usize| -> Vec<u8> {
        let equipped = (from..to).filter(|&n| table[n] != 0);
        equipped.map(|n| n as u8).collect()
    };
    let mut calculations = table(&made.calculations, 0, CALCULATIONS);
    let analogs = table(&made.inputs, 0x80, 0x100);
    let shared = rng.pick_any(&analogs).filter(|_| rng.percent(30));
    let many = rng.pick(&[0, 0, 1, 2, 4, MEANS, MEANS]);
    for place in &mut made.means {
        *place = Place {
            calculation: rng.byte(),
            analog: rng.byte(),
            window: 0,
        };
    }
    for _ in 0..many.min(calculations.len()) {
        let Some(analog) = shared.or(rng.pick_any(&analogs)) else {
            return;
        };
        let place = if many == MEANS {
            calculations.len() % MEANS
        } else {
            rng.below(MEANS)
        };
        if !made.means[place].used() {
            made.means[place] = Place {
                calculation: calculations.swap_remove(rng.below(calculations.len())),
                analog,
                window: window(rng),
            };
        }
    }
}

/// One of the means whose number has samples at all; a configuration that is not valid may have others.
pub fn any(rng: &mut Rng, e: &Equipment) -> Option<Place> {
    let known = |p: &&Place| p.used() && usize::from(p.calculation) < CALCULATIONS;
    let means: Vec<Place> = e.means.iter().filter(known).copied().collect();
    rng.pick_any(&means)
}

fn window(rng: &mut Rng) -> u16 {
    let any = 1 << rng.below(9);
    rng.pick(&[1, 2, 2, 4, 8, 256, any, any])
}

/// Samples of a mean: none, one too few, all, or any number of them; the limits all through, in turn, such that with the next one the sum is
/// 0, or anything.
pub fn samples(rng: &mut Rng, window: u16, word: u16) -> Vec<i16> {
    let window = usize::from(window);
    let any = rng.below(window + 1);
    let many = rng.pick(&[0, window - 1, window - 1, window, window, any]);
    let (kind, one) = (rng.below(6), rng.word() as i16);
    let opposite = (word as i16).wrapping_neg();
    (0..many)
        .map(|n| match kind {
            0 => i16::MIN,
            1 => i16::MAX,
            2 => [i16::MIN, i16::MAX][n % 2],
            3 if n + 1 == many => opposite,
            3 => [one, one.wrapping_neg()][(n + many) % 2],
            _ => rng.word() as i16,
        })
        .collect()
}

/// How many samples of each place are in.
pub fn taken(memory: &Memory) -> [u16; MEANS] {
    std::array::from_fn(|i| memory.taken(i))
}

/// Of a sample that was taken: over how many samples the mean is, how many were in before, and what it came to.
pub fn sampled(event: &Event, pair: &Pair, answer: &Answer) -> Option<(u16, u16, Sampled)> {
    let place = place_in(event, pair)?;
    let window = pair.equipment.means[place].window;
    (answer.outcome == 0).then_some((window, pair.taken[place], pair.sampled?))
}

/// The same of a mean that is ready: over how many samples, and its value.
pub fn ready(event: &Event, pair: &Pair, answer: &Answer) -> Option<(u16, f32)> {
    match sampled(event, pair, answer)? {
        (window, _, Sampled::Mean(bits)) => Some((window, f32::from_bits(bits))),
        _ => None,
    }
}

/// Whether all samples of a ready mean over more than one are this.
pub fn all_through(event: &Event, pair: &Pair, answer: &Answer, word: i16) -> bool {
    ready(event, pair, answer).is_some_and(|(window, mean)| window > 1 && mean == word.into())
}

/// Whether the analog that was sampled is 0 now.
pub fn idle(event: &Event, pair: &Pair) -> bool {
    let analog = place_in(event, pair).map(|p| pair.equipment.means[p].analog);
    analog.is_none_or(|n| pair.unit.memory.word(n) == 0)
}

/// Whether another mean has the analog that was sampled.
pub fn shares(event: &Event, pair: &Pair) -> bool {
    let means = &pair.equipment.means;
    let own = place_in(event, pair).map(|p| means[p].analog);
    let same = |p: &&Place| p.used() && Some(p.analog) == own;
    means.iter().filter(same).count() > 1
}

fn place_in(event: &Event, pair: &Pair) -> Option<usize> {
    match event {
        Event::Sample(number) => place_of(pair, *number),
        _ => None,
    }
}

/// The place of a calculation that is a mean.
pub fn place_of(pair: &Pair, number: u8) -> Option<usize> {
    let mut places = pair.equipment.means.iter();
    places.position(|p| p.used() && p.calculation == number)
}

/// Whether a calculation is a mean that is not ready.
pub fn waits(pair: &Pair, number: u8) -> bool {
    place_of(pair, number).is_some_and(|p| pair.taken[p] < pair.equipment.means[p].window)
}

/// Whether any mean is not ready; or is.
pub fn any_waits(pair: &Pair) -> bool {
    (0..CALCULATIONS as u8).any(|n| waits(pair, n))
}

pub fn any_ready(pair: &Pair) -> bool {
    (0..CALCULATIONS as u8).any(|n| place_of(pair, n).is_some() && !waits(pair, n))
}

/// The stretch asked by function 03 with this command, and ended so.
pub fn values(event: &Event, answer: &Answer, command: u8, outcome: usize) -> bool {
    usize::from(answer.outcome) == outcome && heard(event).get(2..4) == Some(&[0x03, command])
}

/// The data of a whole frame.
pub fn asked(event: &Event) -> &[u8] {
    let bytes = heard(event);
    bytes.get(6..bytes.len() - 2).unwrap_or(&[])
}

/// How many of the numbers that a NOP sent back are means that are not ready.
pub fn told_waiting(pair: &Pair) -> usize {
    let reply = pair.reply();
    let data = &reply[7..reply.len() - 2];
    data.iter().filter(|&&n| waits(pair, n)).count()
}

/// How many calculations are equipped.
pub fn equipped(pair: &Pair) -> usize {
    pair.config.calculations.iter().filter(|&&x| x).count()
}
