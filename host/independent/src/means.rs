//! Demand means: calculations that the unit makes from samples (document 02, request 4).

use crate::config::{Calculation, Config, Input, InputKind};
use crate::outcome;
use crate::state::State;

/// The most means of a configuration.
pub const MOST_MEANS: usize = 16;
/// The most samples of a mean.
pub const MOST_SAMPLES: u16 = 256;

/// A calculation that is the mean of the last samples of an analog.
#[derive(Clone, Copy, Debug, PartialEq, Eq)]
pub struct Mean {
    /// The calculation number.
    pub calculation: Calculation,
    /// The analog input that is sampled.
    pub analog: Input,
    /// The number of samples: 1, 2, 4 up to 256.
    pub n: u16,
}

/// What a sample came to.
#[derive(Clone, Copy, Debug, PartialEq, Eq)]
pub enum Sampled {
    /// The mean, as the 32-bit pattern of its float.
    Mean(u32),
    /// Not ready: the samples still missing.
    Missing(u16),
}

/// The mean of this calculation number, if the configuration names one.
pub fn find(config: &Config, number: Calculation) -> Option<&Mean> {
    let mut means = config.means.iter();
    means.find(|mean| mean.calculation == number)
}

/// Whether a configuration may have its means.
pub fn valid(config: &Config) -> bool {
    let means = &config.means;
    let once = |place: usize, mean: &Mean| {
        let earlier = &means[..place];
        earlier
            .iter()
            .all(|other| other.calculation != mean.calculation)
    };
    means.len() <= MOST_MEANS
        && means.iter().enumerate().all(|(place, mean)| {
            once(place, mean)
                && config.has_calculation(mean.calculation)
                && config.has_input(mean.analog)
                && mean.analog.kind() == Some(InputKind::Analog)
                && mean.n.is_power_of_two()
                && mean.n <= MOST_SAMPLES
        })
}

/// Whether samples are kept for means alone, and not more than each asks for.
pub fn in_range(config: &Config, state: &State) -> bool {
    let fits = |(number, samples): (u8, &Vec<i16>)| match find(config, Calculation(number)) {
        Some(mean) => samples.len() <= usize::from(mean.n),
        None => samples.is_empty(),
    };
    state.samples.len() == state.values.len() && (0..).zip(&state.samples).all(fits)
}

/// Whether the number is no mean, or has all its samples.
pub fn ready(config: &Config, state: &State, number: Calculation) -> bool {
    let kept = |mean: &Mean| state.samples[usize::from(number.0)].len() == usize::from(mean.n);
    find(config, number).is_none_or(kept)
}

/// Takes a sample of the number's analog; the oldest goes once there are enough.
pub fn sample(config: &Config, state: &mut State, number: Calculation) -> Result<Sampled, u8> {
    let mean = find(config, number).ok_or(outcome::NOT_VALID)?;
    let n = usize::from(mean.n);
    let samples = &mut state.samples[usize::from(number.0)];
    if samples.len() == n {
        samples.remove(0);
    }
    samples.push(state.words[usize::from(mean.analog.0)] as i16);
    if samples.len() < n {
        return Ok(Sampled::Missing((n - samples.len()) as u16));
    }
    // At most 2^23 in size, so exact as a float, and so is its part by a power of two.
    let sum: i32 = samples.iter().copied().map(i32::from).sum();
    let bits = (sum as f32 / f32::from(mean.n)).to_bits();
    state.values[usize::from(number.0)] = bits;
    Ok(Sampled::Mean(bits))
}
