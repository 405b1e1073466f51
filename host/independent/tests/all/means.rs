//! Demand means as special calculations (document 02, request 4).

use crate::dice::Dice;
use crate::rig::*;
use independent::{fits, Calculation, Config, Input, Mean, Sampled, State};

/// A mean of these numbers.
fn mean(calculation: u8, analog: u8, n: u16) -> Mean {
    Mean {
        calculation: Calculation(calculation),
        analog: Input(analog),
        n,
    }
}

/// The full rig with these means.
fn with(means: &[Mean]) -> Rig {
    let mut rig = Rig::full();
    rig.config.means = means.to_vec();
    rig
}

/// Samples calculation 04 while its analog reads each of these.
fn sample_all(rig: &mut Rig, values: &[i16]) -> Vec<Sampled> {
    let take = |&value: &i16| {
        assert_eq!(rig.word(0x80, value as u16), 0);
        rig.sample(0x04).expect("a sample")
    };
    values.iter().map(take).collect()
}

/// The answer of a mean with this float.
fn is(float: f32) -> Sampled {
    Sampled::Mean(float.to_bits())
}

#[test]
fn mean_of_the_last_n_comes_once_n_are_in() {
    let mut rig = with(&[mean(0x04, 0x80, 4)]);
    let got = sample_all(&mut rig, &[1, 2, 3, 5, -32_768, 32_767]);
    assert_eq!(got[..3], [3, 2, 1].map(Sampled::Missing));
    assert_eq!(got[3..], [is(2.75), is(-8_189.5), is(1.75)]);
    let sent = rig.send(1, 0x03, 0x00, &[0x04]);
    assert_eq!(sent.data(), [&[0x04][..], &1.75f32.to_le_bytes()].concat());
}

#[test]
fn one_sample_is_its_own_mean() {
    let mut rig = with(&[mean(0x04, 0x80, 1)]);
    let got = sample_all(&mut rig, &[-1, 0, 32_767, -32_768]);
    assert_eq!(got, [is(-1.0), is(0.0), is(32_767.0), is(-32_768.0)]);
}

#[test]
fn product_with_n_equals_the_sum_for_every_n() {
    for n in (0..=8).map(|power| 1u16 << power) {
        let (mut dice, mut rig) = (Dice(u64::from(n)), with(&[mean(0x04, 0x80, n)]));
        let mut last: Vec<i16> = Vec::new();
        for taken in 1..=2 * n {
            let value = dice.pick(&[dice_word(taken), -32_768, 32_767, 0]);
            last.push(value);
            let got = sample_all(&mut rig, &[value])[0];
            let window = &last[last.len().saturating_sub(usize::from(n))..];
            let sum: i64 = window.iter().map(|&value| i64::from(value)).sum();
            match got {
                Sampled::Missing(missing) => assert_eq!(missing, n - taken),
                Sampled::Mean(bits) => {
                    assert!(taken >= n);
                    let product = f64::from(f32::from_bits(bits)) * f64::from(n);
                    assert_eq!(product, sum as f64);
                }
            }
        }
    }
}

/// A word that looks like any.
fn dice_word(taken: u16) -> i16 {
    taken.wrapping_mul(40_503) as i16
}

#[test]
fn greatest_sums_are_exact_and_a_sum_of_0_is_plus_zero() {
    for (value, float) in [(-32_768, -32_768.0), (32_767, 32_767.0), (0, 0.0)] {
        let mut rig = with(&[mean(0x04, 0x80, 256)]);
        assert_eq!(sample_all(&mut rig, &[value; 256])[255], is(float));
    }
    let mut rig = with(&[mean(0x04, 0x80, 2)]);
    assert_eq!(sample_all(&mut rig, &[-7, 7])[1], Sampled::Mean(0));
}

#[test]
fn number_not_ready_counts_as_not_equipped() {
    let mut rig = with(&[mean(0x04, 0x80, 2)]);
    rig.value(0x15, 0x0102_0304);
    for taken in 0..2 {
        let got = rig.send(1, 0x03, 0x00, &[0x04, 0x15, 0x05, 0x04]);
        assert_eq!((got.outcome, got.data()), (8, &[0x04, 0x05, 0x04][..]));
        assert_eq!(rig.send(1, 0x03, 0x00, &[0x04; 103]).outcome, 8);
        let all = rig.send(1, 0x03, 0x80, &[]);
        assert_eq!(all.data(), [4, 3, 2, 1, 0, 0, 0, 0]);
        sample_all(&mut rig, &[taken]);
    }
    assert_eq!(rig.send(1, 0x03, 0x80, &[]).data().len(), 12);
    assert_eq!(rig.ask(1, 0x03, 0x00, &[0x04, 0x15]), 0);
}

#[test]
fn of_128_with_one_not_ready_508_characters_are_sent() {
    let mut rig = with(&[mean(0x04, 0x80, 2)]);
    rig.config.calculations[..0x80].fill(true);
    for _ in 0..2 {
        assert_eq!(rig.send(1, 0x03, 0x80, &[]).data().len(), 508);
        sample_all(&mut rig, &[1]);
    }
    rig.refused(9, 1, 0x03, 0x80, &[]);
}

#[test]
fn setting_a_mean_and_sampling_another_number_are_8() {
    let mut rig = with(&[mean(0x04, 0x80, 1)]);
    sample_all(&mut rig, &[3]);
    let before = rig.state.clone();
    for bits in [0, 3f32.to_bits()] {
        assert_eq!(rig.value(0x04, bits), 8);
    }
    for number in [0x00, 0x05, 0x15, 0x7F, 0x80, 0xFF] {
        assert_eq!(rig.sample(number), Err(8));
    }
    assert_eq!(rig.state, before);
    assert_eq!(rig.value(0x15, 1), 0);
}

#[test]
fn two_means_may_share_an_analog_and_keep_their_own_samples() {
    let mut rig = with(&[mean(0x04, 0x80, 2), mean(0x15, 0x80, 1)]);
    assert_eq!(sample_all(&mut rig, &[10]), [Sampled::Missing(1)]);
    assert_eq!(rig.sample(0x15), Ok(is(10.0)));
    assert_eq!(sample_all(&mut rig, &[20]), [is(15.0)]);
}

#[test]
fn nothing_else_is_a_sample_or_touches_one() {
    let mut rig = with(&[mean(0x04, 0x80, 2)]);
    sample_all(&mut rig, &[1, 2]);
    let before = (rig.state.samples.clone(), rig.state.values);
    rig.word(0x80, 99);
    rig.wait(u32::MAX);
    rig.load(1, 3, 0, &[0, 1, 0x80]);
    rig.ask(1, 0x20, 0x38, &[1, 0, 0, 0, 0, 0, 0]);
    rig.ask(1, 0x20, 0x00, &[]);
    rig.ask(1, 0x03, 0x80, &[]);
    assert_eq!((rig.state.samples.clone(), rig.state.values), before);
    assert_eq!(rig.sample(0x04), Ok(is(50.5)));
}

/// Whether the full rig's configuration is valid with these means.
fn valid(means: &[Mean]) -> bool {
    let Rig { config, state, .. } = with(means);
    assert_eq!(fits(&config, &state, 20), config.valid());
    config.valid()
}

#[test]
fn n_is_a_power_of_two_up_to_256() {
    for n in 0..=1_024 {
        let good = [1, 2, 4, 8, 16, 32, 64, 128, 256].contains(&n);
        assert_eq!(valid(&[mean(0x04, 0x80, n)]), good);
    }
    assert!(!valid(&[mean(0x04, 0x80, 0x8000)]));
}

#[test]
fn numbers_are_equipped_analogs_and_calculations_named_once() {
    for number in 0..=255 {
        let calculation = [0x04, 0x15, 0x7F].contains(&number);
        assert_eq!(valid(&[mean(number, 0x80, 1)]), calculation);
        let analog = [0x80, 0xFF].contains(&number);
        assert_eq!(valid(&[mean(0x04, number, 1)]), analog);
    }
    assert!(valid(&[mean(0x04, 0x80, 1), mean(0x15, 0x80, 1)]));
    assert!(!valid(&[mean(0x04, 0x80, 1), mean(0x04, 0xFF, 2)]));
    assert!(!valid(&[
        mean(0x15, 0x80, 1),
        mean(0x04, 0x80, 1),
        mean(0x15, 0x80, 1)
    ]));
}

#[test]
fn a_configuration_has_at_most_16_means() {
    let mut config = Config::new(UNIT);
    config.calculations[..17].fill(true);
    config.inputs[0x80] = true;
    config.means = (0..17).map(|number| mean(number, 0x80, 256)).collect();
    assert!(!config.valid());
    config.means.pop();
    assert!(config.valid());
}

#[test]
fn samples_that_could_not_be_are_17() {
    let keeps = |number: usize, count: usize| {
        let mut rig = with(&[mean(0x04, 0x80, 4)]);
        rig.state.samples[number] = vec![-1; count];
        rig.sample(0x04) != Err(17)
    };
    assert!(keeps(0x04, 0) && keeps(0x04, 4) && !keeps(0x04, 5));
    assert!(keeps(0x15, 0) && !keeps(0x15, 1));
    let Rig { config, .. } = with(&[]);
    let mut state = State::fresh();
    state.samples.pop();
    assert!(!fits(&config, &state, 20));
}

#[test]
fn a_configuration_fault_is_17_before_8() {
    let mut rig = with(&[mean(0x04, 0x80, 3)]);
    assert_eq!((rig.sample(0x04), rig.sample(0x99)), (Err(17), Err(17)));
    assert_eq!([rig.value(0x04, 0), rig.ask(1, 0x00, 0x00, &[])], [17; 2]);
}
