//! Demand means: an answer with a float or with how many samples are missing.

use crate::line::{answered, asked, frame, heard, UNIT};
use osturdam::{
    Config, File, Input, Outcome, Sampled, SpecialCalculation, Stored, Unit, LENT, MEANS, SAMPLES,
};

const LOAD: Input = Input(0x80);
const DEMAND: SpecialCalculation = SpecialCalculation(5);

fn equipped() -> Config {
    Config::new(UNIT)
        .input(LOAD)
        .input(Input(0x30))
        .calculation(DEMAND)
        .calculation(SpecialCalculation(6))
}

/// The analog is now this, and sampled.
fn sample(unit: &mut Unit, word: i16) -> Result<Sampled, Outcome> {
    assert_eq!(unit.set_word(LOAD, word as u16), Outcome::Done);
    unit.sample(DEMAND)
}

#[test]
fn every_number_of_samples_has_its_exact_mean() {
    for samples in (0..=8).map(|k| 1_u16 << k) {
        let mut unit = Unit::fresh(equipped().mean(DEMAND, LOAD, samples));
        for n in 1..samples {
            let missing = Ok(Sampled::NotReady(samples - n));
            assert_eq!(sample(&mut unit, i16::MIN), missing);
        }
        let ready = |mean| Ok(Sampled::Ready(mean));
        assert_eq!(sample(&mut unit, i16::MIN), ready(-32_768.0));
        let sum = -32_768.0 * f32::from(samples - 1) + 32_767.0;
        assert_eq!(sample(&mut unit, i16::MAX), ready(sum / f32::from(samples)));
        assert_eq!(unit.samples(DEMAND).map(|s| s.len()), Some(samples.into()));
    }
}

#[test]
fn a_sum_of_0_is_plus_zero() {
    let mut unit = Unit::fresh(equipped().mean(DEMAND, LOAD, 2));
    sample(&mut unit, -7).expect("it is taken");
    match sample(&mut unit, 7) {
        Ok(Sampled::Ready(mean)) => assert_eq!(mean.to_bits(), 0),
        other => panic!("{other:?}"),
    }
}

#[test]
fn masters_see_it_once_it_is_ready() {
    let mut unit = Unit::fresh(equipped().mean(DEMAND, LOAD, 2));
    sample(&mut unit, 3).expect("it is taken");
    assert_eq!(answered(&mut unit, 1, 0x03, 0x80, &[]), [0; 4]);
    let (outcome, _, reply) = heard(&mut unit, &frame(1, 0x03, 0x00, &[6, 5, 5]));
    assert_eq!((outcome, &reply[7..9]), (Outcome::NotValid, &[5, 5][..]));
    assert_eq!(asked(&mut unit, 1, 0x20, 0x00, &[]), Outcome::Done);
    assert_eq!(sample(&mut unit, 4), Ok(Sampled::Ready(3.5)));
    let told = answered(&mut unit, 1, 0x03, 0x00, &[5]);
    assert_eq!(told[1..], 3.5_f32.to_bits().to_le_bytes());
}

#[test]
fn what_is_no_mean_is_refused_and_nothing_changes() {
    let mut unit = Unit::fresh(equipped().mean(DEMAND, LOAD, 4));
    let before = unit.clone();
    for number in [0, 4, 6, 0x80, 255] {
        let refused = unit.sample(SpecialCalculation(number));
        assert_eq!(refused, Err(Outcome::NotValid), "{number}");
    }
    assert_eq!(unit.set_value(DEMAND, 0), Outcome::NotValid);
    assert_eq!(unit.samples(SpecialCalculation(6)), None);
    assert_eq!(unit, before);
    assert_eq!(unit.set_value(SpecialCalculation(6), 1), Outcome::Done);
}

#[test]
fn configurations_that_no_unit_has() {
    let equipped = equipped();
    let other = SpecialCalculation(6);
    for wrong in [0, 3, 5, 255, 257, 512, u16::MAX] {
        assert!(!equipped.clone().mean(DEMAND, LOAD, wrong).valid());
    }
    for analog in [0x00, 0x30, 0x40, 0x81] {
        assert!(!equipped.clone().mean(DEMAND, Input(analog), 1).valid());
    }
    let one = equipped.clone().mean(DEMAND, LOAD, 8);
    assert_eq!(one.mean_of(DEMAND), Some((LOAD, 8)));
    assert_eq!(one.mean_of(other), None);
    assert!(
        one.clone().mean(other, LOAD, 8).valid(),
        "an analog for two"
    );
    assert!(!one.clone().mean(DEMAND, LOAD, 8).valid(), "named twice");
    assert!(!one.mean(SpecialCalculation(9), LOAD, 8).valid());
}

#[test]
fn sixteen_stand_behind_the_records() {
    let numbers = (0..=MEANS as u8).map(SpecialCalculation);
    let mean = |c: Config, n| c.calculation(n).mean(n, LOAD, SAMPLES);
    let files = (0..32).fold(equipped(), |c, f| c.file(File(f), 16));
    let most = numbers.clone().take(MEANS).fold(files.clone(), mean);
    assert_eq!((most.valid(), most.room()), (true, LENT as u64));
    assert!(!numbers.fold(files, mean).valid(), "one more");
    let mut unit = Unit::fresh(most);
    assert_eq!(unit.store_record(File(31), 1, &[7; 16]), Stored::Stored);
    for n in 0..=SAMPLES {
        let word = n as i16 - 100;
        sample(&mut unit, word).expect("it is taken");
        assert!(unit.sample(SpecialCalculation(15)).is_ok());
    }
    let held: Vec<i16> = (1..=SAMPLES).map(|n| n as i16 - 100).collect();
    assert_eq!(unit.samples(SpecialCalculation(15)), Some(held.clone()));
    assert_eq!(unit.samples(DEMAND), Some(held));
    assert_eq!(unit.record(File(31), 0).map(|r| r[0]), Some(1));
    assert_eq!(Unit::from_bytes(&unit.to_bytes()), unit);
}
