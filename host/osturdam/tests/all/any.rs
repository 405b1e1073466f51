//! Any input at all ends in an outcome.

use crate::line::UNIT;
use osturdam::{
    Action, Config, ControlOutput, File, Input, Outcome, SpecialCalculation, Stored, Unit, BLOCK,
    REPLY, VALUES,
};

/// Numbers that look like chance and are the same each time.
struct Chance(u64);

impl Chance {
    fn next(&mut self) -> u64 {
        self.0 ^= self.0 << 13;
        self.0 ^= self.0 >> 7;
        self.0 ^= self.0 << 17;
        self.0
    }

    fn chars(&mut self, most: u64) -> Vec<u8> {
        let length = self.next() % (most + 1);
        (0..length).map(|_| self.next() as u8).collect()
    }
}

fn events(unit: &mut Unit, chance: &mut Chance) -> [Outcome; 6] {
    let mut buffer = vec![0; (chance.next() % 1100) as usize];
    let turn = unit.stretch(&chance.chars(300), chance.next() as u32, &mut buffer);
    assert!(turn.reply.len() <= REPLY);
    let outcome = if turn.outcome == Outcome::BufferShort {
        Outcome::NotConfigured
    } else {
        turn.outcome
    };
    [
        outcome,
        unit.elapsed(chance.next() as u32),
        unit.set_word(Input(chance.next() as u8), chance.next() as u16),
        unit.pulses(Input(chance.next() as u8), chance.next() as u16),
        unit.set_value(
            SpecialCalculation(chance.next() as u8),
            chance.next() as u32,
        ),
        unit.sample(SpecialCalculation(chance.next() as u8))
            .map_or_else(|refused| refused, |_| Outcome::Done),
    ]
}

/// Where the scan plans lie.
const PLANS: std::ops::Range<usize> = 2698..2810;

#[test]
fn any_kept_bytes_are_judged_and_left() {
    let mut chance = Chance(2179);
    for round in 0..50 {
        let mut bytes = Unit::fresh(Config::new(UNIT)).to_bytes();
        let own = [0, Config::BYTES][round % 2];
        bytes[own..].fill_with(|| chance.next() as u8);
        let mut unit = Unit::from_bytes(&bytes);
        if own > 0 {
            // of this layout: a unit that goes on has its plans made anew
            bytes[PLANS].copy_from_slice(&unit.to_bytes()[PLANS]);
        }
        assert_eq!(events(&mut unit, &mut chance), [Outcome::NotConfigured; 6]);
        let values: Vec<u16> = (0..chance.next() % 40).map(|n| n as u16).collect();
        assert_eq!(
            unit.store_record(File(chance.next() as u8), 0, &values),
            Stored::NotConfigured
        );
        assert_eq!(unit.to_bytes(), bytes);
    }
}

#[test]
fn any_configuration_is_judged() {
    let invalid = [
        Config::new(0x7FF),
        Config::new(0xFFFF),
        Config::new(1).input(Input(0x20)),
        Config::new(1).input(Input(0x7F)),
        Config::new(1).calculation(SpecialCalculation(0x80)),
        Config::new(1).file(File(0), 0),
        Config::new(1).file(File(0), VALUES as u8 + 1),
        Config::new(1).file(File(32), 1),
        Config::new(1).file(File(255), 255),
        Config::new(1).block(BLOCK + 1),
        Config::new(1).block(usize::MAX),
        Config::new(1).mean(SpecialCalculation(0), Input(0x80), 1),
        Config::new(1)
            .input(Input(0x80))
            .calculation(SpecialCalculation(0))
            .mean(SpecialCalculation(0), Input(0x80), u16::MAX),
    ];
    for config in invalid {
        assert!(!config.valid());
        assert_eq!(
            events(&mut Unit::fresh(config), &mut Chance(7)),
            [Outcome::NotConfigured; 6]
        );
    }
    let widest = (0..=255).fold(Config::new(0x7FE).block(BLOCK), |config, n| {
        config.output(ControlOutput(n))
    });
    assert!(widest.valid());
    assert_eq!(Unit::fresh(widest).elapsed(u32::MAX), Outcome::Done);
}

#[test]
fn a_short_buffer_changes_nothing() {
    let mut unit = Unit::fresh(Config::new(UNIT));
    let fresh = unit.to_bytes();
    for length in [0, 1, REPLY - 1] {
        let mut buffer = vec![0xEE; length];
        let turn = unit.stretch(b"noise", 0, &mut buffer);
        assert_eq!(
            (turn.outcome, turn.action, turn.reply),
            (Outcome::BufferShort, Action::Rest, &[][..])
        );
        assert_eq!(
            (buffer, unit.to_bytes()),
            (vec![0xEE; length], fresh.clone())
        );
    }
}

#[test]
fn every_number_is_a_case_or_none() {
    for number in 0..=255 {
        assert_eq!(
            Outcome::from_number(number).map(Outcome::number),
            Some(number).filter(|n| *n <= 18)
        );
        assert_eq!(
            Stored::from_number(number).map(Stored::number),
            Some(number).filter(|n| matches!(n, 0..=3 | 17))
        );
    }
}
