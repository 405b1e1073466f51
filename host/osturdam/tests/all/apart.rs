//! Two units in one program do not touch, nor does a clone its original.

use crate::line::{answered, asked, UNIT};
use osturdam::{Config, ControlOutput, File, Input, Outcome, Stored, Unit};

fn full() -> Config {
    Config::new(UNIT)
        .input(Input(0x30))
        .input(Input(0x40))
        .output(ControlOutput(0x40))
        .file(File(0), 2)
        .block(64)
}

/// Something of each kind of event.
fn busy(unit: &mut Unit) {
    assert_eq!(unit.set_word(Input(0x30), 0x1234), Outcome::Done);
    assert_eq!(unit.pulses(Input(0x40), 9), Outcome::Done);
    assert_eq!(unit.elapsed(61_000), Outcome::Done);
    assert_eq!(unit.store_record(File(0), 1, &[2, 3]), Stored::Stored);
    assert_eq!(asked(unit, 3, 0x20, 0x30, &[0, 0, 6]), Outcome::WriteTaken);
    assert_eq!(asked(unit, 3, 0x20, 0x31, &[5; 64]), Outcome::Done);
    assert_eq!(answered(unit, 3, 0x04, 0x60, &[])[0], 1);
    assert_eq!(answered(unit, 3, 0x10, 0x10, &[0x40]), [0x40]);
}

#[test]
fn two_units_do_not_touch() {
    let mut one = Unit::fresh(full());
    let mut other = Unit::fresh(full());
    let fresh = other.to_bytes();
    busy(&mut one);
    assert_eq!(other.to_bytes(), fresh);
    busy(&mut other);
    assert_eq!(other, one, "the same events make the same unit");
}

#[test]
fn a_clone_goes_its_own_way() {
    let mut unit = Unit::fresh(full());
    busy(&mut unit);
    let before = unit.clone();
    assert_eq!(asked(&mut unit, 3, 0x10, 0x20, &[]), Outcome::Done);
    assert_ne!(unit, before);
    assert_eq!(
        asked(&mut before.clone(), 4, 0x10, 0x20, &[]),
        Outcome::SelectHeld
    );
}
