//! The lag of a stretch: a Set Time is taken with it, and nothing else looks at it.

use crate::line::{answered, frame, frame_to, heard_late, UNIT};
use osturdam::{Config, ControlOutput, File, Hold, Outcome, Unit, LAG};

/// Day 366, 23:59:59.999.
const LAST: [u8; 7] = [0x03, 0x66, 0x23, 0x59, 0x59, 0x03, 0xE7];

fn unit() -> Unit {
    let config = Config::new(UNIT).output(ControlOutput(1));
    Unit::fresh(config.file(File(0), 1))
}

fn set(unit: &mut Unit, time: &[u8], lag: u32) -> Outcome {
    heard_late(unit, &frame(1, 0x20, 0x38, time), lag).0
}

fn time(unit: &mut Unit) -> Vec<u8> {
    answered(unit, 1, 0x28, 0x31, &[])
}

#[test]
fn the_clock_is_the_time_sent_and_the_lag() {
    let cases: [(&[u8; 7], u32, [u8; 7]); 6] = [
        (&LAST, 0, LAST),
        (&LAST, 1, [0, 1, 0, 0, 0, 0, 0]),
        (&LAST, LAG, [0, 1, 0, 0, 0x09, 0x03, 0xE7]),
        (
            &[0, 0x10, 0x09, 0x59, 0x58, 0x03, 0xE7],
            1001,
            [0, 0x10, 0x10, 0, 0, 0, 0],
        ),
        (
            &[0, 0x99, 0x23, 0x59, 0x59, 0, 0],
            1000,
            [1, 0, 0, 0, 0, 0, 0],
        ),
        (
            &[2, 0x01, 0x12, 0x34, 0x56, 0, 1],
            2,
            [2, 0x01, 0x12, 0x34, 0x56, 0, 3],
        ),
    ];
    for (sent, lag, then) in cases {
        let mut unit = unit();
        assert_eq!(set(&mut unit, sent, lag), Outcome::Done);
        assert_eq!(time(&mut unit), then);
    }
}

#[test]
fn a_lag_past_the_limit_is_not_valid_after_the_count() {
    for lag in [LAG + 1, u32::MAX] {
        let mut unit = unit();
        assert_eq!(set(&mut unit, &LAST, lag), Outcome::NotValid);
        assert_eq!(set(&mut unit, &LAST[1..], lag), Outcome::WrongCount);
        let to_all = frame_to(0x7FF, 1, 0x20, 0x38, &LAST);
        assert_eq!(
            heard_late(&mut unit, &to_all, lag).0,
            Outcome::BroadcastRefused
        );
        assert_eq!(time(&mut unit), [0, 1, 0, 0, 0, 0, 0]);
        assert_eq!(
            heard_late(&mut unit, &to_all, LAG).0,
            Outcome::BroadcastDone
        );
        assert_eq!(time(&mut unit), [0, 1, 0, 0, 0x09, 0x03, 0xE7]);
    }
}

#[test]
fn a_lag_ages_nothing_and_no_other_stretch_looks_at_it() {
    let (mut late, mut prompt) = (unit(), unit());
    for (unit, lag) in [(&mut late, u32::MAX), (&mut prompt, 0)] {
        let select = frame(2, 0x10, 0x11, &[1]);
        assert_eq!(heard_late(unit, &select, lag).0, Outcome::Done);
        assert_eq!(unit.elapsed(4000), Outcome::Done);
        let poll = frame(1, 0x00, 0x41, &[]);
        assert_eq!(heard_late(unit, &poll, lag).0, Outcome::Done);
    }
    assert_eq!(late.to_bytes(), prompt.to_bytes());
    assert_eq!(set(&mut late, &LAST, LAG), Outcome::Done);
    let Some(kept) = late.kept().view() else {
        panic!("the unit is in range")
    };
    assert!(matches!(kept.hold, Hold::Held(select) if select.age == 4000));
    assert_eq!(kept.port.silence, 0);
}

#[test]
fn records_have_the_corrected_clock() {
    let mut unit = unit();
    assert_eq!(set(&mut unit, &LAST, 2), Outcome::Done);
    unit.store_record(File(0), 7, &[1]);
    assert_eq!(unit.record(File(0), 0), Some(&[7, 0, 1, 0, 0, 0, 1, 0][..]));
}
