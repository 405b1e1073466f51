//! Bench cases 1 to 12 of document 01 and its bench lines.

use crate::line::{answered, asked, frame, frame_to, heard, UNIT};
use osturdam::{Action, Config, ControlOutput, File, Input, Outcome, Stored, Unit, FRAME, ROOM};

fn bench() -> Unit {
    Unit::fresh(Config::new(UNIT).input(Input(0x30)).input(Input(0x40)))
}

#[test]
fn cases_1_to_4_checks_and_address() {
    assert_eq!(
        frame_to(1234, 1, 0x00, 0x41, &[]),
        [0xD2, 0x0C, 0x00, 0x41, 0x00, 0x00, 0x52, 0x67]
    );
    assert_eq!(
        frame_to(1234, 0, 0x00, 0x49, &[]),
        [0xD2, 0x04, 0x00, 0x49, 0x00, 0x00, 0x32, 0x64]
    );
    assert_eq!(
        frame_to(1, 0, 0x00, 0x49, &[]),
        [0x01, 0x00, 0x00, 0x49, 0x00, 0x00, 0xD0, 0x07]
    );
    for (unit, master, own) in [(1234, 1, true), (1234, 0, true), (1, 0, false)] {
        let (outcome, _, _) = heard(&mut bench(), &frame_to(unit, master, 0x00, 0x49, &[]));
        assert_eq!(
            outcome,
            if own {
                Outcome::Done
            } else {
                Outcome::OtherUnit
            }
        );
    }
}

#[test]
fn case_5_port_status() {
    let mut unit = bench();
    assert_eq!(heard(&mut unit, &frame(1, 0x00, 0x41, &[])).2[4], 0x54);
    let mut damaged = frame(1, 0x00, 0x41, &[]);
    damaged[6] ^= 1;
    assert_eq!(heard(&mut unit, &damaged).0, Outcome::CheckWrong);
    assert_eq!(heard(&mut unit, &frame(1, 0x00, 0x41, &[])).2[4], 0x56);
}

#[test]
fn case_6_longest_frame() {
    let longest = frame(1, 0x00, 0x41, &[0; 128]);
    assert_eq!(
        (longest.len(), heard(&mut bench(), &longest).0),
        (FRAME, Outcome::WrongCount)
    );
    let longer = frame(1, 0x00, 0x41, &[0; 129]);
    assert_eq!(
        (longer.len(), heard(&mut bench(), &longer).0),
        (FRAME + 1, Outcome::NotWhole)
    );
}

#[test]
fn cases_7_and_8_operate_in_time_and_late() {
    let operate = |ms| {
        let mut unit = Unit::fresh(Config::new(UNIT).output(ControlOutput(0x40)));
        assert_eq!(answered(&mut unit, 1, 0x10, 0x11, &[0x40]), [0x40]);
        assert_eq!(unit.elapsed(ms), Outcome::Done);
        let (outcome, action, _) = heard(&mut unit, &frame(1, 0x10, 0x20, &[]));
        (outcome, action)
    };
    assert_eq!(
        operate(5_000),
        (Outcome::Done, Action::Close(ControlOutput(0x40)))
    );
    assert_eq!(operate(5_001), (Outcome::SelectTimedOut, Action::Rest));
}

#[test]
fn case_9_pulses_wrap() {
    let mut unit = bench();
    assert_eq!(unit.pulses(Input(0x40), 65_535), Outcome::Done);
    assert_eq!(unit.word(Input(0x40)), 65_535);
    assert_eq!(unit.pulses(Input(0x40), 1), Outcome::Done);
    assert_eq!(unit.word(Input(0x40)), 0);
}

#[test]
fn cases_10_and_12_a_full_file() {
    let mut unit = Unit::fresh(Config::new(UNIT).file(File(3), 16));
    for event in 0..ROOM {
        assert_eq!(
            unit.store_record(File(3), event as u8, &[7; 16]),
            Stored::Stored
        );
    }
    assert_eq!(unit.store_record(File(3), 0, &[7; 16]), Stored::FileFull);
    let dump = answered(&mut unit, 1, 0x04, 0x63, &[]);
    assert_eq!((dump[0], dump.len()), (0x80 | 13, 1 + 13 * 38));
}

#[test]
fn a_full_file_that_keeps_the_newest_spares_what_was_sent() {
    let file = File(3);
    let config = Config::new(UNIT).file(file, 4);
    assert!(config.keeps_oldest(file));
    let mut unit = Unit::fresh(config.newest(file));
    assert!(!unit.config().keeps_oldest(file));
    let store = |unit: &mut Unit, event| unit.store_record(file, event, &[7; 4]);
    let events = |unit: &Unit| -> Vec<u8> {
        let of = |record| unit.record(file, record).map(|chars| chars[0]);
        (0..ROOM as u8).filter_map(of).collect()
    };
    for event in 0..32 {
        assert_eq!(store(&mut unit, event), Stored::Stored);
    }
    // record 0 is sent, and stays while 1 is dropped
    assert_eq!(answered(&mut unit, 1, 0x04, 0x43, &[])[0], 0x81);
    assert_eq!(store(&mut unit, 32), Stored::Stored);
    assert_eq!(events(&unit)[..2], [0, 2]);
    assert_eq!((unit.held(file), unit.dropped(file)), (Some(32), Some(1)));
    assert_eq!(
        (unit.dropped(File(31)), unit.dropped(File(32))),
        (Some(0), None)
    );
    // it is released, and the next 31 and a new one are all in the reply: none may go
    assert_eq!(store(&mut unit, 33), Stored::Stored);
    assert_eq!(answered(&mut unit, 2, 0x04, 0x63, &[])[0], 32);
    assert_eq!(store(&mut unit, 34), Stored::FileFull);
    assert_eq!((events(&unit).len(), unit.dropped(file)), (32, Some(2)));
}

#[test]
fn case_11_days() {
    let set = |day| asked(&mut bench(), 1, 0x20, 0x38, &[0x03, day, 0, 0, 0, 0, 0]);
    assert_eq!((set(0x66), set(0x67)), (Outcome::Done, Outcome::NotValid));
}

#[test]
fn bench_lines() {
    let mut unit = bench();
    assert_eq!(
        heard(&mut unit, &[0xD2, 0x0C, 0x00, 0x41, 0x00, 0x00, 0x53, 0x67]),
        (Outcome::CheckWrong, Action::Rest, vec![])
    );
    let (outcome, _, reply) = heard(&mut unit, &[0xD2, 0x0C, 0x00, 0x41, 0x00, 0x00, 0x52, 0x67]);
    let printed = [
        0xD2, 0x0C, 0x00, 0x80, 0x56, 0x04, 0x00, 0x00, 0x00, 0x00, 0x00, 0x5C, 0xA5,
    ];
    assert_eq!((outcome, &reply[..]), (Outcome::Done, &printed[..]));
    assert_eq!(
        heard(&mut unit, &[0x01, 0x00, 0x00, 0x49, 0x00, 0x00, 0xD0, 0x07]).0,
        Outcome::OtherUnit
    );
}
