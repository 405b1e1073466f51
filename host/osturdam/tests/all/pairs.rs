//! WRITE and EXECUTE in one stretch.

use crate::line::{answered, frame, frame_to, heard, UNIT};
use osturdam::{Config, ControlOutput, Outcome, Unit, FRAME, STRETCH};

/// Ordinal 03 from its start on.
const PLACE: [u8; 3] = [0, 0, 3];

fn unit() -> Unit {
    Unit::fresh(Config::new(UNIT).output(ControlOutput(1)))
}

/// A pair of a master for ordinal 03.
fn pair(unit: u16, master: u8, data: &[u8]) -> Vec<u8> {
    let write = frame_to(unit, master, 0x20, 0x30, &PLACE);
    [write, frame_to(unit, master, 0x20, 0x31, data)].concat()
}

/// Ends as an EXECUTE of the master would then: whether a write of its still waits.
fn left(unit: &mut Unit, master: u8) -> Outcome {
    heard(unit, &frame(master, 0x20, 0x31, &[9])).0
}

#[test]
fn a_pair_is_one_request_with_one_reply() {
    let mut unit = unit();
    let (outcome, _, reply) = heard(&mut unit, &pair(UNIT, 1, &[7, 8]));
    assert_eq!((outcome, reply[2], reply[3]), (Outcome::Done, 0x20, 0x80));
    assert_eq!(answered(&mut unit, 1, 0x28, 0x30, &[0, 0, 3, 3]), [7, 8, 0]);
    assert_eq!(left(&mut unit, 1), Outcome::NothingWaits);
}

#[test]
fn an_execute_without_data_uses_the_write_up() {
    let mut unit = unit();
    assert_eq!(heard(&mut unit, &pair(UNIT, 1, &[])).0, Outcome::WrongCount);
    assert_eq!(left(&mut unit, 1), Outcome::NothingWaits);
}

#[test]
fn a_refused_write_is_the_one_answer() {
    let mut unit = unit();
    heard(&mut unit, &frame(2, 0x20, 0x30, &PLACE));
    assert_eq!(heard(&mut unit, &pair(UNIT, 1, &[7])).0, Outcome::WriteHeld);
    assert_eq!(left(&mut unit, 2), Outcome::Done);
    answered(&mut unit, 1, 0x10, 0x11, &[1]);
    let (outcome, _, reply) = heard(&mut unit, &pair(UNIT, 1, &[7]));
    assert_eq!((outcome, reply[2]), (Outcome::BrokenOff, 0xA0));
    assert_eq!(left(&mut unit, 1), Outcome::NothingWaits);
}

#[test]
fn to_another_unit_and_to_all() {
    let mut unit = unit();
    let another = heard(&mut unit, &pair(UNIT + 1, 1, &[7]));
    assert_eq!((another.0, another.2.len()), (Outcome::OtherUnit, 0));
    let all = heard(&mut unit, &pair(0x7FF, 1, &[7]));
    assert_eq!((all.0, all.2.len()), (Outcome::BroadcastRefused, 0));
    assert_eq!(heard(&mut unit, &frame(1, 0x28, 0x31, &[])).2[3], 0x84);
}

#[test]
fn the_longest_and_one_more() {
    let longest = pair(UNIT, 1, &[7; 128]);
    let ends = (longest.len(), heard(&mut unit(), &longest).0);
    assert_eq!(ends, (STRETCH, Outcome::Done));
    let longer = pair(UNIT, 1, &[7; 129]);
    let ends = (longer.len(), heard(&mut unit(), &longer).0);
    assert_eq!(ends, (STRETCH + 1, Outcome::NotWhole));
    let past_a_frame = pair(UNIT, 1, &[7; 118]);
    let ends = (past_a_frame.len(), heard(&mut unit(), &past_a_frame).0);
    assert_eq!(ends, (FRAME + 1, Outcome::Done));
}

#[test]
fn cut_anywhere_but_at_the_seam_neither_is_acted_on() {
    let good = pair(UNIT, 1, &[7, 8]);
    for cut in 0..good.len() {
        let mut unit = unit();
        let at_seam = cut == 11;
        let ends = if at_seam {
            Outcome::WriteTaken
        } else {
            Outcome::NotWhole
        };
        assert_eq!(heard(&mut unit, &good[..cut]).0, ends);
        let after = if at_seam {
            Outcome::Done
        } else {
            Outcome::NothingWaits
        };
        assert_eq!(left(&mut unit, 1), after);
    }
}

#[test]
fn changed_within_sixteen_bits_neither_is_acted_on() {
    let good = pair(UNIT, 1, &[7, 8]);
    for first in 0..8 * good.len() {
        for mask in [0x0001_u16, 0x8001, 0xFFFF, 0x0180] {
            let mut bytes = good.clone();
            for at in (0..16).filter(|i| mask >> i & 1 == 1).map(|i| first + i) {
                if let Some(byte) = bytes.get_mut(at / 8) {
                    *byte ^= 1 << (at % 8);
                }
            }
            let mut unit = unit();
            let outcome = heard(&mut unit, &bytes).0;
            let changed = bytes != good;
            assert_eq!(outcome == Outcome::Done, !changed);
            if changed {
                assert!(matches!(outcome, Outcome::NotWhole | Outcome::CheckWrong));
                assert_eq!(left(&mut unit, 1), Outcome::NothingWaits);
            }
        }
    }
}

#[test]
fn what_is_no_pair_is_no_whole_frame() {
    let write = |master| frame(master, 0x20, 0x30, &PLACE);
    let execute = |master| frame(master, 0x20, 0x31, &[7]);
    let stretches = [
        [write(1), execute(2)].concat(),
        [write(1), frame_to(UNIT + 1, 1, 0x20, 0x31, &[7])].concat(),
        [execute(1), write(1)].concat(),
        [write(1), write(1)].concat(),
        [write(1), execute(1), execute(1)].concat(),
        [write(1), execute(1), vec![0]].concat(),
        [write(1), frame(1, 0x28, 0x31, &[])].concat(),
        [frame(1, 0x20, 0x30, &[0, 0, 3, 0]), execute(1)].concat(),
    ];
    for stretch in stretches {
        let mut unit = unit();
        assert_eq!(heard(&mut unit, &stretch).0, Outcome::NotWhole);
        assert_eq!(left(&mut unit, 1), Outcome::NothingWaits);
    }
}
