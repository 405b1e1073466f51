//! The four slips that document 01 warns of.

use crate::rig::*;

#[test]
fn another_master_does_not_acknowledge() {
    let mut rig = Rig::full();
    rig.store_events(0, &[1, 2]);
    let first = rig.send(1, 0x04, 0x40, &[]);
    let other = rig.send(2, 0x04, 0x40, &[]);
    assert_eq!(first.data(), other.data());
    assert_eq!(rig.events(0), [1, 2]);
    assert_eq!(rig.send(1, 0x04, 0x40, &[]).data(), first.data());
    assert_eq!(rig.events(0), [1, 2]);
    assert_eq!(rig.send(1, 0x04, 0x40, &[]).data()[..2], [1, 2]);
    assert_eq!(rig.events(0), [2]);
}

#[test]
fn flag_of_a_repeat_is_the_remembered_one() {
    let mut rig = Rig::full();
    rig.store_events(0, &[1]);
    let first = rig.send(1, 0x04, 0x40, &[]);
    assert_eq!(first.data()[0], 1);
    rig.store_events(0, &[2]);
    let again = rig.send(1, 0x04, 0x00, &[]);
    assert_eq!((again.outcome, again.data()), (0, first.data()));
}

#[test]
fn nibbles_are_not_followed_to_a_second_level() {
    let mut rig = Rig::full();
    for (number, word) in [(0x30, 0x0101), (0x3F, 0x0202), (0x80, 0x0303)] {
        rig.word(number, word);
    }
    // Table 1 names table 2, and table 2 names table 3 and an absent one.
    let tables = [0x20, 1, 0x30, 0x3F, 1, 0x3F, 0x00, 1, 0x80];
    assert_eq!(rig.load(1, 3, 0, &tables), 0);
    let got = rig.send(1, 0x0A, 0x41, &[]);
    assert_eq!((got.outcome, got.data()), (0, &[2, 2, 1, 1][..]));
}

#[test]
fn no_broadcast_is_answered() {
    let mut rig = Rig::full();
    for function in 0..=255 {
        for (command, data) in [
            (0x00, &[][..]),
            (0x11, &[0x40]),
            (0x30, &[0, 0, 3]),
            (0x41, &[]),
        ] {
            let got = rig.raw(&frame(1, ALL, function, command, data));
            assert_eq!(got.bytes, []);
            assert!(got.outcome == 16 || (function, command, got.outcome) == (0x20, 0x11, 4));
        }
    }
}
