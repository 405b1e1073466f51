//! WRITE and EXECUTE in one stretch (document 02, request 5).

use crate::rig::*;
use independent::{Select, Stretch, Write};

/// A WRITE to the block at the bias, by master 1.
fn write(bias: u16, ordinal: u8) -> Vec<u8> {
    let [low, high] = bias.to_le_bytes();
    frame(1, UNIT, 0x20, 0x30, &[low, high, ordinal])
}

/// An EXECUTE of master 1.
fn execute(data: &[u8]) -> Vec<u8> {
    frame(1, UNIT, 0x20, 0x31, data)
}

/// Both with no idle mark between.
fn pair(bias: u16, ordinal: u8, data: &[u8]) -> Vec<u8> {
    [write(bias, ordinal), execute(data)].concat()
}

/// Every stretch is no frame, and leaves only the mark.
fn no_frame(stretches: &[Vec<u8>]) {
    for bytes in stretches {
        let mut rig = Rig::full();
        let before = rig.state.clone();
        assert_eq!(rig.raw(bytes).outcome, 1, "{bytes:02X?}");
        rig.assert_only_port(&before);
        assert_eq!(rig.state.mark, 2);
    }
}

#[test]
fn pair_is_written_and_only_the_execute_is_answered() {
    let mut rig = Rig::full();
    let got = rig.raw(&pair(2, 6, &[0xAA, 0xBB]));
    assert_eq!((got.outcome, got.heard().function), (0, 0x20));
    assert_eq!((got.data(), got.bytes.len()), (&[][..], 9));
    assert_eq!(rig.params[..5], [0, 0, 0xAA, 0xBB, 0]);
    assert_eq!(rig.state.write, None);
}

#[test]
fn pair_goes_from_19_to_147_characters() {
    assert_eq!(Stretch::LONGEST, 147);
    let mut rig = Rig::full();
    for (count, outcome) in [(0, 7), (1, 0), (117, 0), (118, 0), (128, 0)] {
        let bytes = pair(0, 3, &vec![0x11; count]);
        assert_eq!(bytes.len(), 19 + count);
        assert_eq!(rig.raw(&bytes).outcome, outcome);
        assert_eq!(rig.state.write, None);
    }
    no_frame(&[pair(0, 3, &[0x11; 129])]);
}

#[test]
fn execute_of_a_pair_is_judged_as_alone() {
    let mut rig = Rig::full();
    let cases = [
        (0, 1, 8),
        (15, 0, 0),
        (16, 0, 8),
        (0xFFFF, 3, 8),
        (19, 6, 0),
    ];
    for (bias, ordinal, outcome) in cases {
        assert_eq!(rig.raw(&pair(bias, ordinal, &[1])).outcome, outcome);
        assert_eq!(rig.state.write, None);
    }
}

#[test]
fn reply_shows_status_and_mark_as_the_stretch_found_them() {
    let mut rig = Rig::full();
    (rig.state.bit2, rig.state.bit3, rig.state.mark) = (true, true, 1);
    let got = rig.raw(&pair(0, 3, &[0]));
    assert_eq!((got.heard().status, got.heard().port), (0x8C, 0x55));
    let got = rig.raw(&pair(0, 0, &[0]));
    assert_eq!((got.heard().status, got.heard().port), (0x08, 0x54));
    assert_eq!(rig.state.status(), 0);
}

#[test]
fn own_earlier_write_is_replaced_and_gone_after() {
    let mut rig = Rig::full();
    assert_eq!(rig.raw(&write(0, 6)).outcome, 5);
    assert_eq!(rig.raw(&pair(4, 6, &[9])).outcome, 0);
    assert_eq!((rig.params[0], rig.params[4]), (0, 9));
    assert_eq!(rig.raw(&execute(&[7])).outcome, 14);
}

#[test]
fn live_select_of_its_master_makes_the_pair_12() {
    let mut rig = Rig::full();
    rig.ask(1, 0x10, 0x10, &[7]);
    let got = rig.raw(&pair(0, 6, &[1]));
    assert_eq!((got.outcome, got.heard().function), (12, 0xA0));
    assert_eq!((rig.state.select, rig.state.write), (None, None));
    assert_eq!(rig.params, [0; 20]);
}

#[test]
fn live_select_of_another_master_does_not_hinder_the_pair() {
    let mut rig = Rig::full();
    rig.ask(2, 0x10, 0x10, &[7]);
    assert_eq!(rig.raw(&pair(0, 6, &[1])).outcome, 0);
    assert!(rig.state.select.is_some() && rig.params[0] == 1);
}

#[test]
fn write_of_another_master_makes_the_pair_15_and_stays() {
    let mut rig = Rig::full();
    rig.ask(2, 0x20, 0x30, &[0, 0, 6]);
    let before = rig.state.write;
    for data in [&[1][..], &[]] {
        let got = rig.raw(&pair(0, 6, data));
        assert_eq!((got.outcome, got.heard().function), (15, 0xA0));
        assert_eq!((rig.state.write, rig.params[0]), (before, 0));
    }
}

#[test]
fn select_comes_before_the_write_of_another() {
    let mut rig = Rig::full();
    rig.ask(2, 0x20, 0x30, &[0, 0, 6]);
    rig.ask(1, 0x10, 0x10, &[7]);
    assert_eq!(rig.raw(&pair(0, 6, &[1])).outcome, 12);
    assert_eq!(rig.raw(&pair(0, 6, &[1])).outcome, 15);
}

#[test]
fn pair_for_another_unit_is_3_and_to_broadcast_16() {
    let mut rig = Rig::full();
    rig.raw(&[9]);
    let pair_to = |unit| {
        let first = frame(1, unit, 0x20, 0x30, &[0, 0, 6]);
        [first, frame(1, unit, 0x20, 0x31, &[1])].concat()
    };
    let before = rig.state.clone();
    assert_eq!(rig.raw(&pair_to(UNIT + 1)).outcome, 3);
    assert_eq!(rig.state, before);
    rig.state.select = Some(Select {
        master: 1,
        output: 7,
        close: true,
        age: 0,
    });
    let before = rig.state.clone();
    assert_eq!(rig.raw(&pair_to(ALL)).outcome, 16);
    rig.assert_only_port(&before);
    assert_eq!((rig.state.bit2, rig.state.mark), (true, 2));
}

#[test]
fn two_addresses_make_no_pair() {
    let others = [(2, UNIT), (1, UNIT + 1), (1, ALL)];
    no_frame(
        &others.map(|(master, unit)| [write(0, 6), frame(master, unit, 0x20, 0x31, &[1])].concat()),
    );
    no_frame(&others.map(|(master, unit)| {
        let first = frame(master, unit, 0x20, 0x30, &[0, 0, 6]);
        [first, execute(&[1])].concat()
    }));
}

#[test]
fn wrong_check_in_either_makes_no_pair() {
    let whole = pair(0, 6, &[1, 2]);
    for place in [9, 10, whole.len() - 2, whole.len() - 1] {
        let mut bytes = whole.clone();
        bytes[place] ^= 0x10;
        no_frame(&[bytes]);
    }
}

#[test]
fn first_count_that_spans_all_makes_it_a_frame_with_a_wrong_check() {
    let mut bytes = pair(0, 6, &[1, 2]);
    bytes[4] = (bytes.len() - 8) as u8;
    let mut rig = Rig::full();
    assert_eq!(rig.raw(&bytes).outcome, 2);
    assert_eq!(rig.params, [0; 20]);
}

#[test]
fn anything_else_in_one_stretch_stays_1() {
    let (first, second) = (write(0, 6), execute(&[1]));
    let with = |function, command, data: &[u8]| frame(1, UNIT, function, command, data);
    no_frame(&[
        [&second[..], &first[..]].concat(),
        [&first[..], &first[..]].concat(),
        [&first[..], &second[..], &second[..]].concat(),
        [&first[..], &second[..], &[0]].concat(),
        [&[0], &first[..], &second[..]].concat(),
        [first.clone(), with(0x00, 0x01, &[])].concat(),
        [first.clone(), with(0x20, 0x00, &[])].concat(),
        [first.clone(), with(0x60, 0x31, &[1])].concat(),
        [first.clone(), with(0x20, 0x71, &[1])].concat(),
        [with(0x20, 0x30, &[0, 0]), second.clone()].concat(),
        [with(0x20, 0x30, &[0, 0, 6, 0]), second.clone()].concat(),
        [with(0xA0, 0x30, &[0, 0, 6]), second.clone()].concat(),
        [with(0x20, 0x38, &[0, 0, 6]), second].concat(),
    ]);
}

#[test]
fn every_cut_is_no_frame_but_that_at_the_seam() {
    let whole = pair(0, 6, &[1, 2, 3]);
    for length in 0..whole.len() {
        let mut rig = Rig::full();
        let outcome = if length == 11 { 5 } else { 1 };
        assert_eq!(rig.raw(&whole[..length]).outcome, outcome);
        assert_eq!(rig.state.write.is_some(), length == 11);
    }
}

#[test]
fn cut_at_the_seam_is_judged_as_the_write() {
    let seam = &pair(0, 6, &[1])[..11];
    let mut rig = Rig::full();
    rig.ask(1, 0x10, 0x10, &[7]);
    assert_eq!(rig.raw(seam).outcome, 12);
    rig.ask(2, 0x20, 0x30, &[0, 0, 6]);
    assert_eq!(rig.raw(seam).outcome, 15);
}

#[test]
fn every_change_within_16_sent_bits_is_found_over_the_seam_too() {
    let whole = pair(0, 6, &[1]);
    let bits = whole.len() * 8;
    for start in 0..bits {
        for pattern in (1u32..0x1_0000).step_by(2).filter(|p| p % 7 < 3) {
            let mut bytes = whole.clone();
            for bit in (0..16).filter(|bit| pattern >> bit & 1 == 1 && start + bit < bits) {
                bytes[(start + bit) / 8] ^= 1 << ((start + bit) % 8);
            }
            assert!(matches!(Stretch::read(&bytes), Err(1 | 2)));
        }
    }
}

/// A unit in which any of what a pair meets may stand.
fn met(case: usize) -> Rig {
    let mut rig = Rig::full();
    let select = |master| Select {
        master,
        output: 7,
        close: false,
        age: 5_000,
    };
    rig.state.select = [None, Some(select(1)), Some(select(2))][case % 3];
    let write = |master| Write {
        master,
        bias: 1,
        ordinal: 6,
        age: 5_000,
    };
    rig.state.write = [None, Some(write(1)), Some(write(2))][case / 3 % 3];
    (rig.state.bit2, rig.state.mark) = (case / 9 % 2 == 1, (case / 18 % 3) as u8);
    rig
}

#[test]
fn pair_does_what_the_two_frames_do_but_a_refused_write_ends_it() {
    for case in 0..54 {
        for (ordinal, data) in [
            (6, &[1, 2][..]),
            (3, &[0]),
            (0, &[0; 17]),
            (1, &[0]),
            (6, &[]),
        ] {
            let (mut both, mut apart) = (met(case), met(case));
            let got = both.raw(&pair(0, ordinal, data));
            let first = apart.raw(&write(0, ordinal));
            let expected = match first.outcome {
                5 => apart.raw(&execute(data)),
                _ => first,
            };
            assert_eq!((got, both.state), (expected, apart.state));
            assert_eq!(both.params, apart.params);
        }
    }
}
