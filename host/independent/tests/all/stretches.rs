//! Stretches, their order of judging, and the port (readings 1 to 20).

use crate::rig::*;
use independent::stretch;

#[test]
fn short_buffer_comes_before_bad_configuration_and_empty_stretch() {
    let mut rig = Rig::full();
    rig.config.unit = 0xFFFF;
    let mut buffer = [0; 519];
    let answer = stretch(
        &rig.config,
        &mut rig.state,
        &mut rig.params,
        &mut buffer,
        &[],
        0,
    );
    assert_eq!(answer.outcome, 18);
}

#[test]
fn empty_stretch_changes_nothing() {
    let mut rig = Rig::full();
    rig.wait(30_000);
    let before = rig.state.clone();
    assert_eq!(rig.raw(&[]).outcome, 1);
    assert_eq!(rig.state, before);
}

#[test]
fn length_is_judged_before_the_check() {
    let mut rig = Rig::full();
    assert_eq!(rig.raw(&frame(1, UNIT, 0, 1, &[0; 200])).outcome, 1);
    let mut wrong = frame(1, UNIT, 0, 1, &[]);
    wrong[4] = 1;
    assert_eq!(rig.raw(&wrong).outcome, 1);
    wrong[4] = 0;
    wrong[5] = 1;
    assert_eq!(rig.raw(&wrong).outcome, 1);
}

#[test]
fn wrong_check_comes_before_the_address() {
    for unit in [ALL, UNIT + 1] {
        let mut rig = Rig::full();
        let mut bytes = frame(1, unit, 0x20, 0x11, &[0x40]);
        bytes[6] ^= 1;
        assert_eq!(rig.raw(&bytes).outcome, 2);
        assert_eq!((rig.state.mark, rig.state.bit2), (2, false));
    }
}

#[test]
fn mark_is_cleared_by_every_answer_and_by_nothing_else() {
    let mut rig = Rig::full();
    let silent = [
        (frame(1, UNIT + 1, 0, 1, &[]), 3),
        (frame(1, ALL, 0x20, 0x11, &[0x40]), 4),
        (frame(1, UNIT, 0x20, 0x30, &[0, 0, 3]), 5),
        (frame(1, ALL, 0, 1, &[]), 16),
    ];
    rig.raw(&[9]);
    for (bytes, outcome) in silent {
        assert_eq!(rig.raw(&bytes).outcome, outcome);
        assert_eq!(rig.state.mark, 2);
    }
    for (function, command, outcome) in [(0x00, 0x01, 0), (0x3F, 0, 6), (0x10, 0x20, 14)] {
        rig.raw(&[9]);
        let got = rig.send(1, function, command, &[]);
        assert_eq!(
            (got.outcome, got.heard().port, rig.state.mark),
            (outcome, 0x56, 0)
        );
    }
}

#[test]
fn every_answered_outcome_carries_mark_and_bit_2_then_clears_them() {
    let frames: [(u8, u8, u8, &[u8]); 11] = [
        (0, 0x00, 0x01, &[]),
        (6, 0x3F, 0x00, &[]),
        (7, 0x00, 0x01, &[1]),
        (8, 0x10, 0x10, &[9]),
        (9, 0x03, 0x00, &[4; 103]),
        (10, 0x04, 0x00, &[]),
        (11, 0x10, 0x20, &[]),
        (12, 0x00, 0x01, &[]),
        (13, 0x10, 0x21, &[]),
        (14, 0x20, 0x31, &[1]),
        (15, 0x20, 0x30, &[0, 0, 3]),
    ];
    for (outcome, function, command, data) in frames {
        let mut rig = Rig::full();
        match outcome {
            11 => rig.state.timed_out = Some(1),
            12 => assert_eq!(rig.ask(1, 0x10, 0x10, &[7]), 0),
            13 => assert_eq!(rig.ask(2, 0x10, 0x10, &[7]), 0),
            15 => assert_eq!(rig.ask(2, 0x20, 0x30, &[0, 0, 3]), 5),
            _ => {}
        }
        rig.state.mark = 1;
        rig.state.bit2 = true;
        let got = rig.send(1, function, command, data);
        let shown = (got.outcome, got.heard().status, got.heard().port);
        assert_eq!(shown, (outcome, 0x84, 0x55));
        assert_eq!((rig.state.mark, rig.state.bit2), (0, false));
    }
}

#[test]
fn silence_starts_anew_with_every_non_empty_stretch() {
    let stretches = [
        vec![1],
        frame(1, UNIT + 1, 0, 1, &[]),
        frame(1, ALL, 0x20, 0x11, &[0x40]),
        frame(1, ALL, 0, 1, &[]),
        frame(1, UNIT, 0x20, 0x30, &[0, 0, 3]),
        frame(1, UNIT, 0, 1, &[]),
        frame(1, UNIT, 0x3F, 1, &[]),
    ];
    for bytes in stretches {
        let mut rig = Rig::full();
        rig.wait(59_999);
        assert_eq!(rig.state.silence, 59_999);
        rig.raw(&bytes);
        assert_eq!(rig.state.silence, 0);
        rig.wait(59_999);
        assert_ne!(rig.state.mark, 1);
        rig.wait(1);
        assert_eq!(rig.state.mark, 1);
    }
}

#[test]
fn silence_mark_outlives_frames_for_others() {
    let mut rig = Rig::full();
    rig.wait(60_000);
    rig.raw(&frame(1, UNIT + 1, 0, 1, &[]));
    assert_eq!((rig.state.silence, rig.state.mark), (0, 1));
    assert_eq!(rig.send(1, 0, 0, &[]).heard().port, 0x55);
    assert_eq!(rig.send(1, 0, 0, &[]).heard().port, 0x54);
}

#[test]
fn silence_mark_comes_at_60000_exactly_from_a_fresh_start() {
    let mut rig = Rig::full();
    rig.wait(59_999);
    assert_eq!(rig.clone().send(1, 0, 0, &[]).heard().port, 0x54);
    rig.wait(1);
    assert_eq!(rig.send(1, 0, 0, &[]).heard().port, 0x55);
}

#[test]
fn silence_count_stays_at_its_limit() {
    let mut rig = Rig::full();
    for _ in 0..3 {
        assert_eq!(rig.wait(u32::MAX), 0);
        assert_eq!((rig.state.silence, rig.state.mark), (60_000, 1));
    }
}

#[test]
fn kept_count_at_the_limit_marks_at_an_elapsed_0() {
    let mut rig = Rig::full();
    rig.state.silence = 60_000;
    rig.state.mark = 2;
    assert_eq!(rig.wait(0), 0);
    assert_eq!(rig.state.mark, 1);
}

#[test]
fn later_mark_stands_in_both_directions() {
    let mut rig = Rig::full();
    rig.wait(30_000);
    rig.raw(&[1]);
    rig.wait(59_999);
    assert_eq!(rig.state.mark, 2);
    rig.wait(1);
    assert_eq!(rig.state.mark, 1);
    rig.raw(&[1]);
    assert_eq!(rig.send(1, 0, 0, &[]).heard().port, 0x56);
}

#[test]
fn two_good_frames_in_one_stretch_are_no_frame() {
    let mut rig = Rig::full();
    let one = frame(1, UNIT, 0, 1, &[]);
    assert_eq!(rig.raw(&[one.clone(), one.clone()].concat()).outcome, 1);
    assert_eq!(rig.raw(&[one, vec![0; 200]].concat()).outcome, 1);
}

#[test]
fn leading_zero_may_make_another_whole_frame() {
    let bytes = [vec![0], frame(1, UNIT, 0, 1, &[])].concat();
    let mut rig = Rig::full();
    assert_eq!(rig.raw(&bytes).outcome, 3);
    rig.config.unit = 0x200;
    assert_eq!(rig.raw(&bytes).outcome, 6);
}

#[test]
fn every_cut_at_the_end_is_no_frame() {
    let mut rig = Rig::full();
    for data in [&[][..], &[7], &[1; 60], &[0; 128]] {
        let whole = frame(1, UNIT, 0x10, 0x11, data);
        for length in 0..whole.len() {
            assert_eq!(rig.raw(&whole[..length]).outcome, 1);
        }
    }
    assert_eq!(rig.state.select, None);
}

#[test]
fn every_change_within_16_sent_bits_is_found() {
    let whole = frame(1, UNIT, 0x10, 0x11, &[7]);
    let bits = whole.len() * 8;
    let mut rig = Rig::full();
    for start in 0..bits {
        for pattern in (1u32..0x1_0000).step_by(2).filter(|p| p % 7 < 3) {
            let mut bytes = whole.clone();
            for bit in (0..16).filter(|bit| pattern >> bit & 1 == 1 && start + bit < bits) {
                bytes[(start + bit) / 8] ^= 1 << ((start + bit) % 8);
            }
            assert!(matches!(independent::Frame::read(&bytes), Err(1 | 2)));
        }
    }
    assert_eq!(rig.raw(&whole).outcome, 0);
}

#[test]
fn function_with_high_bits_is_unknown_and_answers_its_low_six() {
    let mut rig = Rig::full();
    for function in 0x40..=0xFF {
        let got = rig.send(1, function, 0x01, &[]);
        assert_eq!(
            (got.outcome, got.heard().function),
            (6, function & 0x3F | 0x40)
        );
    }
    assert_eq!(rig.send(1, 0xFF, 0, &[]).heard().function, 0x7F);
}

#[test]
fn only_the_seven_functions_are_known() {
    let mut rig = Rig::full();
    let known = [
        (0x00, 0x01),
        (0x03, 0x80),
        (0x04, 0x40),
        (0x0A, 0x41),
        (0x10, 0x20),
        (0x20, 0x00),
    ];
    for (function, command) in known.into_iter().chain([(0x28, 0x31)]) {
        assert_eq!(rig.ask(1, function, command, &[1, 2]), 7);
    }
    for function in (0..=255).filter(|f| ![0, 3, 4, 0x0A, 0x10, 0x20, 0x28].contains(f)) {
        for command in [0x00, 0x01, 0x10, 0x20, 0x30, 0x40, 0x80] {
            assert_eq!(rig.ask(1, function, command, &[]), 6);
        }
    }
}
