//! Every outcome number, with what it sends and what it leaves alone.

use crate::rig::*;
use independent::{stretch, Action, State};

#[test]
fn outcome_0_done_sends_a_normal_reply() {
    let mut rig = Rig::full();
    rig.word(0x30, 0xBEEF);
    let got = rig.send(1, 0x00, 0x01, &[]);
    assert_eq!(got.outcome, 0);
    assert_eq!(
        got.bytes[..11],
        [0xD2, 0x0C, 0x00, 0x80, 0x54, 4, 0, 0xEF, 0xBE, 0, 0]
    );
}

#[test]
fn outcome_1_no_whole_frame_stays_unanswered() {
    let mut rig = Rig::full();
    let good = frame(1, UNIT, 0x00, 0x01, &[]);
    for bytes in [&[][..], &[0xFF; 7], &[0; 137], &[0; 5000], &good[..7]] {
        assert_eq!(rig.raw(bytes).outcome, 1);
    }
    let mut longer = good.clone();
    longer.push(0);
    assert_eq!(rig.raw(&longer).outcome, 1);
}

#[test]
fn outcome_2_wrong_check_stays_unanswered() {
    let mut rig = Rig::full();
    let good = frame(1, UNIT, 0x00, 0x01, &[]);
    for place in [0, 1, 2, 3, 6, 7] {
        let mut bad = good.clone();
        bad[place] ^= 0x10;
        let before = rig.state.clone();
        assert_eq!(rig.raw(&bad).outcome, 2);
        rig.assert_only_port(&before);
    }
}

#[test]
fn outcome_3_another_unit_stays_unanswered() {
    let mut rig = Rig::full();
    for unit in [0, UNIT - 1, UNIT + 1, 0x7FE] {
        assert_eq!(rig.raw(&frame(1, unit, 0x00, 0x01, &[])).outcome, 3);
    }
}

#[test]
fn outcome_4_broadcast_carried_out() {
    let mut rig = Rig::full();
    rig.pulses(0x40, 9);
    assert_eq!(rig.broadcast(1, 0x20, 0x11, &[0x40]), 4);
    assert_eq!(rig.state.words[0x40], 0);
    assert_eq!(
        rig.broadcast(1, 0x20, 0x38, &[0, 0x12, 0x23, 0x59, 0x58, 1, 2]),
        4
    );
    assert_eq!(rig.state.clock.day, 12);
}

#[test]
fn outcome_5_write_taken_sends_nothing() {
    let mut rig = Rig::full();
    assert_eq!(rig.ask(1, 0x20, 0x30, &[0, 0, 3]), 5);
    assert!(rig.state.write.is_some());
}

#[test]
fn outcome_6_unknown_function_or_command() {
    let mut rig = Rig::full();
    for function in [
        0x01, 0x02, 0x05, 0x11, 0x25, 0x3F, 0x40, 0x43, 0x83, 0xA0, 0xFF,
    ] {
        rig.refused(6, 1, function, 0x00, &[]);
    }
    for (function, command) in [(0x00, 0x02), (0x03, 0x01), (0x04, 0x80), (0x0A, 0x40)] {
        rig.refused(6, 1, function, command, &[]);
    }
    for (function, command) in [(0x10, 0x22), (0x20, 0x10), (0x28, 0x00), (0x28, 0x32)] {
        rig.refused(6, 1, function, command, &[]);
    }
}

#[test]
fn outcome_7_wrong_data_count() {
    let mut rig = Rig::full();
    let one: [(u8, u8); 7] = [
        (0x00, 1),
        (0x03, 0x80),
        (0x04, 0x40),
        (0x0A, 0x41),
        (0x10, 0x20),
        (0x10, 0x21),
        (0x20, 0),
    ];
    for (function, command) in one {
        rig.refused(7, 1, function, command, &[0]);
    }
    for (function, command) in [
        (0x03, 0),
        (0x10, 0x10),
        (0x10, 0x11),
        (0x20, 0x11),
        (0x20, 0x31),
    ] {
        rig.refused(7, 1, function, command, &[]);
    }
    for (function, command) in [(0x20, 0x30), (0x20, 0x38), (0x28, 0x30), (0x28, 0x31)] {
        rig.refused(7, 1, function, command, &[1, 2]);
    }
}

#[test]
fn outcome_8_not_valid_or_not_equipped() {
    let mut rig = Rig::full();
    rig.refused(8, 1, 0x10, 0x10, &[0x08]);
    rig.refused(8, 1, 0x20, 0x11, &[0x41]);
    rig.refused(8, 1, 0x04, 0x42, &[]);
    rig.refused(8, 1, 0x0A, 0x41, &[]);
    rig.refused(8, 1, 0x03, 0x00, &[0x05]);
    rig.refused(8, 1, 0x28, 0x30, &[0, 0, 1, 1]);
    rig.refused(8, 1, 0x20, 0x38, &[0, 0, 0, 0, 0, 0, 0]);
}

#[test]
fn outcome_9_reply_data_over_511() {
    let mut rig = Rig::full();
    rig.config.calculations[..0x80].fill(true);
    rig.refused(9, 1, 0x03, 0x80, &[]);
    rig.refused(9, 1, 0x03, 0x00, &[4; 103]);
}

#[test]
fn outcome_10_nothing_to_send_again() {
    let mut rig = Rig::full();
    rig.refused(10, 1, 0x04, 0x00, &[]);
    rig.refused(10, 1, 0x04, 0x20, &[]);
}

#[test]
fn outcome_11_own_select_timed_out() {
    let mut rig = Rig::full();
    rig.ask(1, 0x10, 0x10, &[7]);
    rig.wait(5_001);
    assert_eq!(rig.state.timed_out, Some(1));
    assert_eq!(rig.ask(1, 0x10, 0x20, &[]), 11);
    assert_eq!(rig.state.timed_out, None);
}

#[test]
fn outcome_12_own_select_broken_off() {
    let mut rig = Rig::full();
    rig.ask(1, 0x10, 0x10, &[7]);
    let got = rig.send(1, 0x00, 0x01, &[]);
    assert_eq!((got.outcome, got.data()), (12, &[][..]));
    assert_eq!(rig.state.select, None);
}

#[test]
fn outcome_13_select_of_another_master() {
    let mut rig = Rig::full();
    rig.ask(1, 0x10, 0x10, &[7]);
    rig.refused(13, 2, 0x10, 0x11, &[7]);
    rig.refused(13, 2, 0x10, 0x20, &[]);
    rig.refused(13, 2, 0x10, 0x21, &[]);
    let action = Some(Action {
        output: 7,
        close: false,
    });
    assert_eq!(rig.send(1, 0x10, 0x20, &[]).action, action);
}

#[test]
fn outcome_14_no_select_and_no_write_waits() {
    let mut rig = Rig::full();
    rig.refused(14, 1, 0x10, 0x20, &[]);
    rig.refused(14, 1, 0x10, 0x21, &[]);
    rig.refused(14, 1, 0x20, 0x31, &[1]);
}

#[test]
fn outcome_15_write_of_another_master() {
    let mut rig = Rig::full();
    assert_eq!(rig.ask(1, 0x20, 0x30, &[0, 0, 6]), 5);
    rig.refused(15, 2, 0x20, 0x30, &[0, 0, 6]);
    rig.refused(15, 2, 0x20, 0x31, &[1]);
    assert_eq!(rig.ask(1, 0x20, 0x31, &[9]), 0);
    assert_eq!(rig.params[0], 9);
}

#[test]
fn outcome_16_broadcast_not_carried_out() {
    let mut rig = Rig::full();
    for (function, command) in [
        (0x00, 0x01),
        (0x20, 0x00),
        (0x10, 0x20),
        (0x04, 0x40),
        (0x3F, 0),
    ] {
        let before = rig.state.clone();
        assert_eq!(rig.broadcast(1, function, command, &[]), 16);
        rig.assert_only_port(&before);
    }
}

#[test]
fn outcome_17_no_valid_configuration_answers_everything() {
    let mut rig = Rig::full();
    rig.config.unit = 0x7FF;
    rig.state.silence = 59_999;
    let before = rig.state.clone();
    assert_eq!(rig.raw(&frame(1, UNIT, 0x00, 0x01, &[])).outcome, 17);
    assert_eq!(rig.raw(&[]).outcome, 17);
    assert_eq!(rig.raw(&[1, 2, 3]).outcome, 17);
    assert_eq!(rig.broadcast(1, 0x20, 0x11, &[0x40]), 17);
    assert_eq!([rig.wait(1), rig.word(0x30, 1), rig.value(4, 1)], [17; 3]);
    assert_eq!([rig.store(0, 1, &[1]), rig.pulses(0x40, 1)], [17; 2]);
    assert_eq!(rig.state, before);
}

#[test]
fn outcome_18_short_buffer_changes_nothing() {
    let mut rig = Rig::full();
    rig.wait(60_000);
    let before = rig.state.clone();
    let asked = frame(1, UNIT, 0x00, 0x00, &[]);
    for length in [0, 8, 519] {
        let mut buffer = vec![0xA5; length];
        let answer = stretch(
            &rig.config,
            &mut rig.state,
            &mut rig.params,
            &mut buffer,
            &asked,
            0,
        );
        assert_eq!((answer.outcome, answer.sent, answer.action), (18, 0, None));
        assert!(buffer.iter().all(|&byte| byte == 0xA5));
    }
    assert_eq!(rig.state, before);
    let mut buffer = [0; 520];
    let answer = stretch(
        &rig.config,
        &mut rig.state,
        &mut rig.params,
        &mut buffer,
        &asked,
        0,
    );
    assert_eq!((answer.outcome, answer.sent), (0, 9));
}

#[test]
fn fresh_unit_is_all_zero_at_day_1() {
    let state = State::fresh();
    let clock = (state.clock.day, state.clock.hour, state.clock.minute);
    assert_eq!(
        (clock, state.clock.second, state.clock.ms),
        ((1, 0, 0), 0, 0)
    );
    assert_eq!((state.bit7, state.bit3, state.bit2), (true, false, false));
    assert!(state.files.len() == 32 && state.files.iter().all(Vec::is_empty));
    assert!(state.words == [0; 256] && state.values == [0; 128] && state.dropped == [0; 32]);
    assert!(state.changed == [0; 32] && state.samples.iter().all(Vec::is_empty));
    assert_eq!((state.silence, state.mark), (0, 0));
}
