//! Outcome 12 before 6 and 7, and the broadcast apart (readings 27 to 38).

use crate::rig::*;
use independent::{Select, Write};

fn selected() -> Rig {
    let mut rig = Rig::full();
    assert_eq!(rig.ask(1, 0x10, 0x10, &[7]), 0);
    rig
}

#[test]
fn any_other_frame_of_its_master_breaks_the_select() {
    let frames: [(u8, u8, &[u8]); 14] = [
        (0x3F, 0x00, &[]),
        (0x00, 0x02, &[]),
        (0x00, 0x01, &[1]),
        (0x10, 0x20, &[7]),
        (0x50, 0x20, &[]),
        (0x90, 0x20, &[]),
        (0x10, 0x10, &[7]),
        (0x10, 0x11, &[0]),
        (0x10, 0x21, &[]),
        (0x10, 0x10, &[8]),
        (0x20, 0x00, &[]),
        (0x20, 0x30, &[0, 0, 3]),
        (0x28, 0x30, &[0, 0, 9, 9]),
        (0x04, 0x40, &[]),
    ];
    for (function, command, data) in frames {
        let mut rig = selected();
        let mut expected = rig.state.clone();
        expected.select = None;
        let got = rig.send(1, function, command, data);
        assert_eq!((got.outcome, got.action, got.data()), (12, None, &[][..]));
        assert_eq!(rig.state, expected);
        assert_eq!(rig.ask(1, 0x10, 0x20, &[]), 14);
    }
}

#[test]
fn masked_operate_answers_90h() {
    assert_eq!(selected().send(1, 0x50, 0x20, &[]).heard().function, 0x90);
}

#[test]
fn operate_with_data_from_another_master_is_a_wrong_count() {
    let mut rig = selected();
    rig.refused(7, 2, 0x10, 0x20, &[7]);
    rig.refused(7, 2, 0x10, 0x21, &[7]);
}

#[test]
fn breaking_off_drops_a_kept_write_of_that_master() {
    let mut rig = selected();
    rig.state.write = Some(Write {
        master: 1,
        bias: 0,
        ordinal: 6,
        age: 0,
    });
    assert_eq!(rig.ask(1, 0x00, 0x01, &[]), 12);
    assert_eq!(rig.state.write, None);
}

#[test]
fn breaking_off_leaves_another_masters_write() {
    let mut rig = selected();
    assert_eq!(rig.ask(2, 0x20, 0x30, &[0, 0, 6]), 5);
    assert_eq!(rig.ask(1, 0x20, 0x31, &[1]), 12);
    assert_eq!(rig.ask(2, 0x20, 0x31, &[1]), 0);
}

#[test]
fn breaking_off_releases_and_sets_nothing() {
    let mut rig = Rig::full();
    rig.store_events(0, &[1, 2]);
    rig.pulses(0x40, 5);
    rig.send(1, 0x04, 0x40, &[]);
    for (function, command, data) in [
        (0x04, 0x40, &[][..]),
        (0x20, 0x38, &[1, 0x11, 0, 0, 0, 0, 0]),
        (0x20, 0x11, &[0x40]),
        (0x20, 0x00, &[]),
    ] {
        assert_eq!(rig.ask(1, 0x10, 0x10, &[7]), 0);
        let before = rig.state.clone();
        assert_eq!(rig.ask(1, function, command, data), 12);
        assert_eq!(rig.state.select, None);
        rig.state.select = before.select;
        rig.assert_only_port(&before);
        rig.state.select = None;
    }
}

#[test]
fn refused_write_is_answered() {
    let mut rig = selected();
    assert_eq!(rig.send(1, 0x20, 0x30, &[0, 0, 3]).heard().function, 0xA0);
    assert_eq!(rig.send(1, 0x20, 0x30, &[0, 0]).heard().function, 0x60);
    rig.ask(2, 0x20, 0x30, &[0, 0, 3]);
    assert_eq!(rig.send(1, 0x20, 0x30, &[0, 0, 3]).heard().function, 0xA0);
}

#[test]
fn broadcast_never_touches_select_write_or_history() {
    let mut rig = Rig::full();
    rig.store_events(0, &[1, 2]);
    rig.send(1, 0x04, 0x40, &[]);
    rig.ask(1, 0x10, 0x10, &[7]);
    rig.state.write = Some(Write {
        master: 1,
        bias: 0,
        ordinal: 6,
        age: 9,
    });
    for (command, data) in [
        (0x11, &[0x40][..]),
        (0x38, &[0, 1, 0, 0, 0, 0, 0]),
        (0x00, &[]),
    ] {
        let before = rig.state.clone();
        rig.broadcast(1, 0x20, command, data);
        rig.assert_only_port(&before);
    }
    assert_eq!(rig.broadcast(1, 0x10, 0x20, &[]), 16);
    assert_eq!(rig.ask(1, 0x10, 0x20, &[]), 0);
}

#[test]
fn frame_to_another_unit_touches_only_the_silence() {
    let mut rig = selected();
    rig.wait(100);
    let mut expected = rig.state.clone();
    expected.silence = 0;
    assert_eq!(rig.raw(&frame(1, UNIT + 1, 0x00, 0x01, &[])).outcome, 3);
    assert_eq!(rig.state, expected);
    assert_eq!(rig.ask(1, 0x10, 0x20, &[]), 0);
}

#[test]
fn broadcast_is_under_the_usual_checks() {
    let frames: [(u8, u8, &[u8]); 8] = [
        (0x20, 0x11, &[]),
        (0x20, 0x11, &[0x40, 0x40]),
        (0x20, 0x11, &[0x41]),
        (0x20, 0x11, &[0x30]),
        (0x20, 0x38, &[0; 7]),
        (0x20, 0x38, &[0, 1, 0, 0, 0, 0]),
        (0x60, 0x11, &[0x40]),
        (0xA0, 0x38, &[0, 1, 0, 0, 0, 0, 0]),
    ];
    let mut rig = Rig::full();
    rig.pulses(0x40, 3);
    for (function, command, data) in frames {
        let before = rig.state.clone();
        assert_eq!(rig.broadcast(1, function, command, data), 16);
        rig.assert_only_port(&before);
    }
}

#[test]
fn another_masters_select_hinders_only_function_10h() {
    let mut rig = selected();
    let held = rig.state.select;
    assert_eq!(rig.ask(2, 0x00, 0x01, &[]), 0);
    assert_eq!(rig.ask(2, 0x04, 0x40, &[]), 0);
    assert_eq!(rig.load(2, 6, 0, &[1]), 0);
    assert_eq!(rig.ask(2, 0x28, 0x31, &[]), 0);
    assert_eq!(rig.state.select, held);
    assert_eq!(rig.ask(2, 0x10, 0x10, &[7]), 13);
    assert_eq!(rig.ask(2, 0x20, 0x00, &[]), 0);
    assert_eq!(rig.state.select, None::<Select>);
}
