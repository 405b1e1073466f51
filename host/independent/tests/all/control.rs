//! Select and operate (readings 39 to 48).

use crate::rig::*;
use independent::{Action, Select};

fn select_by(master: u8) -> Rig {
    let mut rig = Rig::full();
    assert_eq!(rig.ask(master, 0x10, 0x10, &[7]), 0);
    rig
}

#[test]
fn select_is_judged_count_then_number_then_holder() {
    let mut rig = select_by(1);
    rig.refused(7, 2, 0x10, 0x10, &[9, 9]);
    rig.refused(8, 2, 0x10, 0x10, &[9]);
    rig.refused(13, 2, 0x10, 0x10, &[7]);
}

#[test]
fn bad_number_is_a_nop_for_open_and_close() {
    let mut rig = Rig::full();
    for command in [0x10, 0x11] {
        let got = rig.send(1, 0x10, command, &[9]);
        assert_eq!(
            (got.outcome, got.heard().function, got.data()),
            (8, 0x50, &[][..])
        );
    }
}

#[test]
fn taken_select_echoes_its_number_and_is_kept_whole() {
    let mut rig = Rig::full();
    let got = rig.send(31, 0x10, 0x11, &[0xFF]);
    assert_eq!(
        (got.outcome, got.action, got.data()),
        (0, None, &[0xFF][..])
    );
    let kept = Select {
        master: 31,
        output: 0xFF,
        close: true,
        age: 0,
    };
    assert_eq!(rig.state.select, Some(kept));
}

#[test]
fn hold_is_the_sum_of_elapsed_times() {
    let mut rig = select_by(1);
    for ms in [2_000, 0, 3_000, 0] {
        rig.wait(ms);
    }
    assert_eq!(rig.state.select.map(|select| select.age), Some(5_000));
    rig.wait(1);
    assert_eq!((rig.state.select, rig.state.timed_out), (None, Some(1)));
}

#[test]
fn longest_elapsed_time_times_out_without_overflow() {
    let mut rig = select_by(1);
    rig.wait(5_000);
    rig.wait(u32::MAX);
    assert_eq!((rig.state.select, rig.state.timed_out), (None, Some(1)));
}

#[test]
fn timed_out_mark_outlives_other_frames() {
    let mut rig = select_by(1);
    rig.wait(5_001);
    rig.ask(1, 0x00, 0x01, &[]);
    assert_eq!(rig.ask(1, 0x10, 0x10, &[9]), 8);
    assert_eq!(rig.ask(1, 0x10, 0x10, &[]), 7);
    assert_eq!(rig.ask(1, 0x10, 0x21, &[]), 14);
    rig.broadcast(1, 0x20, 0x00, &[]);
    rig.raw(&[1]);
    rig.wait(u32::MAX);
    assert_eq!(rig.state.timed_out, Some(1));
    assert_eq!(rig.ask(1, 0x10, 0x20, &[]), 11);
    assert_eq!(rig.ask(1, 0x10, 0x20, &[]), 14);
}

#[test]
fn timed_out_mark_is_cleared_by_initialize_and_by_any_taken_select() {
    let mut rig = select_by(1);
    rig.wait(5_001);
    rig.ask(2, 0x20, 0x00, &[]);
    assert_eq!(rig.ask(1, 0x10, 0x20, &[]), 14);
    let mut rig = select_by(1);
    rig.wait(5_001);
    assert_eq!(rig.ask(2, 0x10, 0x10, &[7]), 0);
    assert_eq!(rig.state.timed_out, None);
}

#[test]
fn operate_of_another_master_leaves_the_mark() {
    let mut rig = select_by(1);
    rig.wait(5_001);
    rig.refused(14, 2, 0x10, 0x20, &[]);
    assert_eq!(rig.state.timed_out, Some(1));
}

#[test]
fn second_select_takes_the_first_masters_mark_away() {
    let mut rig = select_by(1);
    rig.wait(5_001);
    rig.ask(2, 0x10, 0x10, &[7]);
    assert_eq!(rig.ask(1, 0x10, 0x20, &[]), 13);
    let mut operated = rig.clone();
    assert_eq!(operated.ask(2, 0x10, 0x20, &[]), 0);
    assert_eq!(operated.ask(1, 0x10, 0x20, &[]), 14);
    rig.wait(5_001);
    assert_eq!(rig.ask(1, 0x10, 0x20, &[]), 14);
    assert_eq!(rig.ask(2, 0x10, 0x20, &[]), 11);
}

#[test]
fn kept_mark_comes_before_another_masters_live_select() {
    let mut rig = select_by(2);
    rig.state.timed_out = Some(1);
    assert_eq!(rig.ask(1, 0x10, 0x20, &[]), 11);
    assert_eq!(rig.ask(1, 0x10, 0x20, &[]), 13);
    rig.state.timed_out = Some(1);
    rig.wait(5_001);
    assert_eq!(rig.state.timed_out, Some(2));
}

#[test]
fn operate_acts_once_and_replies_without_data() {
    for (command, close) in [(0x10, false), (0x11, true)] {
        let mut rig = Rig::full();
        rig.ask(1, 0x10, command, &[0x40]);
        let got = rig.send(1, 0x10, 0x20, &[]);
        assert_eq!((got.outcome, got.data()), (0, &[][..]));
        assert_eq!(
            got.action,
            Some(Action {
                output: 0x40,
                close
            })
        );
        assert_eq!((rig.state.select, rig.state.timed_out), (None, None));
        let again = rig.send(1, 0x10, 0x20, &[]);
        assert_eq!((again.outcome, again.action), (14, None));
    }
}

#[test]
fn every_output_number_may_be_equipped() {
    let mut rig = Rig::full();
    rig.config.outputs.fill(true);
    for number in 0..=255 {
        assert_eq!(rig.ask(1, 0x10, 0x10, &[number]), 0);
        let action = Some(Action {
            output: number,
            close: false,
        });
        assert_eq!(rig.send(1, 0x10, 0x20, &[]).action, action);
    }
}

#[test]
fn number_40h_is_three_things_apart() {
    let mut rig = Rig::full();
    rig.config.outputs[0x40] = false;
    assert_eq!(rig.ask(1, 0x10, 0x10, &[0x40]), 8);
    assert_eq!(rig.ask(1, 0x03, 0x00, &[0x40]), 8);
    assert_eq!(rig.ask(1, 0x20, 0x11, &[0x40]), 0);
    rig.config.outputs[0x40] = true;
    rig.config.inputs[0x40] = false;
    assert_eq!(rig.ask(1, 0x20, 0x11, &[0x40]), 8);
    assert_eq!(rig.ask(1, 0x10, 0x10, &[0x40]), 0);
}
