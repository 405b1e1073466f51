//! WRITE, EXECUTE and read (readings 49 to 62).

use crate::rig::*;
use independent::{Config, Write};

fn written() -> Rig {
    let mut rig = Rig::full();
    assert_eq!(rig.ask(1, 0x20, 0x30, &[2, 0, 6]), 5);
    rig
}

#[test]
fn every_other_frame_of_its_master_drops_the_write() {
    let frames: [(u8, u8, &[u8], u8); 9] = [
        (0x00, 0x01, &[], 0),
        (0x3F, 0x00, &[], 6),
        (0x20, 0x30, &[1, 0], 7),
        (0x20, 0x31, &[], 7),
        (0x10, 0x10, &[9], 8),
        (0x04, 0x00, &[], 10),
        (0x10, 0x20, &[], 14),
        (0x10, 0x10, &[7], 0),
        (0x20, 0x38, &[1; 6], 7),
    ];
    for (function, command, data, outcome) in frames {
        let mut rig = written();
        assert_eq!(rig.ask(1, function, command, data), outcome);
        assert_eq!(rig.state.write, None);
    }
    let mut rig = written();
    rig.config.calculations[..0x80].fill(true);
    assert_eq!(rig.ask(1, 0x03, 0x80, &[]), 9);
    assert_eq!(rig.state.write, None);
}

#[test]
fn select_outcomes_11_and_13_drop_the_write() {
    let mut rig = written();
    rig.state.timed_out = Some(1);
    assert_eq!(rig.ask(1, 0x10, 0x20, &[]), 11);
    assert_eq!(rig.state.write, None);
    let mut rig = written();
    assert_eq!(rig.ask(2, 0x10, 0x10, &[7]), 0);
    assert_eq!(rig.ask(1, 0x10, 0x20, &[]), 13);
    assert_eq!(rig.state.write, None);
}

#[test]
fn other_stretches_leave_the_write() {
    let mut rig = written();
    let kept = rig.state.write;
    rig.raw(&[]);
    rig.raw(&[1, 2]);
    let mut bad = frame(1, UNIT, 0, 1, &[]);
    bad[6] ^= 1;
    assert_eq!(rig.raw(&bad).outcome, 2);
    assert_eq!(rig.raw(&frame(1, UNIT + 1, 0, 1, &[])).outcome, 3);
    assert_eq!(rig.broadcast(1, 0x20, 0x11, &[0x40]), 4);
    assert_eq!(rig.broadcast(1, 0x20, 0x31, &[0x40]), 16);
    assert_eq!(rig.ask(2, 0x20, 0x30, &[0, 0, 3]), 15);
    assert_eq!(rig.ask(2, 0x20, 0x31, &[0]), 15);
    assert_eq!(rig.ask(2, 0x00, 0x01, &[]), 0);
    assert_eq!(rig.state.write, kept);
    assert_eq!(rig.ask(1, 0x20, 0x31, &[0xAA, 0xBB]), 0);
    assert_eq!(rig.params[..5], [0, 0, 0xAA, 0xBB, 0]);
}

#[test]
fn execute_is_judged_count_then_waiting_then_block() {
    let mut rig = written();
    rig.refused(7, 2, 0x20, 0x31, &[]);
    rig.refused(15, 2, 0x20, 0x31, &[1]);
    assert_eq!(rig.ask(1, 0x20, 0x31, &[0; 19]), 8);
    rig.refused(14, 1, 0x20, 0x31, &[0; 19]);
}

#[test]
fn write_is_not_judged_before_its_execute() {
    let mut rig = Rig::full();
    for ordinal in 0..=255 {
        assert_eq!(rig.ask(1, 0x20, 0x30, &[0xFF, 0xFF, ordinal]), 5);
        assert_eq!(rig.ask(1, 0x20, 0x31, &[1]), 8);
        assert_eq!(rig.state.write, None);
    }
}

#[test]
fn second_write_replaces_the_first_and_starts_anew() {
    let mut rig = written();
    rig.wait(4_000);
    assert_eq!(rig.ask(1, 0x20, 0x30, &[1, 2, 0x0B]), 5);
    assert_eq!(
        rig.state.write,
        Some(Write {
            master: 1,
            bias: 0x0201,
            ordinal: 0x0B,
            age: 0
        })
    );
    rig.wait(5_000);
    assert_eq!(rig.state.write.map(|write| write.age), Some(5_000));
}

#[test]
fn write_is_gone_at_5001_without_a_mark() {
    let mut rig = written();
    rig.wait(5_000);
    assert_eq!(rig.clone().ask(1, 0x20, 0x31, &[1]), 0);
    rig.wait(1);
    assert_eq!(rig.state.write, None);
    assert_eq!(rig.clone().ask(1, 0x20, 0x31, &[1]), 14);
    assert_eq!(rig.ask(2, 0x20, 0x30, &[0, 0, 6]), 5);
}

#[test]
fn execute_may_end_at_the_end_but_not_past_it() {
    let mut rig = Rig::full();
    for (ordinal, length) in [(0x00, 16), (0x03, 256), (0x06, 20), (0x0B, 256)] {
        assert_eq!(rig.load(1, ordinal, length - 2, &[1, 2]), 0);
        let before = rig.clone();
        assert_eq!(rig.load(1, ordinal, length - 1, &[1, 2]), 8);
        assert_eq!(rig.load(1, ordinal, length, &[1]), 8);
        assert_eq!(rig.load(1, ordinal, 0xFFFF, &[7, 7]), 8);
        assert_eq!(rig.state.fixed, before.state.fixed);
        assert_eq!(rig.params, before.params);
    }
}

#[test]
fn blocks_do_not_run_into_each_other() {
    let mut rig = Rig::full();
    assert_eq!(rig.load(1, 0x00, 0, &[0x11; 16]), 0);
    assert_eq!(rig.load(1, 0x03, 128, &[0x22; 128]), 0);
    assert_eq!(rig.load(1, 0x0B, 0, &[0x33; 128]), 0);
    assert_eq!(rig.state.fixed.block_00, [0x11; 16]);
    assert_eq!(rig.state.fixed.block_03[..128], [0; 128]);
    assert_eq!(rig.state.fixed.block_03[128..], [0x22; 128]);
    assert_eq!(rig.state.fixed.block_0b[..128], [0x33; 128]);
    assert_eq!(rig.state.fixed.block_0b[128..], [0; 128]);
}

#[test]
fn only_four_ordinals_are_known() {
    let mut rig = Rig::full();
    for ordinal in 0..=255 {
        let known = [0x00, 0x03, 0x06, 0x0B].contains(&ordinal);
        let expected = if known { 0 } else { 8 };
        assert_eq!(rig.ask(1, 0x28, 0x30, &[0, 0, ordinal, 1]), expected);
        assert_eq!(rig.load(1, ordinal, 0, &[1]), expected);
    }
}

#[test]
fn empty_parameter_block_is_known() {
    let mut rig = Rig::new(Config::new(UNIT));
    let got = rig.send(1, 0x28, 0x30, &[0, 0, 6, 0]);
    assert_eq!((got.outcome, got.data()), (0, &[][..]));
    assert_eq!(rig.ask(1, 0x28, 0x30, &[1, 0, 6, 0]), 8);
    assert_eq!(rig.load(1, 6, 0, &[1]), 8);
}

#[test]
fn read_of_nothing_needs_a_bias_within_the_block() {
    let mut rig = Rig::full();
    assert_eq!(rig.send(1, 0x28, 0x30, &[20, 0, 6, 0]).data(), []);
    assert_eq!(rig.ask(1, 0x28, 0x30, &[21, 0, 6, 0]), 8);
    assert_eq!(rig.ask(1, 0x28, 0x30, &[0, 1, 3, 0]), 0);
    assert_eq!(rig.ask(1, 0x28, 0x30, &[1, 1, 3, 0]), 8);
}

#[test]
fn refused_read_sends_the_request_back() {
    let mut rig = Rig::full();
    for data in [&[][..], &[1, 2, 3], &[1, 2, 3, 4, 5], &[9; 128]] {
        let got = rig.send(1, 0x28, 0x30, data);
        assert_eq!((got.outcome, got.data()), (7, data));
    }
    let got = rig.send(1, 0x28, 0x30, &[1, 0, 0, 16]);
    assert_eq!((got.outcome, got.data()), (8, &[1, 0, 0, 16][..]));
    assert_eq!(rig.send(1, 0x28, 0x31, &[1, 2]).data(), []);
    assert_eq!(rig.send(1, 0x28, 0x32, &[1, 2]).data(), []);
    rig.ask(1, 0x10, 0x10, &[7]);
    let got = rig.send(1, 0x28, 0x30, &[1, 0, 0, 16]);
    assert_eq!((got.outcome, got.data()), (12, &[][..]));
}

#[test]
fn longest_parameter_block_is_read_to_its_end() {
    let mut config = Config::new(UNIT);
    config.parameter_length = 512;
    let mut rig = Rig::new(config);
    rig.params = (0..512).map(|place| (place % 251) as u8).collect();
    let got = rig.send(1, 0x28, 0x30, &[1, 1, 6, 255]);
    assert_eq!((got.outcome, got.data()), (0, &rig.params[257..512]));
    assert_eq!(rig.ask(1, 0x28, 0x30, &[2, 1, 6, 255]), 8);
    assert_eq!(
        rig.send(1, 0x28, 0x30, &[0xFF, 1, 6, 1]).data(),
        [(511 % 251) as u8]
    );
}

#[test]
fn execute_replies_without_data() {
    let mut rig = written();
    let got = rig.send(1, 0x20, 0x31, &[1, 2, 3]);
    assert_eq!(
        (got.outcome, got.heard().function, got.data()),
        (0, 0x20, &[][..])
    );
}

#[test]
fn parameter_block_of_another_length_is_no_configuration() {
    for length in [0, 19, 21, 512, 1000] {
        let mut rig = Rig::full();
        rig.params = vec![0; length];
        assert_eq!(rig.ask(1, 0x00, 0x01, &[]), 17);
        assert_eq!(
            [rig.wait(1), rig.word(0x30, 1), rig.pulses(0x40, 1)],
            [17; 3]
        );
    }
}
