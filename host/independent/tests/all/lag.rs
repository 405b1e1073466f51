//! The sync lag of Set Time (document 02, request 2).

use crate::rig::*;
use independent::Clock;

/// The last millisecond of the longest year.
const YEAR_END: [u8; 7] = [3, 0x66, 0x23, 0x59, 0x59, 3, 0xE7];
/// The first day, midnight.
const MIDNIGHT: [u8; 7] = [0, 1, 0, 0, 0, 0, 0];
/// Figures at the edges of what is taken, and at the edge of the type.
const LAGS: [u32; 7] = [0, 1, 9_999, 10_000, 10_001, 60_000, u32::MAX];

/// A unit that was told this time with this lag, and the outcome.
fn told(time: &[u8], lag: u32) -> (u8, Rig) {
    let mut rig = Rig::full();
    let got = rig.lagged(&frame(1, UNIT, 0x20, 0x38, time), lag);
    assert_eq!(got.data(), []);
    (got.outcome, rig)
}

#[test]
fn clock_becomes_the_time_sent_plus_the_lag() {
    for lag in [0, 1, 2, 999, 1_000, 1_001, 9_999, 10_000] {
        let (outcome, rig) = told(&[2, 0x34, 0x15, 0x07, 0x30, 1, 0xF4], lag);
        let sent = Clock {
            day: 234,
            hour: 15,
            minute: 7,
            second: 30,
            ms: 500,
        };
        assert_eq!((outcome, rig.state.clock), (0, sent.after(lag)));
    }
}

#[test]
fn sum_is_carried_through_every_field() {
    let cases: [([u8; 7], u32, [u8; 7]); 6] = [
        (MIDNIGHT, 10_000, [0, 1, 0, 0, 0x10, 0, 0]),
        ([0, 1, 0, 0, 0x59, 3, 0xE7], 1, [0, 1, 0, 1, 0, 0, 0]),
        ([0, 1, 0, 0x59, 0x50, 0, 0], 10_000, [0, 1, 1, 0, 0, 0, 0]),
        (
            [0, 0x99, 0x23, 0x59, 0x59, 0, 0],
            1_500,
            [1, 0, 0, 0, 0, 1, 0xF4],
        ),
        (YEAR_END, 1, MIDNIGHT),
        (YEAR_END, 10_000, [0, 1, 0, 0, 9, 3, 0xE7]),
    ];
    for (sent, lag, expected) in cases {
        let (outcome, mut rig) = told(&sent, lag);
        let shown = rig.send(1, 0x28, 0x31, &[]);
        assert_eq!((outcome, shown.data()), (0, &expected[..]));
    }
}

#[test]
fn figure_over_10000_is_8_and_leaves_the_clock() {
    for lag in [10_001, 60_000, u32::MAX] {
        let (outcome, rig) = told(&YEAR_END, lag);
        assert_eq!((outcome, rig.state.clock), (8, Clock::START));
        rig.assert_only_port(&Rig::full().state);
    }
}

#[test]
fn count_and_date_are_judged_whatever_the_lag() {
    for lag in LAGS {
        assert_eq!(told(&YEAR_END[..6], lag).0, 7);
        let (outcome, rig) = told(&[3, 0x67, 0, 0, 0, 0, 0], lag);
        assert_eq!((outcome, rig.state.clock), (8, Clock::START));
    }
}

#[test]
fn broadcast_takes_the_lag_too_and_is_16_over_10000() {
    let mut rig = Rig::full();
    let all = frame(1, ALL, 0x20, 0x38, &YEAR_END);
    assert_eq!(rig.lagged(&all, 10_001).outcome, 16);
    assert_eq!((rig.state.clock, rig.state.bit2), (Clock::START, true));
    assert_eq!(rig.lagged(&all, 10_000).outcome, 4);
    assert_eq!(rig.state.clock.characters(), [0, 1, 0, 0, 9, 3, 0xE7]);
}

#[test]
fn lag_ages_neither_select_write_nor_silence() {
    let mut rig = Rig::full();
    rig.ask(1, 0x10, 0x10, &[7]);
    rig.ask(2, 0x20, 0x30, &[0, 0, 6]);
    let before = rig.state.clone();
    let got = rig.lagged(&frame(3, UNIT, 0x20, 0x38, &MIDNIGHT), 10_000);
    assert_eq!((got.outcome, rig.state.clock.second), (0, 10));
    rig.state.clock = before.clock;
    assert_eq!(rig.state, before);
}

#[test]
fn no_other_stretch_looks_at_the_lag() {
    let frames: [(u8, u8, &[u8]); 8] = [
        (0x00, 0x4D, &[]),
        (0x03, 0x80, &[]),
        (0x04, 0x60, &[]),
        (0x10, 0x10, &[7]),
        (0x20, 0x00, &[]),
        (0x20, 0x11, &[0x40]),
        (0x20, 0x30, &[0, 0, 3]),
        (0x28, 0x31, &[]),
    ];
    for (function, command, data) in frames {
        let (mut plain, mut late) = (Rig::full(), Rig::full());
        let bytes = frame(1, UNIT, function, command, data);
        assert_eq!(plain.raw(&bytes), late.lagged(&bytes, u32::MAX));
        assert_eq!(plain.state, late.state);
    }
}

#[test]
fn record_is_stamped_with_the_corrected_clock() {
    let mut rig = Rig::full();
    rig.store_events(0, &[1]);
    rig.lagged(&frame(1, UNIT, 0x20, 0x38, &YEAR_END), 10_000);
    rig.store_events(0, &[2]);
    let stamps: Vec<&[u8]> = rig.state.files[0].iter().map(|held| &held[1..6]).collect();
    assert_eq!(stamps, [[0, 1, 0, 0, 0], [0, 1, 0, 0, 9]]);
}
