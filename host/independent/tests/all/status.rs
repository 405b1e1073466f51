//! The status character (readings 21 to 26).

use crate::rig::*;

#[test]
fn bit_2_is_set_by_every_broadcast_and_cleared_by_one_reply() {
    for (function, command, outcome) in [(0x20, 0x11, 4), (0x3F, 0x11, 16), (0x20, 0x00, 16)] {
        let mut rig = Rig::full();
        assert_eq!(rig.broadcast(1, function, command, &[0x40]), outcome);
        assert_eq!(rig.send(2, 0, 0, &[]).heard().status, 0x84);
        assert_eq!(rig.send(1, 0, 0, &[]).heard().status, 0x80);
    }
}

#[test]
fn bit_2_is_cleared_by_nop_and_rst_but_not_by_a_write() {
    for (function, command, outcome) in [(0x3F, 0, 6), (0x10, 0x20, 14)] {
        let mut rig = Rig::full();
        rig.broadcast(1, 0x3F, 0, &[]);
        assert_eq!(rig.ask(1, 0x20, 0x30, &[0, 0, 0]), 5);
        assert!(rig.state.bit2);
        let got = rig.send(1, function, command, &[]);
        assert_eq!(
            (got.outcome, got.heard().status, rig.state.bit2),
            (outcome, 0x84, false)
        );
    }
}

#[test]
fn damaged_broadcast_sets_no_bit() {
    let mut rig = Rig::full();
    let mut bytes = frame(1, ALL, 0x20, 0x11, &[0x40]);
    bytes[7] ^= 0x80;
    assert_eq!(rig.raw(&bytes).outcome, 2);
    assert!(!rig.state.bit2);
}

#[test]
fn initialize_shows_the_status_as_found() {
    let mut rig = Rig::full();
    assert_eq!(rig.load(1, 3, 0, &[0]), 0);
    rig.broadcast(1, 0x3F, 0, &[]);
    let got = rig.send(1, 0x20, 0x00, &[]);
    assert_eq!(
        (got.outcome, got.heard().status, got.data()),
        (0, 0x04, &[][..])
    );
    assert_eq!(rig.send(1, 0, 0, &[]).heard().status, 0x80);
}

#[test]
fn refused_initialize_sets_nothing_but_clears_bit_2() {
    let mut rig = Rig::full();
    rig.load(1, 3, 0, &[0]);
    rig.broadcast(1, 0x3F, 0, &[]);
    assert_eq!(rig.ask(1, 0x20, 0x00, &[1]), 7);
    assert_eq!((rig.state.bit7, rig.state.bit2), (false, false));
    rig.ask(1, 0x10, 0x10, &[7]);
    assert_eq!(rig.ask(1, 0x20, 0x00, &[]), 12);
    assert!(!rig.state.bit7);
}

#[test]
fn execute_into_03_clears_bit_7_after_its_reply() {
    let mut rig = Rig::full();
    rig.ask(1, 0x20, 0x30, &[0xFF, 0, 3]);
    assert_eq!(rig.send(1, 0x20, 0x31, &[0]).heard().status, 0x80);
    assert_eq!(rig.send(1, 0, 0, &[]).heard().status, 0x00);
}

#[test]
fn execute_into_00_clears_bit_3_after_its_reply() {
    let mut rig = Rig::full();
    rig.store_events(0, &[0; 32]);
    rig.store(0, 0, &[1]);
    rig.ask(1, 0x20, 0x30, &[0, 0, 0]);
    assert_eq!(rig.send(1, 0x20, 0x31, &[0]).heard().status, 0x88);
    assert_eq!(rig.send(1, 0, 0, &[]).heard().status, 0x80);
}

#[test]
fn execute_elsewhere_or_refused_clears_nothing() {
    let mut rig = Rig::full();
    rig.state.bit3 = true;
    assert_eq!(rig.load(1, 6, 0, &[1]), 0);
    assert_eq!(rig.load(1, 0x0B, 0, &[1]), 0);
    assert_eq!(rig.load(1, 3, 256, &[1]), 8);
    assert_eq!(rig.load(1, 0, 16, &[1]), 8);
    assert_eq!(rig.state.status(), 0x88);
}

#[test]
fn bit_3_is_set_only_by_a_full_file_and_outlives_freed_room() {
    let mut rig = Rig::full();
    rig.store_events(0, &[1; 32]);
    assert_eq!(rig.store(2, 1, &[1]), 2);
    assert_eq!(rig.store(0, 1, &[1, 2]), 3);
    assert!(!rig.state.bit3);
    assert_eq!(rig.store(0, 1, &[1]), 1);
    assert!(rig.state.bit3);
    rig.send(1, 0x04, 0x60, &[]);
    rig.send(1, 0x04, 0x60, &[]);
    assert_eq!(rig.events(0), []);
    assert!(rig.state.bit3);
    rig.ask(1, 0x20, 0x00, &[]);
    assert!(rig.state.bit3);
}

#[test]
fn other_status_bits_are_always_0() {
    let mut rig = Rig::full();
    for bits in 0..8 {
        rig.state.bit7 = bits & 1 != 0;
        rig.state.bit3 = bits & 2 != 0;
        rig.state.bit2 = bits & 4 != 0;
        assert_eq!(rig.send(1, 0, 0, &[]).heard().status & !0x8C, 0);
    }
}
