//! Function 03 and the value event (readings 82 to 85).

use crate::rig::*;
use independent::Config;

#[test]
fn only_commands_80h_and_00_are_known() {
    let mut rig = Rig::full();
    for command in 0..=255 {
        let outcome = rig.ask(1, 0x03, command, &[]);
        let expected = match command {
            0x80 => 0,
            0x00 => 7,
            _ => 6,
        };
        assert_eq!(outcome, expected, "command {command:02X}");
    }
}

#[test]
fn command_80h_with_data_is_a_wrong_count() {
    Rig::full().refused(7, 1, 0x03, 0x80, &[0x04, 0x15]);
}

#[test]
fn all_values_ascend_without_numbers() {
    let mut rig = Rig::full();
    rig.value(0x7F, 0x0A0B0C0D);
    rig.value(0x04, 0x01020304);
    rig.value(0x15, 0xFFC0_0001);
    let got = rig.send(1, 0x03, 0x80, &[]);
    let expected = [4, 3, 2, 1, 1, 0, 0xC0, 0xFF, 0x0D, 0x0C, 0x0B, 0x0A];
    assert_eq!((got.outcome, got.data()), (0, &expected[..]));
}

#[test]
fn all_of_127_fit_and_of_128_do_not() {
    let mut config = Config::new(UNIT);
    config.calculations[..127].fill(true);
    let mut rig = Rig::new(config);
    assert_eq!(rig.send(1, 0x03, 0x80, &[]).data().len(), 508);
    rig.config.calculations[127] = true;
    rig.refused(9, 1, 0x03, 0x80, &[]);
}

#[test]
fn none_equipped_gives_no_data() {
    let mut rig = Rig::new(Config::new(UNIT));
    let got = rig.send(1, 0x03, 0x80, &[]);
    assert_eq!((got.outcome, got.data()), (0, &[][..]));
}

#[test]
fn asked_values_come_with_numbers_in_the_order_asked() {
    let mut rig = Rig::full();
    rig.value(0x04, 0x7FC0_0000);
    rig.value(0x15, 0x3F80_0000);
    let got = rig.send(1, 0x03, 0x00, &[0x15, 0x04, 0x15]);
    let expected = [
        0x15, 0, 0, 0x80, 0x3F, 0x04, 0, 0, 0xC0, 0x7F, 0x15, 0, 0, 0x80, 0x3F,
    ];
    assert_eq!((got.outcome, got.data()), (0, &expected[..]));
}

#[test]
fn just_the_unequipped_numbers_come_back_with_repeats() {
    let mut rig = Rig::full();
    let got = rig.send(1, 0x03, 0x00, &[0x04, 0xFF, 0x05, 0x15, 0xFF, 0x84]);
    assert_eq!((got.outcome, got.heard().function), (8, 0x43));
    assert_eq!(got.data(), [0xFF, 0x05, 0xFF, 0x84]);
    let got = rig.send(1, 0x03, 0x00, &[0x80; 128]);
    assert_eq!((got.outcome, got.data()), (8, &[0x80; 128][..]));
}

#[test]
fn asked_102_fit_and_103_do_not_and_equipment_comes_first() {
    let mut rig = Rig::full();
    assert_eq!(rig.send(1, 0x03, 0x00, &[0x04; 102]).data().len(), 510);
    let got = rig.send(1, 0x03, 0x00, &[0x04; 103]);
    assert_eq!((got.outcome, got.data()), (9, &[][..]));
    let mut asked = [0x04; 128];
    asked[127] = 0x05;
    let got = rig.send(1, 0x03, 0x00, &asked);
    assert_eq!((got.outcome, got.data()), (8, &[0x05][..]));
}

#[test]
fn value_event_needs_an_equipped_calculation() {
    let mut rig = Rig::full();
    for number in [0x00, 0x05, 0x40, 0x80, 0xFF] {
        let before = rig.state.clone();
        assert_eq!(rig.value(number, 1), 8);
        assert_eq!(rig.state, before);
    }
    assert_eq!(rig.value(0x7F, 1), 0);
}
