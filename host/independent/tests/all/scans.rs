//! Function 00 and the local events of inputs (readings 70, 86 to 88).

use crate::rig::*;
use independent::Config;

/// Every input of the full rig gets its number as both characters.
fn marked() -> Rig {
    let mut rig = Rig::full();
    for number in [0x30, 0x3F, 0x80, 0xFF] {
        assert_eq!(rig.word(number, u16::from(number) * 0x101), 0);
    }
    rig.state.words[0x1F] = 0x1F1F;
    rig.pulses(0x40, 0x4040);
    rig.pulses(0x5F, 0x5F5F);
    rig
}

#[test]
fn each_command_bit_chooses_its_kind() {
    let mut rig = marked();
    let kinds: [(u8, &[u8]); 6] = [
        (0x01, &[0x30, 0x30, 0x3F, 0x3F]),
        (0x04, &[0x00, 0x00, 0x1F, 0x1F]),
        (0x08, &[0x80, 0x80, 0xFF, 0xFF]),
        (0x40, &[0x40, 0x40, 0x5F, 0x5F]),
        (0x00, &[]),
        (0x41, &[0x30, 0x30, 0x3F, 0x3F, 0x40, 0x40, 0x5F, 0x5F]),
    ];
    for (command, data) in kinds {
        let got = rig.send(1, 0x00, command, &[]);
        assert_eq!((got.outcome, got.data()), (0, data));
    }
}

#[test]
fn words_come_lowest_number_first_over_all_kinds() {
    let got = marked().send(1, 0x00, 0x4D, &[]);
    let numbers: Vec<u8> = got.data().iter().step_by(2).copied().collect();
    assert_eq!(numbers, [0x00, 0x1F, 0x30, 0x3F, 0x40, 0x5F, 0x80, 0xFF]);
}

#[test]
fn words_go_low_character_first() {
    let mut rig = Rig::full();
    rig.word(0x80, (-2i16) as u16);
    rig.word(0xFF, 0x1234);
    assert_eq!(
        rig.send(1, 0x00, 0x08, &[]).data(),
        [0xFE, 0xFF, 0x34, 0x12]
    );
}

#[test]
fn reserved_bit_comes_before_the_count() {
    let mut rig = marked();
    for bit in [0x02, 0x10, 0x20, 0x80] {
        rig.refused(6, 1, 0x00, bit, &[1]);
        rig.refused(6, 1, 0x00, bit | 0x4D, &[]);
    }
    rig.refused(7, 1, 0x00, 0x4D, &[1]);
}

#[test]
fn all_208_inputs_fit_one_reply() {
    let mut config = Config::new(UNIT);
    for number in 0..256 {
        config.inputs[number] = !matches!(number, 0x20..=0x2F | 0x60..=0x7F);
    }
    let mut rig = Rig::new(config);
    let got = rig.send(1, 0x00, 0x4D, &[]);
    assert_eq!((got.outcome, got.data().len()), (0, 416));
}

#[test]
fn word_event_is_for_simple_status_and_analog_only() {
    let mut rig = Rig::full();
    for number in [0x00, 0x1F, 0x40, 0x5F, 0x01, 0x20, 0x41, 0x60, 0x81] {
        let before = rig.state.clone();
        assert_eq!(rig.word(number, 1), 8);
        assert_eq!(rig.state, before);
    }
}

#[test]
fn pulse_event_is_for_accumulators_only() {
    let mut rig = Rig::full();
    for number in [0x00, 0x30, 0x80, 0x41, 0x60] {
        let before = rig.state.clone();
        assert_eq!(rig.pulses(number, 1), 8);
        assert_eq!(rig.state, before);
    }
}

#[test]
fn pulse_event_of_0_is_taken_where_equipped() {
    let mut rig = Rig::full();
    assert_eq!(rig.pulses(0x40, 7), 0);
    assert_eq!(rig.pulses(0x40, 0), 0);
    assert_eq!(rig.state.words[0x40], 7);
    assert_eq!(rig.pulses(0x41, 0), 8);
}

#[test]
fn reset_echoes_the_number_and_clears_only_that_count() {
    let mut rig = marked();
    let got = rig.send(1, 0x20, 0x11, &[0x5F]);
    assert_eq!((got.outcome, got.data()), (0, &[0x5F][..]));
    assert_eq!((rig.state.words[0x40], rig.state.words[0x5F]), (0x4040, 0));
    for number in [0x00, 0x30, 0x80, 0x41] {
        rig.refused(8, 1, 0x20, 0x11, &[number]);
    }
    assert_eq!(rig.send(1, 0x20, 0x11, &[0x41]).data(), []);
}

#[test]
fn initialize_forgets_what_waits_for_any_master() {
    let mut rig = marked();
    rig.store_events(0, &[1]);
    rig.ask(2, 0x10, 0x10, &[7]);
    rig.ask(3, 0x20, 0x30, &[0, 0, 6]);
    rig.ask(4, 0x04, 0x40, &[]);
    rig.state.timed_out = Some(5);
    assert_eq!(rig.ask(1, 0x20, 0x00, &[]), 0);
    let Rig { state, .. } = &rig;
    assert_eq!((state.select, state.timed_out), (None, None));
    assert_eq!((state.write, state.history), (None, None));
}

#[test]
fn initialize_keeps_points_records_blocks_and_clock() {
    let mut rig = marked();
    rig.store_events(0, &[1]);
    rig.load(1, 3, 0, &[0, 1, 0x30]);
    rig.wait(1234);
    let before = rig.state.clone();
    assert_eq!(rig.ask(1, 0x20, 0x00, &[]), 0);
    rig.state.bit7 = before.bit7;
    rig.assert_only_port(&before);
}
