//! Cases 1 to 12 of document 01.

use crate::rig::*;
use independent::frame::split_address;
use independent::{check_word, Config};

#[test]
fn case_1_to_3_check_vectors_of_the_paper() {
    let cases: [(&[u8], [u8; 2]); 3] = [
        (&[0xD2, 0x0C, 0x00, 0x41, 0x00, 0x00], [0x52, 0x67]),
        (&[0xD2, 0x04, 0x00, 0x49, 0x00, 0x00], [0x32, 0x64]),
        (&[0x01, 0x00, 0x00, 0x49, 0x00, 0x00], [0xD0, 0x07]),
    ];
    for (bytes, check) in cases {
        assert_eq!(check_word(bytes).to_le_bytes(), check);
    }
}

#[test]
fn reply_printed_in_the_appendix_is_no_check_vector() {
    let mut bytes = vec![0xD2, 0x0C, 0x00, 0x80, 0x54, 0x18, 0x00];
    bytes.extend_from_slice(&[0x8E, 0x41, 0x3D, 0xC0, 0, 0, 0, 0, 2, 0, 1]);
    bytes.resize(7 + 22, 0);
    assert_ne!(check_word(&bytes).to_le_bytes(), [0x3B, 0x44]);
    bytes.resize(7 + 24, 0);
    assert_eq!(check_word(&bytes).to_le_bytes(), [0x3B, 0x88]);
}

#[test]
fn case_4_address_word_is_master_1_unit_1234() {
    assert_eq!(split_address(u16::from_le_bytes([0xD2, 0x0C])), (1, 1234));
}

#[test]
fn case_5_port_status_fresh_and_after_damage() {
    let mut rig = Rig::full();
    assert_eq!(rig.send(1, 0x00, 0x00, &[]).heard().port, 0x54);
    assert_eq!(rig.raw(&[0x55]).outcome, 1);
    assert_eq!(rig.send(1, 0x00, 0x00, &[]).heard().port, 0x56);
    assert_eq!(rig.send(1, 0x00, 0x00, &[]).heard().port, 0x54);
}

#[test]
fn case_6_frame_of_136_accepted_and_of_137_refused() {
    let mut rig = Rig::full();
    rig.config.calculations[..0x80].fill(true);
    let longest = frame(1, UNIT, 0x20, 0x31, &[0; 128]);
    assert_eq!(longest.len(), 136);
    assert_eq!(rig.raw(&longest).outcome, 14);
    let over = frame(1, UNIT, 0x20, 0x31, &[0; 129]);
    assert_eq!(over.len(), 137);
    assert_eq!(rig.raw(&over).outcome, 1);
}

#[test]
fn case_7_operate_at_5000_acts() {
    let mut rig = Rig::full();
    assert_eq!(rig.ask(1, 0x10, 0x11, &[7]), 0);
    rig.wait(5_000);
    let got = rig.send(1, 0x10, 0x20, &[]);
    assert_eq!(got.outcome, 0);
    assert_eq!(
        got.action.map(|action| (action.output, action.close)),
        Some((7, true))
    );
}

#[test]
fn case_8_operate_at_5001_is_timed_out() {
    let mut rig = Rig::full();
    assert_eq!(rig.ask(1, 0x10, 0x11, &[7]), 0);
    rig.wait(5_001);
    let got = rig.send(1, 0x10, 0x20, &[]);
    assert_eq!((got.outcome, got.action), (11, None));
}

#[test]
fn case_9_pulses_wrap_to_0() {
    let mut rig = Rig::full();
    assert_eq!(rig.pulses(0x40, 65_535), 0);
    assert_eq!(rig.state.words[0x40], 65_535);
    assert_eq!(rig.pulses(0x40, 1), 0);
    assert_eq!(rig.state.words[0x40], 0);
}

#[test]
fn case_10_dump_of_16_values_sends_13_of_32_with_flag() {
    let mut rig = Rig::full();
    rig.store_events(31, &(0..32).collect::<Vec<u8>>());
    let got = rig.send(1, 0x04, 0x60 | 31, &[]);
    assert_eq!(got.outcome, 0);
    assert_eq!(got.data()[0], 0x80 | 13);
    assert_eq!(got.data().len(), 1 + 13 * 38);
}

#[test]
fn case_11_day_366_taken_and_367_refused() {
    let mut rig = Rig::full();
    assert_eq!(rig.ask(1, 0x20, 0x38, &[3, 0x66, 0, 0, 0, 0, 0]), 0);
    assert_eq!(rig.state.clock.day, 366);
    assert_eq!(rig.ask(1, 0x20, 0x38, &[3, 0x67, 0, 0, 0, 0, 0]), 8);
    assert_eq!(rig.state.clock.day, 366);
}

#[test]
fn case_12_file_of_32_refuses_the_33rd() {
    let mut rig = Rig::new({
        let mut config = Config::new(UNIT);
        config.files[4] = Some(1);
        config
    });
    for event in 0..32 {
        assert_eq!(rig.store(4, event, &[9]), 0);
    }
    assert_eq!(rig.store(4, 32, &[9]), 1);
    assert_eq!(rig.events(4), (0..32).collect::<Vec<u8>>());
}
