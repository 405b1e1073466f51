//! History files (readings 89 to 103).

use crate::rig::*;
use independent::HistoryReply;

/// File 0 with records of these event types.
fn holding(events: &[u8]) -> Rig {
    let mut rig = Rig::full();
    rig.store_events(0, events);
    rig
}

#[test]
fn judged_reserved_bit_then_count_then_file_then_repeat() {
    let mut rig = holding(&[1]);
    rig.refused(6, 1, 0x04, 0x82, &[1]);
    rig.refused(7, 1, 0x04, 0x02, &[1]);
    rig.refused(8, 1, 0x04, 0x02, &[]);
    rig.refused(10, 1, 0x04, 0x00, &[]);
}

#[test]
fn refused_request_keeps_the_memory() {
    let mut rig = holding(&[1, 2]);
    let first = rig.send(1, 0x04, 0x40, &[]);
    rig.refused(6, 1, 0x04, 0xC0, &[]);
    rig.refused(7, 1, 0x04, 0x40, &[1]);
    rig.refused(8, 1, 0x04, 0x42, &[]);
    rig.refused(10, 1, 0x04, 0x20, &[]);
    rig.refused(10, 1, 0x04, 0x01, &[]);
    rig.refused(10, 2, 0x04, 0x00, &[]);
    assert_eq!(rig.send(1, 0x04, 0x00, &[]).data(), first.data());
}

#[test]
fn acknowledging_with_an_unequipped_file_releases_nothing() {
    let mut rig = holding(&[1, 2]);
    rig.send(1, 0x04, 0x40, &[]);
    rig.refused(8, 1, 0x04, 0x42, &[]);
    rig.refused(8, 1, 0x04, 0x62, &[]);
    assert_eq!(rig.events(0), [1, 2]);
}

#[test]
fn records_leave_before_the_new_reply_is_made() {
    let mut rig = holding(&[1, 2, 3]);
    assert_eq!(rig.send(1, 0x04, 0x40, &[]).data()[..2], [0x81, 1]);
    assert_eq!(rig.send(1, 0x04, 0x40, &[]).data()[..2], [0x81, 2]);
    assert_eq!(rig.send(1, 0x04, 0x40, &[]).data()[..2], [0x01, 3]);
    assert_eq!(rig.send(1, 0x04, 0x40, &[]).data(), [0x00]);
    assert_eq!(rig.events(0), []);
}

#[test]
fn request_for_another_file_acknowledges_the_first() {
    let mut rig = holding(&[1, 2]);
    rig.store_events(1, &[7]);
    rig.send(1, 0x04, 0x40, &[]);
    assert_eq!(rig.send(1, 0x04, 0x61, &[]).data()[..2], [0x01, 7]);
    assert_eq!((rig.events(0), rig.events(1)), (vec![2], vec![7]));
    assert_eq!(rig.send(1, 0x04, 0x40, &[]).data()[..2], [0x01, 2]);
    assert_eq!((rig.events(0), rig.events(1)), (vec![2], vec![]));
}

#[test]
fn empty_reply_is_remembered_and_releases_nothing() {
    let mut rig = holding(&[]);
    assert_eq!(rig.send(1, 0x04, 0x40, &[]).data(), [0x00]);
    rig.store_events(0, &[5]);
    assert_eq!(rig.send(1, 0x04, 0x00, &[]).data(), [0x00]);
    assert_eq!(rig.ask(1, 0x04, 0x20, &[]), 10);
    assert_eq!(rig.send(1, 0x04, 0x40, &[]).data()[..2], [0x01, 5]);
    assert_eq!(rig.events(0), [5]);
}

#[test]
fn repeat_of_a_dump_has_its_flag_and_records_of_then() {
    let mut rig = holding(&[1, 2]);
    let first = rig.send(1, 0x04, 0x60, &[]);
    assert_eq!(first.data()[0], 2);
    rig.store_events(0, &[3, 4]);
    let before = rig.state.history;
    assert_eq!(rig.send(1, 0x04, 0x20, &[]).data(), first.data());
    assert_eq!(rig.state.history, before);
    assert_eq!(rig.send(1, 0x04, 0x60, &[]).data()[..2], [2, 3]);
}

#[test]
fn set_flag_is_repeated_too() {
    let mut rig = holding(&[1, 2]);
    let first = rig.send(1, 0x04, 0x40, &[]);
    assert_eq!(first.data()[0], 0x81);
    assert_eq!(rig.send(1, 0x04, 0x00, &[]).data(), first.data());
}

#[test]
fn repeat_needs_master_file_and_kind_to_agree() {
    let mut rig = holding(&[1]);
    rig.send(1, 0x04, 0x60, &[]);
    rig.refused(10, 1, 0x04, 0x00, &[]);
    rig.refused(10, 2, 0x04, 0x20, &[]);
    rig.refused(10, 1, 0x04, 0x21, &[]);
    assert_eq!(rig.ask(1, 0x04, 0x20, &[]), 0);
    rig.send(1, 0x04, 0x40, &[]);
    rig.refused(10, 1, 0x04, 0x20, &[]);
}

#[test]
fn another_masters_empty_reply_replaces_the_memory() {
    let mut rig = holding(&[1, 2]);
    let first = rig.send(1, 0x04, 0x40, &[]);
    assert_eq!(rig.send(2, 0x04, 0x41, &[]).data(), [0x00]);
    rig.refused(10, 1, 0x04, 0x00, &[]);
    assert_eq!(rig.send(1, 0x04, 0x40, &[]).data(), first.data());
    assert_eq!(rig.events(0), [1, 2]);
}

#[test]
fn dump_takes_as_many_as_fit_511() {
    for values in 1..=16u8 {
        let mut rig = Rig::full();
        rig.config.files[0] = Some(values);
        rig.store_events(0, &[3; 32]);
        let got = rig.send(1, 0x04, 0x60, &[]);
        let size = 6 + 2 * usize::from(values);
        let most = (0..=32).filter(|n| n * size <= 510).max().unwrap();
        let flag = if most < 32 { 0x80 } else { 0 };
        assert_eq!(got.data().len(), 1 + most * size);
        assert_eq!(got.data()[0], flag | most as u8);
    }
}

#[test]
fn dump_of_exactly_511_fits() {
    for (values, quantity) in [(12, 17), (14, 15)] {
        let mut rig = Rig::full();
        rig.config.files[0] = Some(values);
        rig.store_events(0, &vec![1; quantity]);
        let got = rig.send(1, 0x04, 0x60, &[]);
        assert_eq!((got.data().len(), got.data()[0]), (511, quantity as u8));
        assert_eq!(got.bytes.len(), 520);
    }
}

#[test]
fn dump_of_4_values_takes_all_32_and_of_5_takes_31() {
    let mut rig = Rig::full();
    rig.config.files[0] = Some(4);
    rig.store_events(0, &[1; 32]);
    rig.store_events(5, &[1; 32]);
    let got = rig.send(1, 0x04, 0x60, &[]);
    assert_eq!((got.data()[0], got.data().len()), (32, 449));
    assert_eq!(rig.send(1, 0x04, 0x65, &[]).data()[0], 0x80 | 31);
}

#[test]
fn record_is_event_stamp_and_words_low_character_first() {
    let mut rig = Rig::full();
    rig.ask(1, 0x20, 0x38, &[3, 0x45, 0x21, 0x43, 0x09, 3, 0xE7]);
    assert_eq!(rig.store(1, 0xEE, &[0x1234, 0xABCD]), 0);
    let got = rig.send(1, 0x04, 0x41, &[]);
    let expected = [1, 0xEE, 3, 0x45, 0x21, 0x43, 0x09, 0x34, 0x12, 0xCD, 0xAB];
    assert_eq!(got.data(), expected);
}

#[test]
fn order_is_that_of_storing_whatever_the_clock_says() {
    let mut rig = holding(&[1]);
    rig.wait(1_000_000);
    rig.store_events(0, &[2]);
    rig.ask(1, 0x20, 0x38, &[0, 1, 0, 0, 0, 0, 0]);
    rig.store_events(0, &[3]);
    assert_eq!(rig.events(0), [1, 2, 3]);
}

#[test]
fn storing_is_judged_file_then_values_then_room() {
    let mut rig = holding(&[1; 32]);
    assert_eq!(rig.store(2, 0, &[]), 2);
    assert_eq!(rig.store(32, 0, &[1]), 2);
    assert_eq!(rig.store(255, 0, &[1]), 2);
    for values in [&[][..], &[1, 2], &[0; 17], &[0; 300]] {
        assert_eq!(rig.store(0, 0, values), 3);
    }
    assert!(!rig.state.bit3);
    assert_eq!(rig.store(0, 0, &[1]), 1);
    assert_eq!(rig.events(0), [1; 32]);
    rig.config.unit = 0x7FF;
    assert_eq!(
        [
            rig.store(2, 0, &[]),
            rig.store(0, 0, &[]),
            rig.store(0, 0, &[1])
        ],
        [17; 3]
    );
}

#[test]
fn freed_room_is_used_again() {
    let mut rig = holding(&(0..32).collect::<Vec<u8>>());
    rig.send(1, 0x04, 0x40, &[]);
    assert_eq!(rig.store(0, 99, &[1]), 1);
    rig.send(1, 0x04, 0x40, &[]);
    assert_eq!(rig.store(0, 32, &[1]), 0);
    assert_eq!(rig.events(0), (1..33).collect::<Vec<u8>>());
}

#[test]
fn initialize_forgets_the_memory_and_keeps_the_records() {
    let mut rig = holding(&[1, 2]);
    let first = rig.send(1, 0x04, 0x40, &[]);
    rig.ask(2, 0x20, 0x00, &[]);
    assert_eq!(rig.state.history, None);
    rig.refused(10, 1, 0x04, 0x00, &[]);
    assert_eq!(rig.send(1, 0x04, 0x40, &[]).data(), first.data());
    assert_eq!(rig.events(0), [1, 2]);
}

#[test]
fn other_work_and_time_leave_the_memory() {
    let mut rig = holding(&[1, 2]);
    let first = rig.send(1, 0x04, 0x40, &[]);
    rig.ask(1, 0x00, 0x4D, &[]);
    rig.load(1, 3, 0, &[0, 1, 0x30]);
    rig.ask(1, 0x0A, 0x41, &[]);
    rig.ask(1, 0x10, 0x10, &[7]);
    rig.ask(1, 0x10, 0x20, &[]);
    rig.wait(u32::MAX);
    let kept = HistoryReply {
        master: 1,
        file: 0,
        dump: false,
        quantity: 1,
        more: true,
    };
    assert_eq!(rig.state.history, Some(kept));
    assert_eq!(rig.send(1, 0x04, 0x00, &[]).data(), first.data());
}

#[test]
fn master_that_lost_a_reply_and_still_acknowledges_loses_the_record() {
    let mut rig = holding(&[1, 2]);
    rig.send(1, 0x04, 0x40, &[]);
    assert_eq!(rig.send(1, 0x04, 0x40, &[]).data()[..2], [0x01, 2]);
    assert_eq!(rig.events(0), [2]);
}

#[test]
fn dump_then_single_releases_the_whole_dump() {
    let mut rig = holding(&[1, 2, 3]);
    rig.send(1, 0x04, 0x60, &[]);
    rig.store_events(0, &[4]);
    assert_eq!(rig.send(1, 0x04, 0x40, &[]).data()[..2], [0x01, 4]);
    assert_eq!(rig.events(0), [4]);
}
