//! A full file keeps the newest (document 02, request 7).

use crate::dice::Dice;
use crate::rig::*;
use independent::Config;

/// A unit whose files 0, 1 and 31 drop; file 5 keeps the oldest.
fn dropping() -> Rig {
    let mut rig = Rig::full();
    for file in [0, 1, 31] {
        rig.config.oldest[file] = false;
    }
    rig
}

/// As `dropping`, with file 0 full of event types 0 to 31.
fn full() -> Rig {
    let mut rig = dropping();
    rig.store_events(0, &(0..32).collect::<Vec<u8>>());
    rig
}

/// The event types 0 to 31 without one, and then the new one.
fn without(gone: u8, new: u8) -> Vec<u8> {
    (0..32)
        .filter(|&event| event != gone)
        .chain([new])
        .collect()
}

#[test]
fn new_configuration_marks_every_file() {
    assert_eq!(Config::new(UNIT).oldest, [true; 32]);
}

#[test]
fn marked_file_refuses_as_before() {
    let mut rig = full();
    rig.config.oldest[0] = true;
    assert_eq!(rig.store(0, 99, &[1]), 1);
    assert_eq!(rig.events(0), (0..32).collect::<Vec<u8>>());
    assert_eq!((rig.state.bit3, rig.state.dropped), (true, [0; 32]));
}

#[test]
fn full_file_drops_its_oldest_and_sets_bit_3() {
    let mut rig = full();
    assert!(!rig.state.bit3);
    assert_eq!(rig.store(0, 99, &[1]), 0);
    assert_eq!((rig.events(0), rig.state.dropped[0]), (without(0, 99), 1));
    assert_eq!(rig.send(1, 0x00, 0x00, &[]).heard().status, 0x88);
}

#[test]
fn last_free_place_is_taken_without_a_drop() {
    let mut rig = dropping();
    rig.store_events(0, &[1; 32]);
    assert_eq!((rig.state.bit3, rig.state.dropped[0]), (false, 0));
}

#[test]
fn file_and_values_are_judged_before_the_drop() {
    let mut rig = full();
    let before = rig.state.clone();
    assert_eq!([rig.store(0, 9, &[]), rig.store(0, 9, &[1, 2])], [3; 2]);
    assert_eq!([rig.store(2, 9, &[1]), rig.store(32, 9, &[1])], [2; 2]);
    assert_eq!(rig.state, before);
}

#[test]
fn record_of_the_remembered_reply_is_passed_over() {
    let mut rig = full();
    let first = rig.send(1, 0x04, 0x40, &[]);
    assert_eq!(rig.store(0, 99, &[1]), 0);
    assert_eq!(rig.events(0), without(1, 99));
    assert_eq!(rig.send(1, 0x04, 0x00, &[]).data(), first.data());
    let next = rig.send(1, 0x04, 0x40, &[]);
    assert_eq!((next.data()[0], next.data()[1]), (0x81, 2));
}

#[test]
fn dump_of_31_leaves_one_place_to_drop() {
    let mut rig = dropping();
    rig.config.oldest[5] = false;
    rig.store_events(5, &(0..32).collect::<Vec<u8>>());
    let first = rig.send(1, 0x04, 0x65, &[]);
    assert_eq!(first.data()[0], 0x80 | 31);
    for event in 99..102 {
        assert_eq!(rig.store(5, event, &[0; 5]), 0);
        assert_eq!(rig.events(5), without(31, event));
    }
    assert_eq!(rig.send(1, 0x04, 0x25, &[]).data(), first.data());
    assert_eq!(rig.send(1, 0x04, 0x65, &[]).data()[..2], [0x01, 101]);
    assert_eq!((rig.events(5), rig.state.dropped[5]), (vec![101], 3));
}

#[test]
fn all_32_remembered_refuse_and_set_bit_3() {
    let mut rig = full();
    assert_eq!(rig.send(1, 0x04, 0x60, &[]).data()[0], 32);
    assert_eq!(rig.store(0, 99, &[1]), 1);
    assert_eq!((rig.state.bit3, rig.state.dropped[0]), (true, 0));
    assert_eq!(rig.events(0), (0..32).collect::<Vec<u8>>());
}

#[test]
fn remembered_reply_protects_whoever_its_master_is_until_replaced() {
    let mut rig = full();
    rig.send(9, 0x04, 0x60, &[]);
    assert_eq!(rig.store(0, 99, &[1]), 1);
    rig.send(1, 0x04, 0x41, &[]);
    assert_eq!(rig.store(0, 99, &[1]), 0);
    assert_eq!(rig.events(0), without(0, 99));
}

#[test]
fn forgotten_empty_and_other_files_replies_protect_nothing() {
    let mut rig = full();
    rig.send(1, 0x04, 0x60, &[]);
    rig.ask(2, 0x20, 0x00, &[]);
    assert_eq!(rig.store(0, 99, &[1]), 0);
    assert_eq!(rig.events(0), without(0, 99));
    let mut rig = full();
    rig.store_events(1, &[7; 32]);
    rig.send(1, 0x04, 0x61, &[]);
    assert_eq!(rig.store(0, 99, &[1]), 0);
    assert_eq!(rig.events(0), without(0, 99));
    let mut rig = dropping();
    rig.send(1, 0x04, 0x60, &[]);
    rig.store_events(0, &(0..32).collect::<Vec<u8>>());
    assert_eq!(rig.store(0, 99, &[1]), 0);
    assert_eq!(rig.events(0), without(0, 99));
}

#[test]
fn flag_and_data_of_a_remembered_reply_stay_through_drops() {
    let mut rig = dropping();
    rig.store_events(0, &[0, 1]);
    let first = rig.send(1, 0x04, 0x60, &[]);
    rig.store_events(0, &(2..80).collect::<Vec<u8>>());
    assert_eq!(rig.state.dropped[0], 48);
    assert_eq!(rig.send(1, 0x04, 0x20, &[]).data(), first.data());
    assert_eq!(rig.events(0)[..3], [0, 1, 50]);
}

#[test]
fn number_dropped_is_kept_for_each_file_and_by_everything() {
    let mut rig = dropping();
    rig.store_events(0, &[1; 34]);
    rig.store_events(31, &[1; 33]);
    let mut expected = [0; 32];
    (expected[0], expected[31]) = (2, 1);
    rig.load(1, 0, 0, &[0; 16]);
    rig.ask(1, 0x20, 0x00, &[]);
    rig.send(1, 0x04, 0x60, &[]);
    rig.send(1, 0x04, 0x60, &[]);
    rig.wait(u32::MAX);
    assert_eq!((rig.state.dropped, rig.state.bit3), (expected, false));
}

#[test]
fn number_dropped_stays_at_65535() {
    let mut rig = full();
    rig.state.dropped[0] = 65_533;
    let after: Vec<u16> = (0..4)
        .map(|event| {
            assert_eq!(rig.store(0, event, &[1]), 0);
            rig.state.dropped[0]
        })
        .collect();
    assert_eq!(after, [65_534, 65_535, 65_535, 65_535]);
}

#[test]
fn no_number_dropped_and_no_mark_is_a_reason_for_17() {
    let mut rig = Rig::full();
    rig.state.dropped = [65_535; 32];
    rig.config.oldest = [false; 32];
    assert_eq!(rig.ask(1, 0x00, 0x00, &[]), 0);
}

#[test]
fn state_out_of_range_drops_nothing() {
    let mut rig = full();
    rig.state.mark = 7;
    let before = rig.state.clone();
    assert_eq!(rig.store(0, 99, &[1]), 17);
    assert_eq!(rig.state, before);
}

/// All that ever happened to the records of a file, each known by its first value.
#[derive(Default)]
struct Account {
    stored: Vec<u16>,
    released: Vec<u16>,
    dropped: Vec<u16>,
}

/// The first values of the records that a file holds.
fn held(rig: &Rig, file: usize) -> Vec<u16> {
    let first = |record: &Vec<u8>| u16::from_le_bytes([record[6], record[7]]);
    rig.state.files[file].iter().map(first).collect()
}

/// The number of records of this file that the remembered reply carried.
fn remembered(rig: &Rig, file: usize) -> usize {
    let made = rig
        .state
        .history
        .filter(|made| usize::from(made.file) == file);
    made.map_or(0, |made| usize::from(made.quantity))
}

/// Stores a record of this number, and notes the one that went.
fn store_one(rig: &mut Rig, file: usize, number: u16, account: &mut Account) {
    let values = rig.config.files[file].unwrap();
    let (before, first) = (held(rig, file), remembered(rig, file));
    match rig.store(file as u8, 1, &vec![number; usize::from(values)]) {
        0 => account.stored.push(number),
        answer => assert_eq!((answer, rig.config.oldest[file] || first == 32), (1, true)),
    }
    let after = held(rig, file);
    let gone = before.iter().filter(|record| !after.contains(record));
    account.dropped.extend(gone);
    assert_eq!(after[..first], before[..first]);
}

#[test]
fn stored_without_the_dropped_are_those_released_then_those_held() {
    for seed in 0..100 {
        let (mut dice, mut rig) = (Dice(seed), dropping());
        let files = [0, 1, 5, 31];
        let mut accounts: [Account; 4] = Default::default();
        for number in 0..500 {
            let place = dice.below(4);
            let (file, account) = (files[place], &mut accounts[place]);
            let command = dice.pick(&[0x40, 0x60, 0x20, 0x00]) | dice.pick(&[0, 1, 5, 31]);
            match dice.below(20) {
                0 => assert_eq!(rig.ask(1, 0x20, 0x00, &[]), 0),
                1..=3 => poll(&mut rig, &mut dice, command, &files, &mut accounts),
                _ => store_one(&mut rig, file, number, account),
            }
            for (file, account) in files.into_iter().zip(&accounts) {
                check_account(&rig, file, account);
            }
        }
        assert!(accounts.iter().any(|account| !account.dropped.is_empty()));
    }
}

/// A master polls; what leaves a file is released.
fn poll(rig: &mut Rig, dice: &mut Dice, command: u8, files: &[usize; 4], all: &mut [Account; 4]) {
    let before = files.map(|file| held(rig, file));
    rig.ask(dice.pick(&[1, 2]), 0x04, command, &[]);
    for ((&file, account), before) in files.iter().zip(all).zip(before) {
        let gone = before.len() - held(rig, file).len();
        account.released.extend_from_slice(&before[..gone]);
    }
}

/// Demand 3 as request 7 has it, and the number dropped.
fn check_account(rig: &Rig, file: usize, account: &Account) {
    let left = account.stored.iter().copied();
    let left: Vec<u16> = left.filter(|n| !account.dropped.contains(n)).collect();
    assert_eq!(left, [&account.released[..], &held(rig, file)].concat());
    assert_eq!(usize::from(rig.state.dropped[file]), account.dropped.len());
}
