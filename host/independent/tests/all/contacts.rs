//! Two-bit status from contacts (document 02, request 8).

use crate::dice::Dice;
use crate::rig::*;

/// A unit with groups 0, 1 and 31, and tables 1 to 3: group 0 twice, group 1, and an analog.
fn rig() -> Rig {
    let mut rig = Rig::full();
    rig.config.inputs[1] = true;
    let tables = [0x10, 1, 0x00, 0x00, 1, 0x01, 0x00, 1, 0x80];
    assert_eq!(rig.load(1, 3, 0, &tables), 0);
    rig
}

/// Reports several states of one contact in turn.
fn report(rig: &mut Rig, contact: u8, states: &[u8]) {
    for &on in states {
        assert_eq!(rig.contact(contact, on), 0);
    }
}

/// The words of all equipped groups, by function 00.
fn scan(rig: &mut Rig) -> Vec<u16> {
    let got = rig.send(1, 0x00, 0x04, &[]);
    let pairs = got.data().chunks_exact(2);
    pairs
        .map(|pair| u16::from_le_bytes([pair[0], pair[1]]))
        .collect()
}

#[test]
fn contact_stands_at_its_place_of_its_group() {
    for contact in [0, 7, 8, 15, 248, 255] {
        let mut rig = rig();
        report(&mut rig, contact, &[1]);
        let (group, place) = (usize::from(contact / 8), contact % 8);
        let mut words = [0; 256];
        words[group] = 1 << place;
        assert_eq!(rig.state.words, words);
        report(&mut rig, contact, &[0]);
        words[group] = 0x100 << place;
        assert_eq!(rig.state.words, words);
    }
}

#[test]
fn mark_needs_more_than_one_change() {
    let cases: [(&[u8], u16); 6] = [
        (&[], 0x0000),
        (&[1], 0x0001),
        (&[1, 0], 0x0100),
        (&[1, 0, 1], 0x0101),
        (&[1, 1, 1], 0x0001),
        (&[0, 0], 0x0000),
    ];
    for (states, word) in cases {
        let mut rig = rig();
        report(&mut rig, 0, states);
        assert_eq!(scan(&mut rig), [word, 0, 0]);
    }
}

#[test]
fn each_contact_of_a_group_has_its_own_tally() {
    let mut rig = rig();
    report(&mut rig, 0, &[1]);
    report(&mut rig, 1, &[1]);
    report(&mut rig, 2, &[1, 0]);
    assert_eq!(scan(&mut rig), [0x0403, 0, 0]);
}

#[test]
fn mark_and_tally_start_anew_once_a_reply_carried_the_group() {
    let mut rig = rig();
    report(&mut rig, 0, &[1, 0, 1]);
    report(&mut rig, 1, &[1]);
    assert_eq!(scan(&mut rig), [0x0103, 0, 0]);
    assert_eq!(scan(&mut rig), [0x0003, 0, 0]);
    report(&mut rig, 0, &[0]);
    report(&mut rig, 1, &[0]);
    assert_eq!(scan(&mut rig), [0x0000, 0, 0]);
    report(&mut rig, 1, &[1, 0]);
    assert_eq!(scan(&mut rig), [0x0200, 0, 0]);
}

#[test]
fn table_reply_clears_just_the_groups_it_carried() {
    let mut rig = rig();
    report(&mut rig, 0, &[1, 0]);
    report(&mut rig, 8, &[1, 0]);
    report(&mut rig, 255, &[1, 0]);
    assert_eq!(rig.send(1, 0x0A, 0x43, &[]).data().len(), 2);
    assert_eq!(rig.send(1, 0x0A, 0x42, &[]).data(), [0, 1]);
    assert_eq!(scan(&mut rig), [0x0100, 0x0000, 0x8000]);
}

#[test]
fn group_that_comes_twice_is_the_same_word_each_time() {
    let mut rig = rig();
    report(&mut rig, 3, &[1, 0]);
    assert_eq!(rig.send(1, 0x0A, 0x41, &[]).data(), [0, 8, 0, 8]);
    assert_eq!(rig.send(1, 0x0A, 0x41, &[]).data(), [0, 0, 0, 0]);
}

#[test]
fn tally_of_one_change_starts_anew_too() {
    for command in [0x41, 0x43] {
        let mut rig = rig();
        report(&mut rig, 0, &[1]);
        rig.ask(1, 0x0A, command, &[]);
        report(&mut rig, 0, &[0]);
        let mark = if command == 0x41 { 0 } else { 0x100 };
        assert_eq!(rig.state.words[0], mark);
    }
}

#[test]
fn nothing_else_clears_a_mark() {
    let mut rig = rig();
    report(&mut rig, 0, &[1, 0]);
    report(&mut rig, 1, &[1]);
    let before = (rig.state.words, rig.state.changed);
    let frames: [(u8, u8, &[u8], u8); 9] = [
        (0x00, 0x49, &[], 0),
        (0x00, 0x06, &[], 6),
        (0x00, 0x04, &[1], 7),
        (0x0A, 0x41, &[1], 7),
        (0x0A, 0x44, &[], 8),
        (0x03, 0x80, &[], 0),
        (0x04, 0x60, &[], 0),
        (0x20, 0x00, &[], 0),
        (0x28, 0x30, &[0, 0, 3, 9], 0),
    ];
    for (function, command, data, outcome) in frames {
        assert_eq!(rig.ask(1, function, command, data), outcome);
    }
    rig.ask(1, 0x10, 0x10, &[7]);
    assert_eq!(rig.ask(1, 0x00, 0x04, &[]), 12);
    assert_eq!(rig.broadcast(1, 0x00, 0x04, &[]), 16);
    assert_eq!(rig.raw(&frame(1, UNIT + 1, 0x00, 0x04, &[])).outcome, 3);
    rig.raw(&[1, 2, 3]);
    rig.wait(u32::MAX);
    assert_eq!((rig.state.words, rig.state.changed), before);
}

#[test]
fn refused_table_scan_with_a_group_in_it_clears_nothing() {
    for tables in [
        vec![0x00, 2, 0x00, 0x20],
        [&[0x11, 86][..], &[0; 86]].concat(),
    ] {
        let mut rig = rig();
        rig.load(1, 3, 0, &tables);
        report(&mut rig, 0, &[1, 0]);
        assert_ne!(rig.ask(1, 0x0A, 0x41, &[]), 0);
        assert_eq!(rig.state.words[0], 0x0100);
    }
}

#[test]
fn contact_of_a_group_not_equipped_is_8_and_not_kept() {
    let mut rig = rig();
    let before = rig.state.clone();
    for contact in [16, 23, 247] {
        assert_eq!([rig.contact(contact, 1), rig.contact(contact, 0)], [8; 2]);
    }
    assert_eq!(rig.state, before);
}

#[test]
fn state_other_than_0_and_1_is_8() {
    let mut rig = rig();
    let before = rig.state.clone();
    for on in [2, 3, 128, 255] {
        assert_eq!(rig.contact(0, on), 8);
    }
    assert_eq!(rig.state, before);
}

#[test]
fn two_bit_word_is_not_set_ready_made() {
    let mut rig = rig();
    for number in 0..0x20 {
        assert_eq!(rig.word(number, 0x1234), 8);
    }
    assert_eq!(rig.state.words, [0; 256]);
}

#[test]
fn word_set_ready_made_before_is_sent_and_its_marks_clear() {
    let mut rig = rig();
    rig.state.words[0] = 0xFFFF;
    assert_eq!(scan(&mut rig), [0xFFFF, 0, 0]);
    assert_eq!(scan(&mut rig), [0x00FF, 0, 0]);
}

/// What is told of one contact, kept as plain counts.
#[derive(Clone, Copy, Default)]
struct Told {
    on: bool,
    changes: usize,
}

/// The word that plain counts give for a group.
fn expected(told: &[Told; 256], group: usize) -> u16 {
    let contacts = told[8 * group..8 * group + 8].iter().enumerate();
    let bits = contacts.map(|(place, told)| {
        u16::from(told.on) << place | u16::from(told.changes > 1) << (8 + place)
    });
    bits.sum()
}

#[test]
fn words_are_those_of_plain_counts() {
    for seed in 0..100 {
        let (mut dice, mut rig) = (Dice(seed), rig());
        let mut told = [Told::default(); 256];
        for _ in 0..400 {
            let contact = dice.pick(&[0, 1, 7, 8, 9, 248, 255]);
            let on = dice.below(2) == 1;
            report(&mut rig, contact, &[u8::from(on)]);
            let one = &mut told[usize::from(contact)];
            one.changes += usize::from(one.on != on);
            one.on = on;
            let groups = [0, 1, 31].map(|group| (rig.state.words[group], expected(&told, group)));
            assert!(groups.iter().all(|(word, counts)| word == counts));
            // All groups are carried, or one, or none.
            let carried = match dice.below(9) {
                0 => (0x00, 0x04, 0..256),
                1 => (0x0A, 0x41, 0..8),
                2 => (0x0A, 0x42, 8..16),
                _ => continue,
            };
            assert_eq!(rig.ask(1, carried.0, carried.1, &[]), 0);
            told[carried.2].iter_mut().for_each(|told| told.changes = 0);
        }
    }
}
