//! The demands over random runs: damage leaves no trace, no record is lost, every input ends.

use crate::dice::Dice;
use crate::rig::*;
use independent::{HistoryReply, Select, Write};

#[derive(Clone, Debug)]
enum Event {
    Stretch(Vec<u8>),
    Time(u32),
    Pulses(u8, u16),
    Word(u8, u16),
    Contact(u8, u8),
    Value(u8, u32),
    Store(u8, u8),
}

/// A good frame or pair of one of a few masters, mostly of a kind that is carried out.
fn good_frame(dice: &mut Dice) -> Vec<u8> {
    let unit = dice.pick(&[UNIT, UNIT, UNIT, UNIT, UNIT, UNIT, ALL, UNIT + 1]);
    let master = dice.below(3) as u8;
    let file = dice.pick(&[0, 1, 5, 2]);
    let ordinal = dice.pick(&[0, 3, 6, 0x0B, 5]);
    let (function, command, data): (u8, u8, Vec<u8>) = match dice.below(15) {
        0 => (0x00, dice.pick(&[0x4D, 0x01, 0x41, 0x02]), vec![]),
        1 => (0x03, 0x80, vec![]),
        2 => (0x03, 0x00, vec![4, dice.pick(&[0x15, 0x16])]),
        3..=5 => (0x04, dice.pick(&[0x40, 0x60, 0x00, 0x20]) | file, vec![]),
        6 => (0x0A, dice.pick(&[0x41, 0x42]), vec![]),
        7 => (0x10, dice.pick(&[0x10, 0x11]), vec![dice.pick(&[7, 8])]),
        8 => (0x10, dice.pick(&[0x20, 0x20, 0x20, 0x21]), vec![]),
        9 => (0x20, 0x11, vec![0x40]),
        10 => (0x20, 0x30, vec![dice.pick(&[0, 2]), 0, ordinal]),
        11 => (0x20, 0x31, vec![0, 1, dice.pick(&[0x30, 0x80])]),
        12 => (0x28, dice.pick(&[0x30, 0x31]), vec![0, 0, ordinal, 4]),
        13 => return pair(dice, master, unit, ordinal),
        _ => (
            0x20,
            dice.pick(&[0x00, 0x38]),
            vec![0, 0x33, 0x11, 0x22, 0x33, 0, 9],
        ),
    };
    frame(master, unit, function, command, &data)
}

/// A WRITE and its EXECUTE in one stretch.
fn pair(dice: &mut Dice, master: u8, unit: u16, ordinal: u8) -> Vec<u8> {
    let write = frame(master, unit, 0x20, 0x30, &[dice.pick(&[0, 2]), 0, ordinal]);
    let data = vec![dice.byte(); dice.below(20)];
    [write, frame(master, unit, 0x20, 0x31, &data)].concat()
}

fn event(dice: &mut Dice) -> Event {
    match dice.below(22) {
        0 => Event::Time(dice.pick(&[0, 1, 1_000, 4_999, 5_000, 5_001, 60_000])),
        1 => Event::Pulses(0x40, dice.below(65_536) as u16),
        2 => Event::Word(dice.pick(&[0x30, 0x80, 0x40]), dice.below(65_536) as u16),
        3 => Event::Value(4, dice.below(1 << 30) as u32),
        4 | 5 => Event::Contact(dice.pick(&[0, 7, 8, 255]), dice.pick(&[0, 1, 1, 2])),
        6..=9 => Event::Store(dice.pick(&[0, 0, 1, 5, 2]), dice.byte()),
        _ => Event::Stretch(good_frame(dice)),
    }
}

fn apply(rig: &mut Rig, event: &Event) -> (u8, Option<Got>) {
    match event {
        Event::Stretch(bytes) => {
            let got = rig.raw(bytes);
            (got.outcome, Some(got))
        }
        Event::Time(ms) => (rig.wait(*ms), None),
        Event::Pulses(number, count) => (rig.pulses(*number, *count), None),
        Event::Word(number, word) => (rig.word(*number, *word), None),
        Event::Contact(number, on) => (rig.contact(*number, *on), None),
        Event::Value(number, bits) => (rig.value(*number, *bits), None),
        Event::Store(file, kind) => {
            let values = rig.config.files[usize::from(*file)].unwrap_or(1);
            (rig.store(*file, *kind, &vec![7; usize::from(values)]), None)
        }
    }
}

/// A good stretch cut at its end, not at a seam, or changed within 16 neighbouring sent bits.
fn damaged(dice: &mut Dice) -> Vec<u8> {
    let mut bytes = good_frame(dice);
    if dice.below(2) == 0 {
        let left = dice.below(bytes.len());
        let seam = independent::Frame::read(&bytes[..left]).is_ok();
        bytes.truncate(if seam { left - 1 } else { left });
        return bytes;
    }
    let bits = bytes.len() * 8;
    let start = dice.below(bits);
    let pattern = dice.below(65_536) | 1;
    for bit in (0..16).filter(|bit| pattern >> bit & 1 == 1 && start + bit < bits) {
        bytes[(start + bit) / 8] ^= 1 << ((start + bit) % 8);
    }
    bytes
}

/// A result without the port status and the check over it.
fn but_port((outcome, got): (u8, Option<Got>)) -> (u8, Option<Got>) {
    let plain = got.map(|mut got| {
        got.bytes.clear();
        got.reply.iter_mut().for_each(|heard| heard.port = 0);
        got
    });
    (outcome, plain)
}

#[test]
fn damaged_stretch_leaves_no_trace_but_the_port_status() {
    for seed in 0..300 {
        let mut dice = Dice(seed);
        let (mut with, mut without) = (Rig::full(), Rig::full());
        for _ in 0..80 {
            if dice.below(6) == 0 {
                let got = with.raw(&damaged(&mut dice));
                assert!(matches!(got.outcome, 1 | 2) && got.reply.is_none());
            }
            let event = event(&mut dice);
            let results = (apply(&mut with, &event), apply(&mut without, &event));
            assert_eq!(but_port(results.0), but_port(results.1), "{event:?}");
            assert_eq!(with.state.bit2, without.state.bit2);
            with.assert_only_port(&without.state);
            assert_eq!(with.params, without.params);
        }
    }
}

/// The master of a stretch if it is an acknowledging request to this unit.
fn acknowledger(event: &Event) -> Option<u8> {
    match event {
        Event::Stretch(bytes) if bytes[2] == 0x04 && bytes[3] & 0x40 != 0 => Some(bytes[1] >> 3),
        _ => None,
    }
}

#[test]
fn stored_records_are_those_released_then_those_held() {
    for seed in 0..300 {
        let mut dice = Dice(seed + 1_000_000);
        let mut rig = Rig::full();
        let mut stored = vec![Vec::new(); 32];
        let mut released = vec![Vec::new(); 32];
        for _ in 0..200 {
            let before = rig.state.clone();
            let event = event(&mut dice);
            let (outcome, _) = apply(&mut rig, &event);
            if let (Event::Store(file, _), 0) = (&event, outcome) {
                let file = usize::from(*file);
                stored[file].push(rig.state.files[file].last().unwrap().clone());
            }
            for file in 0..32 {
                let gone = before.files[file]
                    .len()
                    .saturating_sub(rig.state.files[file].len());
                released[file].extend_from_slice(&before.files[file][..gone]);
                let made = before.history.filter(|made| usize::from(made.file) == file);
                if gone > 0 {
                    assert_eq!(made.map(|made| made.master), acknowledger(&event));
                    assert_eq!(made.map(|made| usize::from(made.quantity)), Some(gone));
                }
                let all = [&released[file][..], &rig.state.files[file][..]].concat();
                assert_eq!(all, stored[file]);
            }
        }
    }
}

/// A kept state with numbers in and out of range.
fn odd_state(rig: &mut Rig, dice: &mut Dice) {
    let master = dice.pick(&[0, 1, 31, 31, 32]);
    let age = dice.pick(&[0, 4_999, 5_000, 5_000, 5_001]);
    let (quantity, more) = (dice.pick(&[0, 1, 2, 31, 200]), dice.below(2) == 0);
    let output = dice.pick(&[7, 7, 8]);
    rig.state.select = Some(Select {
        master,
        output,
        close: true,
        age,
    })
    .filter(|_| more);
    rig.state.write = Some(Write {
        master,
        bias: 65_535,
        ordinal: 6,
        age,
    })
    .filter(|_| !more);
    let made = HistoryReply {
        master,
        file: dice.pick(&[0, 5, 2, 99]),
        dump: true,
        quantity,
        more,
    };
    rig.state.history = Some(made).filter(|_| dice.below(2) == 0);
    rig.state.timed_out = Some(master).filter(|_| dice.below(2) == 0);
    rig.state.silence = dice.pick(&[0, 59_999, 60_000, 60_000, u32::MAX]);
    rig.state
        .fixed
        .block_03
        .iter_mut()
        .for_each(|byte| *byte = dice.below(256) as u8);
    rig.config.oldest = [dice.below(2) == 0; 32];
    rig.config.unit = dice.pick(&[UNIT, UNIT, UNIT, 0x7FF, 0xFFFF]);
    rig.config.parameter_length = dice.pick(&[20, 20, 20, 0, 513]);
}

#[test]
fn every_event_ends_on_every_state_and_17_changes_nothing() {
    let mut dice = Dice(77);
    let (mut refused, mut taken) = (0, 0);
    for _ in 0..3_000 {
        let mut rig = Rig::full();
        rig.store_events(0, &vec![1; dice.below(33)]);
        odd_state(&mut rig, &mut dice);
        for _ in 0..4 {
            let before = rig.state.clone();
            let noise: Vec<u8> = (0..dice.below(200)).map(|_| dice.byte()).collect();
            let event = if dice.below(8) == 0 {
                Event::Stretch(noise)
            } else {
                event(&mut dice)
            };
            let (outcome, _) = apply(&mut rig, &event);
            match outcome {
                17 => assert_eq!(rig.state, before),
                _ => assert!(independent::fits(&rig.config, &rig.state, rig.params.len())),
            }
            *(if outcome == 17 {
                &mut refused
            } else {
                &mut taken
            }) += 1;
        }
    }
    assert!(refused > 1_000 && taken > 100, "{refused} {taken}");
}
