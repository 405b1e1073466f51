//! A master and a unit on a line that loses, cuts and changes.

use super::*;
use crate::dice::Dice;
use independent::master::Record;

/// A request of any kind, mostly one that this unit carries out.
fn request(dice: &mut Dice) -> Request {
    let ordinal = dice.pick(&[0, 3, 6, 0x0B, 5]);
    let bias = dice.pick(&[0, 1, 15, 255]);
    match dice.below(18) {
        0 => Request::Scan {
            kinds: dice.byte() & 0x4D,
        },
        1 => Request::Table(1 + dice.below(3) as u8),
        2 => Request::AllCalculations,
        3 => {
            let numbers = dice.pick(&[&[4, 0x15][..], &[4, 0x7F, 4], &[4, 5, 0x80, 5], &[4; 103]]);
            calculations(numbers)
        }
        4 => Request::Select {
            output: Output(dice.pick(&[0, 7, 7, 8])),
            close: dice.below(2) == 0,
        },
        5 => Request::Operate,
        6 => Request::ResetSelect,
        7 => Request::Initialize,
        8 => Request::ResetCount(Input(dice.pick(&[0x40, 0x41, 0x30]))),
        9 => Request::Write { bias, ordinal },
        10 => Request::Execute(table(dice)),
        11 => Request::SetTime(TIME),
        12 => Request::Read {
            bias,
            ordinal,
            quantity: dice.byte(),
        },
        13 => Request::ReadTime,
        14 => broadcasts()[dice.below(2)].clone(),
        _ => poll(dice.pick(&[0, 1, 5, 31, 2]), dice.below(2) == 0),
    }
}

/// Data to be written, often tables that name each other.
fn table(dice: &mut Dice) -> Vec<u8> {
    let tables = [0x20, 1, dice.pick(&[0x30, 0x31]), 0x11, 2, 0x40, 0x80];
    tables[..1 + dice.below(7)].to_vec()
}

/// What becomes of the bytes on the line; None where all are lost.
fn line(dice: &mut Dice, mut bytes: Vec<u8>) -> (Option<Vec<u8>>, bool) {
    match dice.below(10) {
        0 => (None, true),
        1 => {
            bytes.truncate(dice.below(bytes.len()));
            (Some(bytes), true)
        }
        2 => {
            let bits = bytes.len() * 8;
            let (start, pattern) = (dice.below(bits), dice.below(65_536) | 1);
            for bit in (0..16).filter(|bit| pattern >> bit & 1 == 1 && start + bit < bits) {
                bytes[(start + bit) / 8] ^= 1 << ((start + bit) % 8);
            }
            (Some(bytes), true)
        }
        _ => (Some(bytes), false),
    }
}

/// The data characters that an answer stands for.
fn characters(said: &Said) -> Vec<u8> {
    match said {
        Said::Rst => vec![],
        Said::Nop(data) => data.clone(),
        Said::Normal(data) => match data {
            Data::Nothing => vec![],
            Data::Words(words) => words.iter().flat_map(|w| w.to_le_bytes()).collect(),
            Data::Values(values) => values.iter().flat_map(|v| v.to_le_bytes()).collect(),
            Data::Numbered(values) => {
                let pairs = values.iter().map(|(n, v)| (n.0, v.to_le_bytes()));
                pairs
                    .flat_map(|(n, v)| [n, v[0], v[1], v[2], v[3]])
                    .collect()
            }
            Data::History { records, more } => {
                let first = u8::from(*more) << 7 | records.len() as u8;
                [vec![first], records.concat()].concat()
            }
            Data::Selected(Output(number)) | Data::Reset(Input(number)) => vec![*number],
            Data::Block(data) => data.clone(),
            Data::Time(clock) => clock.characters().to_vec(),
        },
    }
}

/// The read reply is what the unit sent.
fn same(read: &Read, got: &Got) {
    let heard = got.heard();
    assert_eq!((read.status, read.port_status), (heard.status, heard.port));
    assert_eq!(characters(&read.said), heard.data);
    let kind = match got.outcome {
        0 => matches!(read.said, Said::Normal(_)),
        6..=11 => matches!(read.said, Said::Nop(_)),
        _ => read.said == Said::Rst,
    };
    assert!(kind, "{read:?} {}", got.outcome);
}

/// One request and its reply over the line; whether the reply was believed.
fn exchange(dice: &mut Dice, master: &mut Master, rig: &mut Rig, wish: &Request) -> bool {
    let bytes = build(master, wish, ROOM).expect("a frame");
    let (Some(bytes), damaged) = line(dice, bytes) else {
        return false;
    };
    let got = rig.raw(&bytes);
    assert_eq!(damaged, matches!(got.outcome, 1 | 2));
    if got.reply.is_none() {
        return false;
    }
    let (Some(bytes), damaged) = line(dice, got.bytes.clone()) else {
        return false;
    };
    let mut expected = master.clone();
    expected.retry = true;
    let answer = read(master, &bytes);
    match &answer {
        Ok(read) => same(read, &got),
        Err(refusal) => {
            assert!(matches!(refusal, Refusal::NotWhole | Refusal::Check));
            assert_eq!(*master, expected);
        }
    }
    assert_eq!(answer.is_ok(), !damaged);
    !damaged
}

/// Another master or the plant does something.
fn elsewhere(dice: &mut Dice, rig: &mut Rig) {
    let values = vec![dice.below(65_536) as u16; 1];
    match dice.below(10) {
        0 => assert_eq!(rig.word(dice.pick(&[0x30, 0x80]), values[0]), 0),
        1 => assert_eq!(rig.value(4, values[0].into()), 0),
        2 => assert_eq!(rig.pulses(0x40, values[0]), 0),
        3 => assert_eq!(rig.wait(dice.pick(&[0, 999, 5_001, 61_000])), 0),
        4 => drop(rig.ask(2, 0x10, 0x10, &[7])),
        5 => drop(rig.ask(2, 0x20, 0x30, &[0, 0, 6])),
        6 => drop(rig.ask(2, 0x04, dice.pick(&[0x40, 0x60]), &[])),
        _ => drop(rig.store(0, dice.byte(), &values)),
    }
}

#[test]
fn every_undamaged_reply_is_read_as_what_was_sent_and_every_damaged_one_refused() {
    let (mut believed, mut other) = (0, 0);
    for seed in 0..150 {
        let (mut dice, mut master, mut rig) = (Dice(seed), fresh(), Rig::full());
        for _ in 0..200 {
            elsewhere(&mut dice, &mut rig);
            let wish = request(&mut dice);
            match exchange(&mut dice, &mut master, &mut rig, &wish) {
                true => believed += 1,
                false => other += 1,
            }
        }
    }
    assert!(believed > 10_000 && other > 5_000, "{believed} {other}");
}

/// The characters of the records of a file, by the master's account.
fn kept(records: &[Record], file: usize) -> Vec<Vec<u8>> {
    let of_file = records.iter().filter(|r| usize::from(r.file) == file);
    of_file.map(|record| record.characters.clone()).collect()
}

/// The number of records of this file that the unit's latest history reply carried.
fn remembered(rig: &Rig, file: usize) -> usize {
    let made = rig
        .state
        .history
        .filter(|made| usize::from(made.file) == file);
    made.map_or(0, |made| usize::from(made.quantity))
}

const FILES: [usize; 4] = [0, 1, 5, 31];

/// The master has what was released, and then all or none of the latest reply's records.
fn nothing_lost(master: &Master, rig: &Rig, released: &[Vec<Vec<u8>>; 4]) {
    for (file, released) in FILES.into_iter().zip(released) {
        let latest = &rig.state.files[file][..remembered(rig, file)];
        let kept = kept(&master.records, file);
        let with = [&released[..], latest].concat();
        assert!(kept == *released || kept == with, "{kept:02X?} {with:02X?}");
    }
}

/// A run in which no other master polls history, nothing initializes and no two records are equal.
fn run(seed: u64, oldest: bool) -> usize {
    let (mut dice, mut master, mut rig) = (Dice(seed), fresh(), Rig::full());
    rig.config.oldest = [oldest; 32];
    let mut released: [Vec<Vec<u8>>; 4] = Default::default();
    for number in 0..400 {
        let file = dice.pick(&FILES);
        let values = usize::from(rig.config.files[file].unwrap());
        rig.store(file as u8, 1, &vec![number; values]);
        let before = rig.state.files.clone();
        let wish = match dice.below(3) {
            0 => request(&mut dice),
            _ => poll(dice.pick(&[0, 1, 5, 31, 2]), dice.below(2) == 0),
        };
        if wish != Request::Initialize {
            exchange(&mut dice, &mut master, &mut rig, &wish);
        }
        for (&file, released) in FILES.iter().zip(&mut released) {
            let gone = before[file].len() - rig.state.files[file].len();
            released.extend_from_slice(&before[file][..gone]);
        }
        nothing_lost(&master, &rig, &released);
    }
    released.iter().map(Vec::len).sum()
}

#[test]
fn no_record_is_lost_or_doubled_between_master_and_unit() {
    for seed in 0..60 {
        for oldest in [true, false] {
            assert!(run(seed, oldest) > 20);
        }
    }
}
