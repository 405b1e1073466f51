//! A unit saved and restored.

use crate::line::{answered, asked, UNIT};
use osturdam::{Clock, Config, ControlOutput, File, Hold, Input, Mark, Master, Memory, Ordinal};
use osturdam::{Outcome, Pending, Select, SpecialCalculation, Stored, Unit, Write};
use osturdam::{RECORDS, ROOM, VALUES};

fn equipped() -> Config {
    Config::new(UNIT)
        .input(Input(0x80))
        .output(ControlOutput(9))
        .calculation(SpecialCalculation(5))
        .file(File(31), 3)
        .block(10)
}

fn busy() -> Unit {
    let mut unit = Unit::fresh(equipped());
    assert_eq!(unit.set_word(Input(0x80), 0xBEEF), Outcome::Done);
    assert_eq!(
        unit.set_value(SpecialCalculation(5), 0x7FC0_0001),
        Outcome::Done
    );
    assert_eq!(unit.store_record(File(31), 4, &[1, 2, 3]), Stored::Stored);
    assert_eq!(answered(&mut unit, 1, 0x10, 0x11, &[9]), [9]);
    assert_eq!(
        asked(&mut unit, 2, 0x20, 0x30, &[3, 1, 6]),
        Outcome::WriteTaken
    );
    assert_eq!(unit.elapsed(4_000), Outcome::Done);
    unit
}

#[test]
fn a_restored_unit_is_the_same_and_goes_on() {
    let mut unit = busy();
    let mut restored = Unit::from_bytes(&unit.to_bytes());
    assert_eq!(restored, unit);
    for unit in [&mut unit, &mut restored] {
        assert_eq!(answered(unit, 3, 0x03, 0x80, &[]), [0x01, 0x00, 0xC0, 0x7F]);
        assert_eq!(answered(unit, 3, 0x00, 0x08, &[]), [0xEF, 0xBE]);
    }
    assert_eq!(restored.to_bytes(), unit.to_bytes());
}

#[test]
fn the_view_reads_what_is_kept() {
    let view = busy().kept().view().expect("a unit's own numbers are read");
    assert_eq!(
        view.clock,
        Clock {
            day: 1,
            hour: 0,
            minute: 0,
            second: 4,
            ms: 0
        }
    );
    assert_eq!(
        view.hold,
        Hold::Held(Select {
            master: Master(1),
            output: ControlOutput(9),
            close: true,
            age: 4_000
        })
    );
    assert_eq!(
        view.write,
        Pending::Waits(Write {
            master: Master(2),
            bias: 0x103,
            ordinal: Ordinal(6),
            age: 4_000
        })
    );
    assert_eq!(
        (view.configure, view.error, view.broadcast),
        (true, false, false)
    );
    assert_eq!(view.memory, Memory::Nothing);
    assert_eq!((view.port.silence, view.port.mark), (4_000, Mark::Fine));
}

#[test]
fn its_configuration_is_saved_with_it() {
    let restored = Unit::from_bytes(&busy().to_bytes()).config();
    assert_eq!(restored, equipped());
    assert_eq!((restored.unit(), restored.block_length()), (UNIT, 10));
    assert!(restored.has_input(Input(0x80)) && !restored.has_input(Input(0x81)));
    assert!(restored.has_output(ControlOutput(9)) && !restored.has_output(ControlOutput(8)));
    let calculated = [5, 6].map(|n| restored.has_calculation(SpecialCalculation(n)));
    assert_eq!(calculated, [true, false]);
    let values = [31, 30, 32].map(|n| restored.values(File(n)));
    assert_eq!(values, [Some(3), None, None]);
}

#[test]
fn what_is_held_is_read() {
    let mut unit = busy();
    assert_eq!(unit.word(Input(0x80)), 0xBEEF);
    let values = [5, 127, 128].map(|n| unit.value(SpecialCalculation(n)));
    assert_eq!(values, [Some(0x7FC0_0001), Some(0), None]);
    let record = unit.record(File(31), 0).unwrap_or(&[]);
    assert_eq!((record.len(), record.first()), (12, Some(&4)));
    assert_eq!(record[6..], [1, 0, 2, 0, 3, 0]);
    assert_eq!(
        (unit.record(File(31), 1), unit.record(File(0), 0)),
        (None, None)
    );
    assert_eq!(unit.record(File(32), 0), None);
    for (ordinal, length) in [(0x00, 16), (0x03, 256), (0x06, 10), (0x0B, 256)] {
        let last = [(length - 1) as u8, 0, ordinal];
        assert_eq!(asked(&mut unit, 2, 0x20, 0x30, &last), Outcome::WriteTaken);
        assert_eq!(asked(&mut unit, 2, 0x20, 0x31, b"x"), Outcome::Done);
        let block = unit.block(Ordinal(ordinal)).unwrap_or(&[]);
        assert_eq!((block.len(), block.last()), (length, Some(&b'x')));
    }
    assert_eq!(
        (unit.block(Ordinal(2)), unit.block(Ordinal(255))),
        (None, None)
    );
}

/// Files of several lengths, with others between them that are not equipped.
const FILES: [(u8, u8); 4] = [(0, 16), (1, 1), (7, 3), (31, 2)];

fn of_many_lengths() -> Unit {
    let equip = |config: Config, (file, values)| config.file(File(file), values);
    Unit::fresh(FILES.into_iter().fold(Config::new(UNIT), equip))
}

#[test]
fn records_of_every_length_are_read_at_their_places() {
    let mut unit = of_many_lengths();
    for n in 0..ROOM as u8 {
        for (file, values) in FILES {
            let given = vec![u16::from_le_bytes([n, file]); values.into()];
            assert_eq!(unit.store_record(File(file), n, &given), Stored::Stored);
        }
    }
    for n in 0..ROOM as u8 {
        for (file, values) in FILES {
            let record = unit.record(File(file), n).unwrap_or(&[]);
            assert_eq!((record.len(), record[0]), (6 + 2 * usize::from(values), n));
            assert_eq!(record[6..], [n, file].repeat(values.into()));
        }
    }
    assert_eq!(Unit::from_bytes(&unit.to_bytes()), unit);
}

#[test]
fn a_unit_has_no_more_room_than_it_asks_for() {
    let none = Unit::fresh(Config::new(UNIT)).to_bytes().len();
    let sizes: usize = FILES.iter().map(|(_, v)| 6 + 2 * usize::from(*v)).sum();
    let unit = of_many_lengths();
    assert_eq!(unit.config().room(), (ROOM * sizes) as u64);
    assert_eq!(unit.to_bytes().len(), none + ROOM * sizes);
    let most = (0..32).fold(Config::new(UNIT), |c, f| c.file(File(f), VALUES as u8));
    assert_eq!(most.room(), RECORDS as u64);
    assert_eq!(Unit::fresh(most).elapsed(0), Outcome::Done);
}

#[test]
fn one_that_is_cut_short_is_refused_and_left() {
    let whole = of_many_lengths().to_bytes();
    for length in [0, 1, 2810, 2810 + 512, whole.len() - 1] {
        let mut cut = Unit::from_bytes(&whole[..length]);
        let before = cut.to_bytes();
        assert_eq!(cut.elapsed(1), Outcome::NotConfigured, "{length} of them");
        assert_eq!(cut.store_record(File(1), 1, &[1]), Stored::NotConfigured);
        assert_eq!(cut.to_bytes(), before);
    }
    let mut longer = Unit::from_bytes(&[&whole[..], &[0xEE; 9]].concat());
    assert_eq!(longer.store_record(File(31), 1, &[1, 2]), Stored::Stored);
    assert_eq!(longer.to_bytes()[whole.len()..], [0xEE; 9]);
}
