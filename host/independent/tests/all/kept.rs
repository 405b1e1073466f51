//! Configuration and kept state, and outcome 17 (readings 104 to 112).

use crate::rig::*;
use independent::{fits, Config, HistoryReply, Select, State, Write};

/// Whether the full rig still fits after a change to its kept state.
fn fits_after(change: impl FnOnce(&mut State)) -> bool {
    let mut rig = Rig::full();
    change(&mut rig.state);
    let fit = fits(&rig.config, &rig.state, rig.params.len());
    let before = rig.state.clone();
    let outcome = rig.raw(&[]).outcome;
    assert_eq!((outcome == 17, &rig.state), (!fit, &before));
    fit
}

fn valid_after(change: impl FnOnce(&mut Config)) -> bool {
    let mut config = Config::new(UNIT);
    change(&mut config);
    let length = config.parameter_length;
    assert_eq!(fits(&config, &State::fresh(), length), config.valid());
    config.valid()
}

/// The rule of reading 104, written out by cases.
fn possible(values: u8, held: usize, dump: bool, quantity: usize, more: bool) -> bool {
    let most = if dump {
        510 / (6 + 2 * usize::from(values))
    } else {
        1
    };
    match (quantity, more) {
        (0, more) => !more,
        (_, true) => quantity == most && held > quantity,
        (_, false) => quantity <= most.min(held),
    }
}

#[test]
fn history_reply_must_be_one_its_file_could_have_given() {
    for values in [1, 4, 5, 12, 16] {
        let mut rig = Rig::full();
        rig.config.files[0] = Some(values);
        for held in 0..=32 {
            rig.state.files[0] = vec![vec![0; 6 + 2 * usize::from(values)]; held];
            for case in 0..4 * 64 {
                let (dump, more, quantity) = (case & 1 == 1, case & 2 == 2, (case >> 2) as u8);
                let made = HistoryReply {
                    master: 31,
                    file: 0,
                    dump,
                    quantity,
                    more,
                };
                rig.state.history = Some(made);
                let expected = possible(values, held, dump, usize::from(quantity), more);
                assert_eq!(
                    fits(&rig.config, &rig.state, 20),
                    expected,
                    "{values} {held} {made:?}"
                );
            }
        }
    }
}

#[test]
fn history_reply_of_a_wrong_file_or_master_does_not_fit() {
    let made = HistoryReply {
        master: 0,
        file: 0,
        dump: false,
        quantity: 0,
        more: false,
    };
    assert!(fits_after(|state| state.history = Some(made)));
    for file in [2, 32, 255] {
        assert!(!fits_after(
            |state| state.history = Some(HistoryReply { file, ..made })
        ));
    }
    for master in [32, 255] {
        assert!(!fits_after(
            |state| state.history = Some(HistoryReply { master, ..made })
        ));
    }
    assert!(!fits_after(|state| state.history = Some(HistoryReply {
        quantity: 255,
        ..made
    })));
}

#[test]
fn clock_fields_must_be_in_range() {
    assert!(fits_after(|state| state.clock.day = 366));
    assert!(!fits_after(|state| state.clock.day = 0));
    assert!(!fits_after(|state| state.clock.day = 367));
    assert!(!fits_after(|state| state.clock.hour = 24));
    assert!(!fits_after(|state| state.clock.minute = 60));
    assert!(!fits_after(|state| state.clock.second = 60));
    assert!(!fits_after(|state| state.clock.ms = 1000));
}

#[test]
fn masters_and_ages_must_be_in_range() {
    let select = Select {
        master: 31,
        output: 7,
        close: true,
        age: 5_000,
    };
    assert!(fits_after(|state| state.select = Some(select)));
    assert!(!fits_after(|state| state.select = Some(Select {
        master: 32,
        ..select
    })));
    assert!(!fits_after(|state| state.select = Some(Select {
        age: 5_001,
        ..select
    })));
    let write = Write {
        master: 31,
        bias: 0xFFFF,
        ordinal: 0xFF,
        age: 5_000,
    };
    assert!(fits_after(|state| state.write = Some(write)));
    assert!(!fits_after(|state| state.write = Some(Write {
        master: 32,
        ..write
    })));
    assert!(!fits_after(|state| state.write = Some(Write {
        age: u32::MAX,
        ..write
    })));
    assert!(fits_after(|state| state.timed_out = Some(31)));
    assert!(!fits_after(|state| state.timed_out = Some(32)));
}

#[test]
fn silence_and_mark_must_be_in_range() {
    assert!(fits_after(|state| state.silence = 60_000));
    assert!(!fits_after(|state| state.silence = 60_001));
    assert!(fits_after(|state| state.mark = 2));
    assert!(!fits_after(|state| state.mark = 3));
}

#[test]
fn files_must_hold_at_most_32_records_of_their_size() {
    assert!(fits_after(|state| state.files[0] = vec![vec![0; 8]; 32]));
    assert!(!fits_after(|state| state.files[0] = vec![vec![0; 8]; 33]));
    assert!(!fits_after(|state| state.files[0] = vec![vec![0; 9]]));
    assert!(!fits_after(|state| state.files[2] = vec![vec![0; 8]]));
    assert!(!fits_after(|state| state.files.truncate(31)));
    assert!(!fits_after(|state| state.files.push(Vec::new())));
}

#[test]
fn select_of_an_unequipped_output_does_not_fit() {
    let select = Select {
        master: 1,
        output: 8,
        close: true,
        age: 0,
    };
    assert!(!fits_after(|state| state.select = Some(select)));
}

#[test]
fn odd_but_harmless_states_fit() {
    assert!(fits_after(|state| state.files[0] = vec![vec![0xFF; 8]]));
    assert!(fits_after(|state| state.words = [0xFFFF; 256]));
    assert!(fits_after(|state| state.changed = [0xFF; 32]));
    assert!(fits_after(|state| state.values = [u32::MAX; 128]));
    assert!(fits_after(|state| {
        state.select = Some(Select {
            master: 1,
            output: 7,
            close: true,
            age: 0,
        });
        state.write = Some(Write {
            master: 1,
            bias: 0,
            ordinal: 0,
            age: 0,
        });
        state.timed_out = Some(1);
    }));
}

#[test]
fn state_out_of_range_answers_17_to_every_event_and_changes_nothing() {
    let mut rig = Rig::full();
    rig.state.mark = 7;
    rig.store_events(0, &[]);
    let before = rig.state.clone();
    assert_eq!(rig.ask(1, 0x00, 0x01, &[]), 17);
    assert_eq!(rig.ask(1, 0x20, 0x00, &[]), 17);
    assert_eq!(rig.raw(&[1]).outcome, 17);
    assert_eq!(
        [rig.wait(0), rig.word(0x99, 0), rig.value(0x99, 0)],
        [17; 3]
    );
    assert_eq!([rig.store(99, 0, &[]), rig.pulses(0x99, 0)], [17; 2]);
    assert_eq!((rig.contact(99, 9), rig.sample(99)), (17, Err(17)));
    assert_eq!(rig.state, before);
}

#[test]
fn unit_0_and_master_0_are_good() {
    let mut rig = Rig::full();
    rig.config.unit = 0;
    assert_eq!(rig.ask(0, 0x00, 0x01, &[]), 0);
    assert_eq!(rig.ask(0, 0x10, 0x10, &[7]), 0);
    assert_eq!(rig.ask(31, 0x10, 0x10, &[7]), 13);
    assert_eq!(rig.ask(0, 0x10, 0x20, &[]), 0);
}

#[test]
fn unit_goes_to_7feh() {
    assert!(valid_after(|config| config.unit = 0x7FE));
    for unit in [0x7FF, 0x800, 0xFFFF] {
        assert!(!valid_after(|config| config.unit = unit));
    }
}

#[test]
fn inputs_outside_the_four_kinds_are_invalid() {
    for number in 0..256 {
        let good = !matches!(number, 0x20..=0x2F | 0x60..=0x7F);
        assert_eq!(valid_after(|config| config.inputs[number] = true), good);
    }
}

#[test]
fn calculations_over_7fh_are_invalid_and_outputs_never() {
    for number in 0..256 {
        assert_eq!(
            valid_after(|config| config.calculations[number] = true),
            number < 0x80
        );
        assert!(valid_after(|config| config.outputs[number] = true));
    }
}

#[test]
fn files_have_1_to_16_values_or_are_not_equipped() {
    for values in 0..=255 {
        let good = (1..=16).contains(&values);
        assert_eq!(valid_after(|config| config.files[31] = Some(values)), good);
    }
    assert!(valid_after(|config| config.files[31] = None));
}

#[test]
fn parameter_block_goes_to_512() {
    assert!(valid_after(|config| config.parameter_length = 512));
    assert!(!valid_after(|config| config.parameter_length = 513));
}
