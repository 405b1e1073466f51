//! The independent unit's kept state as the proved unit's memory has it, and where the two differ.

use crate::board::header::{self, CONFIG, FILES, INPUTS, KEPT, MEANS, UNIT};
use crate::board::{Equipment, Memory, Unit};
use crate::means::{lay_taken, samples_difference, Place};
use crate::places::Places;
use independent::{Config, State};
use std::fmt::Display;

/// The configuration as the independent unit has it: a character that is not 0 equips.
pub fn config_of(e: &Equipment) -> Config {
    let mut config = Config::new(e.unit);
    config.parameter_length = e.length.into();
    for n in 0..INPUTS {
        config.inputs[n] = e.inputs[n] != 0;
        config.outputs[n] = e.outputs[n] != 0;
        config.calculations[n] = e.calculations[n] != 0;
    }
    let used = e.means.iter().filter(|p| p.used());
    config.means = used.map(Place::mean).collect();
    for f in 0..FILES {
        config.files[f] = (e.files[f] != 0).then_some(e.values[f]);
        config.oldest[f] = e.oldest[f] != 0;
    }
    config
}

/// A select and a timed-out mark at once have no numbers: 3 never agrees.
fn hold_numbers(state: &State) -> [u16; 5] {
    match (state.select, state.timed_out) {
        (None, None) => [0; 5],
        (Some(s), None) => [
            1,
            s.master.into(),
            s.output.into(),
            s.close.into(),
            s.age as u16,
        ],
        (None, Some(master)) => [2, master.into(), 0, 0, 0],
        (Some(_), Some(_)) => [3, 0, 0, 0, 0],
    }
}

fn write_numbers(state: &State) -> [u16; 5] {
    match state.write {
        None => [0; 5],
        Some(w) => [1, w.master.into(), w.bias, w.ordinal.into(), w.age as u16],
    }
}

fn memory_numbers(state: &State) -> [u16; 6] {
    match state.history {
        None => [0; 6],
        Some(h) => [
            1,
            h.master.into(),
            h.file.into(),
            h.dump.into(),
            h.quantity.into(),
            h.more.into(),
        ],
    }
}

/// The kept numbers of a state.
pub fn kept_of(state: &State) -> [u16; KEPT] {
    let c = state.clock;
    let mut kept = [0; KEPT];
    let mut lay =
        |first: usize, part: &[u16]| kept[first..first + part.len()].copy_from_slice(part);
    lay(
        header::DAY,
        &[c.day, c.hour.into(), c.minute.into(), c.second.into(), c.ms],
    );
    lay(header::SELECT, &hold_numbers(state));
    lay(header::WRITE, &write_numbers(state));
    let bits = [state.bit7.into(), state.bit3.into(), state.bit2.into()];
    lay(header::STATUS_CONFIGURE, &bits);
    lay(header::MEMORY, &memory_numbers(state));
    lay(header::SILENCE, &[state.silence as u16, state.mark.into()]);
    kept
}

/// The places for means in a configuration's characters.
fn means_in(config: &[u8; CONFIG]) -> [Place; MEANS] {
    let at = |region: usize, i: usize| config[region - header::AT_NUMBER + i];
    std::array::from_fn(|i| Place {
        calculation: at(header::AT_MEANS, i),
        analog: at(header::AT_SAMPLED, i),
        window: u16::from_le_bytes([
            at(header::AT_WINDOWS, 2 * i),
            at(header::AT_WINDOWS, 2 * i + 1),
        ]),
    })
}

/// A unit's memory with this configuration and state.
pub fn memory_of(config: &[u8; CONFIG], state: &State) -> Memory {
    let mut made = Memory::filled(0);
    made.put_all_kept(&kept_of(state));
    made.put_layout(header::LAYOUT as u16);
    made.lay(header::AT_NUMBER, config);
    made.lay(
        header::AT_WORDS,
        state.words.map(u16::to_le_bytes).as_flattened(),
    );
    made.lay(
        header::AT_RESULTS,
        state.values.map(u32::to_le_bytes).as_flattened(),
    );
    made.lay(
        header::AT_DROPPED,
        state.dropped.map(u16::to_le_bytes).as_flattened(),
    );
    made.lay(header::AT_CHANGED, &state.changed);
    lay_taken(&mut made, &means_in(config), state);
    made.lay(header::AT_00, &state.fixed.block_00);
    made.lay(header::AT_03, &state.fixed.block_03);
    made.lay(header::AT_0B, &state.fixed.block_0b);
    for (file, held) in state.files.iter().enumerate() {
        made.lay(header::AT_COUNTS + file, &[held.len() as u8]);
    }
    made.replan(); // the plans of a unit are always those of its tables
    made
}

/// Writes a file's records into the proved unit's memory, as many as have a place there.
pub fn put_file(state: &State, places: &Places, unit: &mut Unit, file: usize) {
    for (i, record) in state.files[file].iter().enumerate() {
        if let Some(at) = places.of_record(file, i) {
            unit.records[at..at + record.len()].copy_from_slice(record);
        }
    }
}

/// Whether the record stands in its place, if it has one.
fn stands(unit: &Unit, place: Option<usize>, record: &[u8]) -> bool {
    place.is_none_or(|at| unit.records[at..at + record.len()] == *record)
}

/// The first place in which two parts differ.
fn first<T: PartialEq + Display>(name: &str, proved: &[T], independent: &[T]) -> Option<String> {
    if proved == independent {
        return None;
    }
    let i = proved.iter().zip(independent).position(|(a, b)| a != b)?;
    Some(format!(
        "{name} {i}: proved {}, independent {}",
        proved[i], independent[i]
    ))
}

/// The region of a unit's memory that a place lies in, and the place from its start on.
fn region(place: usize) -> (&'static str, usize) {
    let before = header::REGIONS.iter().rev().find(|x| x.0 <= place);
    let (start, name) = before.expect("a region starts at 0");
    (name, place - start)
}

/// The first kept number or character in which two memories differ.
fn memory_difference(proved: &Memory, independent: &Memory) -> Option<String> {
    let told = |name, ours: u16, other: u16| format!("{name}: proved {ours}, independent {other}");
    let (ours, others) = (proved.all_kept(), independent.all_kept());
    if let Some(i) = (0..KEPT).find(|&i| ours[i] != others[i]) {
        return Some(told(
            format!("kept {}", header::KEPT_NAMES[i]),
            ours[i],
            others[i],
        ));
    }
    let i = (0..UNIT).find(|&i| proved.chars[i] != independent.chars[i])?;
    let (name, at) = region(i);
    let (ours, other) = (proved.chars[i].into(), independent.chars[i].into());
    Some(told(format!("{name} at {at}"), ours, other))
}

/// The first kept number, character or record in which the two differ.
pub fn difference(
    config: &[u8; CONFIG],
    places: &Places,
    state: &State,
    params: &[u8],
    unit: &Unit,
) -> Option<String> {
    let memory = memory_of(config, state);
    (memory != unit.memory)
        .then(|| memory_difference(&unit.memory, &memory))
        .flatten()
        .or_else(|| first("parameter block at", &unit.block, params))
        .or_else(|| records_difference(state, places, unit))
        .or_else(|| samples_difference(state, places, unit))
}

fn records_difference(state: &State, places: &Places, unit: &Unit) -> Option<String> {
    for (file, held) in state.files.iter().enumerate() {
        let differs =
            |(i, record): (usize, &Vec<u8>)| !stands(unit, places.of_record(file, i), record);
        if let Some(i) = held.iter().enumerate().position(differs) {
            return Some(format!("file {file}: record {i} differs"));
        }
    }
    None
}
