//! Scans: functions 00, 0Ah and 03, and the points behind them.

use crate::config::{Calculation, Config, Input, InputKind};
use crate::frame::{Frame, Reply};
use crate::outcome;
use crate::state::State;
use crate::{contacts, means};

/// The command bits of function 00 that are not reserved.
pub const KIND_BITS: u8 = 0x4D;

/// The command bit of function 00 that chooses a kind.
pub fn kind_bit(kind: InputKind) -> u8 {
    match kind {
        InputKind::Simple => 0x01,
        InputKind::TwoBit => 0x04,
        InputKind::Analog => 0x08,
        InputKind::Pulse => 0x40,
    }
}

/// Function 00: the words of every kind that the command asks for.
pub fn basic(config: &Config, state: &mut State, frame: &Frame, reply: &mut Reply) -> u8 {
    if frame.command & !KIND_BITS != 0 {
        return outcome::UNKNOWN;
    }
    if !frame.data.is_empty() {
        return outcome::COUNT;
    }
    let chosen = |kind: InputKind| frame.command & kind_bit(kind) != 0;
    for number in (0..=255).map(Input) {
        if config.has_input(number) && number.kind().is_some_and(chosen) {
            reply.push_word(word(state, number));
            contacts::carried(state, number);
        }
    }
    outcome::DONE
}

fn word(state: &State, number: Input) -> u16 {
    state.words[usize::from(number.0)]
}

/// One scan table: the two tables it names, 0 for none, and its input numbers.
struct Table<'a> {
    first: u8,
    second: u8,
    numbers: &'a [u8],
}

/// Walks the table area to the table of this number, counted from 1.
fn find_table(area: &[u8; 256], number: u8) -> Option<Table<'_>> {
    let mut rest: &[u8] = area;
    let mut place = 1;
    loop {
        let (&[nibbles, quantity], after) = rest.split_first_chunk::<2>()?;
        if nibbles == 0 && quantity == 0 {
            return None;
        }
        let (numbers, next) = after.split_at_checked(usize::from(quantity))?;
        if place == number {
            return Some(Table {
                first: nibbles >> 4,
                second: nibbles & 0x0F,
                numbers,
            });
        }
        rest = next;
        place += 1;
    }
}

/// The numbers of the table that a nibble names; none for nibble 0, None if it is absent.
fn named(area: &[u8; 256], nibble: u8) -> Option<&[u8]> {
    match nibble {
        0 => Some(&[]),
        // Only the numbers are handed on, so its own nibbles cannot be followed.
        _ => find_table(area, nibble).map(|table| table.numbers),
    }
}

/// The three lists of numbers that a scan of this table sends, in order.
fn table_parts(area: &[u8; 256], number: u8) -> Option<[&[u8]; 3]> {
    let table = find_table(area, number)?;
    Some([
        named(area, table.first)?,
        named(area, table.second)?,
        table.numbers,
    ])
}

/// Function 0Ah: the words of a table and of the two it names.
pub fn by_table(config: &Config, state: &mut State, frame: &Frame, reply: &mut Reply) -> u8 {
    if !(0x41..=0x4F).contains(&frame.command) {
        return outcome::UNKNOWN;
    }
    if !frame.data.is_empty() {
        return outcome::COUNT;
    }
    let Some(parts) = table_parts(&state.fixed.block_03, frame.command & 0x0F) else {
        return outcome::NOT_VALID;
    };
    let numbers: Vec<Input> = parts.concat().into_iter().map(Input).collect();
    if !numbers.iter().all(|&number| config.has_input(number)) {
        return outcome::NOT_VALID;
    }
    if 2 * numbers.len() > Reply::DATA_LIMIT {
        return outcome::TOO_LONG;
    }
    for &number in &numbers {
        reply.push_word(word(state, number));
    }
    // Only now, as a group that comes twice is the same word each time.
    for number in numbers {
        contacts::carried(state, number);
    }
    outcome::DONE
}

/// Function 03: all calculations, or those asked for.
pub fn calculations(config: &Config, state: &State, frame: &Frame, reply: &mut Reply) -> u8 {
    match (frame.command, frame.data) {
        (0x80, []) => all_calculations(config, state, reply),
        (0x00, [_, ..]) => asked_calculations(config, state, frame.data, reply),
        (0x80 | 0x00, _) => outcome::COUNT,
        _ => outcome::UNKNOWN,
    }
}

/// Whether the calculation is equipped, and ready if it is a mean.
fn sendable(config: &Config, state: &State, number: Calculation) -> bool {
    config.has_calculation(number) && means::ready(config, state, number)
}

/// The values of all calculations to be sent, without their numbers.
fn all_calculations(config: &Config, state: &State, reply: &mut Reply) -> u8 {
    let sent = || {
        (0..0x80)
            .map(Calculation)
            .filter(|&number| sendable(config, state, number))
    };
    if 4 * sent().count() > Reply::DATA_LIMIT {
        return outcome::TOO_LONG;
    }
    for number in sent() {
        reply.push_all(&value(state, number));
    }
    outcome::DONE
}

/// Number and value of each calculation asked for, or just the ones not equipped or not ready.
fn asked_calculations(config: &Config, state: &State, asked: &[u8], reply: &mut Reply) -> u8 {
    let missing = |number: &&u8| !sendable(config, state, Calculation(**number));
    if asked.iter().any(|number| missing(&number)) {
        asked
            .iter()
            .filter(missing)
            .for_each(|&number| reply.push(number));
        return outcome::NOT_VALID;
    }
    if 5 * asked.len() > Reply::DATA_LIMIT {
        return outcome::TOO_LONG;
    }
    for &number in asked {
        reply.push(number);
        reply.push_all(&value(state, Calculation(number)));
    }
    outcome::DONE
}

/// The four characters of a calculation's value.
fn value(state: &State, number: Calculation) -> [u8; 4] {
    state.values[usize::from(number.0)].to_le_bytes()
}

/// Function 20h command 11h: sets a pulse accumulator to 0, or gives 7 or 8.
pub fn reset_count(config: &Config, state: &mut State, data: &[u8]) -> u8 {
    let &[number] = data else {
        return outcome::COUNT;
    };
    if !config.has_accumulator(Input(number)) {
        return outcome::NOT_VALID;
    }
    state.words[usize::from(number)] = 0;
    outcome::DONE
}

/// Sets a simple status or analog word; two-bit words are made from contacts alone.
pub fn set_word(config: &Config, state: &mut State, number: Input, word: u16) -> u8 {
    let settable = matches!(number.kind(), Some(InputKind::Simple | InputKind::Analog));
    if !config.has_input(number) || !settable {
        return outcome::NOT_VALID;
    }
    state.words[usize::from(number.0)] = word;
    outcome::DONE
}

/// Sets a calculation's value; that of a mean comes from its samples alone.
pub fn set_value(config: &Config, state: &mut State, number: Calculation, bits: u32) -> u8 {
    if !config.has_calculation(number) || means::find(config, number).is_some() {
        return outcome::NOT_VALID;
    }
    state.values[usize::from(number.0)] = bits;
    outcome::DONE
}

/// Counts pulses on; the word wraps at 16 bits.
pub fn pulses(config: &Config, state: &mut State, number: Input, count: u16) -> u8 {
    if !config.has_accumulator(number) {
        return outcome::NOT_VALID;
    }
    let kept = &mut state.words[usize::from(number.0)];
    *kept = kept.wrapping_add(count);
    outcome::DONE
}
