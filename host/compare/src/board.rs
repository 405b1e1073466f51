//! The proved unit as a caller of its C interface sees it: its memory, and one safe function an entry.

/// The numbers of include/osturdam.h.
pub mod header {
    include!(concat!(env!("OUT_DIR"), "/header.rs"));
}

use crate::means::Place;
use header::{CONFIG, FILES, INPUTS, KEPT, MEANS, UNIT};

/// The memory set aside for a parameter block, and for records and samples: more than any unit has, to lend too much.
pub const BLOCK: usize = header::BLOCK + 88;
pub const RECORDS: usize = header::LENT + 64;

/// What a configuration says, before it is laid out as characters.
#[derive(Clone)]
pub struct Equipment {
    pub unit: u16,
    pub length: u16,
    pub inputs: [u8; INPUTS],
    pub outputs: [u8; INPUTS],
    pub calculations: [u8; INPUTS],
    pub files: [u8; FILES],
    pub values: [u8; FILES],
    pub oldest: [u8; FILES],
    pub means: [Place; MEANS],
}

/// How much of what is set aside is lent.
#[derive(Clone, Copy, PartialEq)]
pub struct Lent {
    pub block: usize,
    pub records: usize,
}

/// `struct osturdam_unit`. Where the kept numbers lie is known here alone.
#[derive(Clone, PartialEq)]
pub struct Memory {
    pub chars: [u8; UNIT],
}

/// `struct osturdam_together`, with more room.
#[derive(Clone, PartialEq)]
pub struct Unit {
    pub memory: Memory,
    pub block: [u8; BLOCK],
    pub records: [u8; RECORDS],
}

/// `struct osturdam_turned`, and of a sample the characters that it tells.
#[derive(Clone, Copy, Debug, PartialEq)]
pub struct Turned {
    pub sent: usize,
    pub outcome: u8,
    pub action: u8,
    pub output: u8,
    pub sampled: [u8; 6],
}

#[rustfmt::skip] // as the header has them: what is lent, then the event
extern "C" {
    fn osturdam_layout() -> u16;
    fn osturdam_valid(config: &[u8; CONFIG]) -> u8;
    fn osturdam_room(config: &[u8; CONFIG]) -> u64;
    fn osturdam_dropped(unit: &[u8; UNIT], file: u8) -> u16;
    fn osturdam_replan(unit: &mut [u8; UNIT]);
    fn osturdam_fresh(
        unit: &mut [u8; UNIT], block: *mut u8, length: u64, config: &[u8; CONFIG]);
    fn osturdam_stretch(
        unit: &mut [u8; UNIT], block: *mut u8, length: u64, records: *mut u8, room: u64,
        buffer: *mut u8, buffer_room: u64, chars: *const u8, count: u64, lag: u32, turned: &mut [u8; 4]) -> u8;
    fn osturdam_elapsed(
        unit: &mut [u8; UNIT], block: *const u8, length: u64, records: *const u8, room: u64,
        ms: u32) -> u8;
    fn osturdam_set_word(
        unit: &mut [u8; UNIT], block: *const u8, length: u64, records: *const u8, room: u64,
        input: u8, word: u16) -> u8;
    fn osturdam_contact(
        unit: &mut [u8; UNIT], block: *const u8, length: u64, records: *const u8, room: u64,
        contact: u8, state: u8) -> u8;
    fn osturdam_pulses(
        unit: &mut [u8; UNIT], block: *const u8, length: u64, records: *const u8, room: u64,
        input: u8, count: u16) -> u8;
    fn osturdam_set_value(
        unit: &mut [u8; UNIT], block: *const u8, length: u64, records: *const u8, room: u64,
        calculation: u8, value: u32) -> u8;
    fn osturdam_store_record(
        unit: &mut [u8; UNIT], block: *const u8, length: u64, records: *mut u8, room: u64,
        file: u8, event: u8, values: *const u16, many: u64) -> u8;
    fn osturdam_sample(
        unit: &mut [u8; UNIT], block: *const u8, length: u64, records: *mut u8, room: u64,
        calculation: u8, sampled: &mut [u8; 6]) -> u8;
}

/// The number of the library's layout.
pub fn layout() -> u16 {
    unsafe { osturdam_layout() }
}

/// Whether the library takes a configuration for a valid one.
pub fn valid(config: &[u8; CONFIG]) -> u8 {
    unsafe { osturdam_valid(config) }
}

/// How many characters of records the library says that a configuration asks for.
pub fn room(config: &[u8; CONFIG]) -> u64 {
    unsafe { osturdam_room(config) }
}

/// The word whose low character stands at this place.
fn word_at(chars: &[u8], at: usize) -> u16 {
    u16::from_le_bytes([chars[at], chars[at + 1]])
}

/// A pointer to a part as the header asks for it: null is allowed where the length is 0, so it is what such a call gets.
pub fn place<T>(part: &[T]) -> *const T {
    if part.is_empty() {
        std::ptr::null()
    } else {
        part.as_ptr()
    }
}

/// As `place`, for writing.
pub fn place_mut<T>(part: &mut [T]) -> *mut T {
    if part.is_empty() {
        std::ptr::null_mut()
    } else {
        part.as_mut_ptr()
    }
}

impl Turned {
    /// An outcome that sends and operates nothing.
    pub fn silent(outcome: u8) -> Self {
        Turned {
            sent: 0,
            outcome,
            action: 0,
            output: 0,
            sampled: [0; 6],
        }
    }
}

impl Equipment {
    /// Nothing is equipped.
    pub fn none() -> Equipment {
        Equipment {
            unit: 0,
            length: 0,
            inputs: [0; INPUTS],
            outputs: [0; INPUTS],
            calculations: [0; INPUTS],
            files: [0; FILES],
            values: [0; FILES],
            oldest: [0; FILES],
            means: [Place::UNUSED; MEANS],
        }
    }

    /// The configuration's characters.
    pub fn chars(&self) -> [u8; CONFIG] {
        let mut made = [0; CONFIG];
        let mut lay = |at: usize, part: &[u8]| {
            let at = at - header::AT_NUMBER;
            made[at..at + part.len()].copy_from_slice(part)
        };
        lay(header::AT_NUMBER, &self.unit.to_le_bytes());
        lay(header::AT_LENGTH, &self.length.to_le_bytes());
        lay(header::AT_INPUTS, &self.inputs);
        lay(header::AT_OUTPUTS, &self.outputs);
        lay(header::AT_CALCULATIONS, &self.calculations);
        lay(header::AT_FILES, &self.files);
        lay(header::AT_VALUES, &self.values);
        lay(header::AT_OLDEST, &self.oldest);
        lay(header::AT_MEANS, &self.means.map(|p| p.calculation));
        lay(header::AT_SAMPLED, &self.means.map(|p| p.analog));
        let windows = self.means.map(|p| p.window.to_le_bytes());
        lay(header::AT_WINDOWS, windows.as_flattened());
        made
    }
}

impl Memory {
    /// Memory that holds this character all over.
    pub fn filled(with: u8) -> Memory {
        Memory {
            chars: [with; UNIT],
        }
    }

    /// Writes characters from a place on.
    pub fn lay(&mut self, at: usize, part: &[u8]) {
        self.chars[at..at + part.len()].copy_from_slice(part);
    }

    /// The number of the layout that the memory says it has.
    pub fn layout(&self) -> u16 {
        word_at(&self.chars, header::AT_LAYOUT)
    }

    pub fn put_layout(&mut self, number: u16) {
        self.lay(header::AT_LAYOUT, &number.to_le_bytes());
    }

    /// One of the kept numbers.
    pub fn kept(&self, which: usize) -> u16 {
        word_at(&self.chars, header::AT_NUMBERS + 2 * which)
    }

    pub fn put_kept(&mut self, which: usize, number: u16) {
        self.lay(header::AT_NUMBERS + 2 * which, &number.to_le_bytes());
    }

    /// All of the kept numbers, in the order of `enum osturdam_kept`.
    pub fn all_kept(&self) -> [u16; KEPT] {
        std::array::from_fn(|which| self.kept(which))
    }

    pub fn put_all_kept(&mut self, numbers: &[u16; KEPT]) {
        (0..KEPT).for_each(|which| self.put_kept(which, numbers[which]));
    }

    pub fn word(&self, input: u8) -> u16 {
        word_at(&self.chars, header::AT_WORDS + 2 * usize::from(input))
    }

    /// How many records of a file the library says were dropped.
    pub fn dropped(&self, file: u8) -> u16 {
        unsafe { osturdam_dropped(&self.chars, file) }
    }

    /// How many samples of a place are in.
    pub fn taken(&self, place: usize) -> u16 {
        word_at(&self.chars, header::AT_TAKEN + 2 * place)
    }

    /// Scan plans made anew of the tables.
    pub fn replan(&mut self) {
        unsafe { osturdam_replan(&mut self.chars) }
    }

    /// How many records a file holds.
    pub fn count(&self, file: usize) -> u8 {
        self.chars[header::AT_COUNTS + file]
    }
}

/// Calls an entry with what is lent: live references, with the lengths of parts of them.
macro_rules! call {
    ($entry:ident, $u:ident, $lent:expr, $records:expr $(, $part:expr)*) => {{
        let (block, records) = (place_mut(&mut $u.block[..$lent.block]), $records);
        let (m, length, room) = (&mut $u.memory, $lent.block as u64, $lent.records as u64);
        unsafe { $entry(&mut m.chars, block, length, records, room $(, $part)*) }
    }};
}

impl Unit {
    /// Memory that holds this character all over.
    pub fn filled(with: u8) -> Box<Unit> {
        Box::new(Unit {
            memory: Memory::filled(with),
            block: [with; BLOCK],
            records: [with; RECORDS],
        })
    }

    pub fn fresh(&mut self, lent: Lent, config: &[u8; CONFIG]) {
        let block = place_mut(&mut self.block[..lent.block]);
        let (m, length) = (&mut self.memory, lent.block as u64);
        unsafe { osturdam_fresh(&mut m.chars, block, length, config) }
    }

    pub fn stretch(&mut self, lent: Lent, buffer: &mut [u8], heard: &[u8], lag: u32) -> Turned {
        let mut told = [0xA5; 4];
        let records = place_mut(&mut self.records[..lent.records]);
        let outcome = call!(
            osturdam_stretch,
            self,
            lent,
            records,
            place_mut(buffer),
            buffer.len() as u64,
            place(heard),
            heard.len() as u64,
            lag,
            &mut told
        );
        Turned {
            sent: u16::from_le_bytes([told[0], told[1]]).into(),
            outcome,
            action: told[2],
            output: told[3],
            sampled: [0; 6],
        }
    }

    pub fn elapsed(&mut self, lent: Lent, ms: u32) -> u8 {
        let records = place(&self.records[..lent.records]);
        call!(osturdam_elapsed, self, lent, records, ms)
    }

    pub fn set_word(&mut self, lent: Lent, input: u8, word: u16) -> u8 {
        let records = place(&self.records[..lent.records]);
        call!(osturdam_set_word, self, lent, records, input, word)
    }

    pub fn contact(&mut self, lent: Lent, contact: u8, state: u8) -> u8 {
        let records = place(&self.records[..lent.records]);
        call!(osturdam_contact, self, lent, records, contact, state)
    }

    pub fn pulses(&mut self, lent: Lent, input: u8, count: u16) -> u8 {
        let records = place(&self.records[..lent.records]);
        call!(osturdam_pulses, self, lent, records, input, count)
    }

    pub fn set_value(&mut self, lent: Lent, calculation: u8, value: u32) -> u8 {
        let records = place(&self.records[..lent.records]);
        call!(osturdam_set_value, self, lent, records, calculation, value)
    }

    pub fn sample(&mut self, lent: Lent, calculation: u8) -> Turned {
        let mut sampled = [0xA5; 6];
        let records = place_mut(&mut self.records[..lent.records]);
        let outcome = call!(
            osturdam_sample,
            self,
            lent,
            records,
            calculation,
            &mut sampled
        );
        Turned {
            sampled,
            ..Turned::silent(outcome)
        }
    }

    pub fn store(&mut self, lent: Lent, file: u8, event: u8, given: &[u16]) -> u8 {
        let records = place_mut(&mut self.records[..lent.records]);
        let (values, many) = (place(given), given.len() as u64);
        call!(
            osturdam_store_record,
            self,
            lent,
            records,
            file,
            event,
            values,
            many
        )
    }
}
