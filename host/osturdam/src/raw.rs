//! The calls of the static libraries: all that is unsafe.
//!
//! Why every call is sound. Each pointer comes from a reference that lives through the call, so it is not null, aligned, and of
//! memory of just the length that the C header names or that is told beside it. What the library changes comes from a `&mut`, so
//! nothing overlaps. Every pattern of bits is a number: the library takes any, and what it leaves may be read. It keeps no
//! pointer, has no global state and calls nothing back.
#![allow(unsafe_code)]

use crate::memory::{fitting, Memory, CONFIG, UNIT};
use crate::poll::MEMORY;
use crate::Config;

type Chars = [u8; UNIT];

/// What `osturdam_stretch` tells besides its outcome.
pub(crate) struct Turned {
    pub outcome: u8,
    pub sent: u16,
    pub action: u8,
    pub output: u8,
}

#[rustfmt::skip] // as the C header has them: what is lent, then the event
extern "C" {
    fn osturdam_check(start: u16, chars: *const u8, count: u64) -> u16;
    fn osturdam_valid(config: *const [u8; CONFIG]) -> u8;
    fn osturdam_room(config: *const [u8; CONFIG]) -> u64;
    fn osturdam_dropped(unit: *const Chars, file: u8) -> u16;
    fn osturdam_replan(unit: *mut Chars);
    fn osturdam_fresh(
        unit: *mut Chars, block: *mut u8, length: u64, config: *const [u8; CONFIG]);
    fn osturdam_stretch(
        unit: *mut Chars, block: *mut u8, length: u64, records: *mut u8, room: u64,
        buffer: *mut u8, buffer_room: u64, chars: *const u8, count: u64, lag: u32, turned: *mut [u8; 4]) -> u8;
    fn osturdam_elapsed(
        unit: *mut Chars, block: *const u8, length: u64, records: *const u8, room: u64,
        ms: u32) -> u8;
    fn osturdam_set_word(
        unit: *mut Chars, block: *const u8, length: u64, records: *const u8, room: u64,
        input: u8, word: u16) -> u8;
    fn osturdam_contact(
        unit: *mut Chars, block: *const u8, length: u64, records: *const u8, room: u64,
        contact: u8, state: u8) -> u8;
    fn osturdam_pulses(
        unit: *mut Chars, block: *const u8, length: u64, records: *const u8, room: u64,
        input: u8, count: u16) -> u8;
    fn osturdam_set_value(
        unit: *mut Chars, block: *const u8, length: u64, records: *const u8, room: u64,
        calculation: u8, value: u32) -> u8;
    fn osturdam_store_record(
        unit: *mut Chars, block: *const u8, length: u64, records: *mut u8, room: u64,
        file: u8, event: u8, values: *const u16, many: u64) -> u8;
    fn osturdam_sample(
        unit: *mut Chars, block: *const u8, length: u64, records: *mut u8, room: u64,
        calculation: u8, sampled: *mut [u8; 6]) -> u8;
    fn osturdam_poll_begin(poll: *mut [u8; MEMORY], address: u16);
    fn osturdam_poll_ask(
        poll: *mut [u8; MEMORY], room: u64, all: u8, function: u8, command: u8, body: *const u8, count: u64,
        buffer: *mut u8, length: u64) -> u64;
    fn osturdam_poll_read(
        poll: *mut [u8; MEMORY], reply: *const u8, count: u64, room: *mut u8, length: u64, kept: *mut [u8; 2]) -> u8;
    fn osturdam_poll_retry(poll: *const [u8; MEMORY]) -> u8;
}

pub(crate) fn check(start: u16, chars: &[u8]) -> u16 {
    // SAFETY: above.
    unsafe { osturdam_check(start, chars.as_ptr(), chars.len() as u64) }
}

pub(crate) fn valid(config: &Config) -> bool {
    // SAFETY: above.
    unsafe { osturdam_valid(config.chars()) != 0 }
}

pub(crate) fn room(config: &Config) -> u64 {
    // SAFETY: above.
    unsafe { osturdam_room(config.chars()) }
}

pub(crate) fn dropped(m: &Memory, file: u8) -> u16 {
    // SAFETY: above.
    unsafe { osturdam_dropped(&m.unit, file) }
}

pub(crate) fn replan(m: &mut Memory) {
    // SAFETY: above.
    unsafe { osturdam_replan(&mut m.unit) }
}

pub(crate) fn fresh(m: &mut Memory, config: &Config) {
    let lent = fitting(config.block_length());
    // SAFETY: above; `lent` is at most the length of `block`, whose rest is not lent.
    unsafe { osturdam_fresh(&mut m.unit, m.block.as_mut_ptr(), lent, config.chars()) }
}

pub(crate) fn stretch(m: &mut Memory, heard: &[u8], lag: u32, buffer: &mut [u8]) -> Turned {
    let (lent, room, mut turned) = (m.lent(), m.room(), [0; 4]);
    // SAFETY: above; `block`, `records`, `buffer` and `heard` are told with lengths of memory that they have.
    #[rustfmt::skip]
    let outcome = unsafe {
        osturdam_stretch(
            &mut m.unit, m.block.as_mut_ptr(), lent, m.records.as_mut_ptr(), room,
            buffer.as_mut_ptr(), buffer.len() as u64, heard.as_ptr(), heard.len() as u64, lag, &mut turned)
    };
    let [low, high, action, output] = turned;
    Turned {
        outcome,
        sent: u16::from_le_bytes([low, high]),
        action,
        output,
    }
}

#[rustfmt::skip]
pub(crate) fn elapsed(m: &mut Memory, ms: u32) -> u8 {
    let (lent, room) = (m.lent(), m.room());
    // SAFETY: above; `lent` is at most the length of `block`, `room` that of `records`.
    unsafe { osturdam_elapsed(&mut m.unit, m.block.as_ptr(), lent, m.records.as_ptr(), room, ms) }
}

#[rustfmt::skip]
pub(crate) fn set_word(m: &mut Memory, input: u8, word: u16) -> u8 {
    let (lent, room) = (m.lent(), m.room());
    // SAFETY: above; `lent` is at most the length of `block`, `room` that of `records`.
    unsafe { osturdam_set_word(&mut m.unit, m.block.as_ptr(), lent, m.records.as_ptr(), room, input, word) }
}

#[rustfmt::skip]
pub(crate) fn contact(m: &mut Memory, contact: u8, state: u8) -> u8 {
    let (lent, room) = (m.lent(), m.room());
    // SAFETY: above; `lent` is at most the length of `block`, `room` that of `records`.
    unsafe { osturdam_contact(&mut m.unit, m.block.as_ptr(), lent, m.records.as_ptr(), room, contact, state) }
}

#[rustfmt::skip]
pub(crate) fn pulses(m: &mut Memory, input: u8, count: u16) -> u8 {
    let (lent, room) = (m.lent(), m.room());
    // SAFETY: above; `lent` is at most the length of `block`, `room` that of `records`.
    unsafe { osturdam_pulses(&mut m.unit, m.block.as_ptr(), lent, m.records.as_ptr(), room, input, count) }
}

#[rustfmt::skip]
pub(crate) fn set_value(m: &mut Memory, calculation: u8, value: u32) -> u8 {
    let (lent, room) = (m.lent(), m.room());
    // SAFETY: above; `lent` is at most the length of `block`, `room` that of `records`.
    unsafe { osturdam_set_value(&mut m.unit, m.block.as_ptr(), lent, m.records.as_ptr(), room, calculation, value) }
}

#[rustfmt::skip]
pub(crate) fn store_record(m: &mut Memory, file: u8, event: u8, values: &[u16]) -> u8 {
    let (lent, room) = (m.lent(), m.room());
    // SAFETY: above; `block`, `records` and `values` are told with lengths of memory that they have.
    unsafe {
        osturdam_store_record(
            &mut m.unit, m.block.as_ptr(), lent, m.records.as_mut_ptr(), room,
            file, event, values.as_ptr(), values.len() as u64)
    }
}

/// The outcome, how many samples are missing, and the bits of the mean.
pub(crate) fn sample(m: &mut Memory, calculation: u8) -> (u8, u16, u32) {
    let (lent, room, mut sampled) = (m.lent(), m.room(), [0; 6]);
    // SAFETY: above; `lent` is at most the length of `block`, `room` that of `records`.
    #[rustfmt::skip]
    let outcome = unsafe {
        osturdam_sample(&mut m.unit, m.block.as_ptr(), lent, m.records.as_mut_ptr(), room, calculation, &mut sampled)
    };
    let [low, high, mean @ ..] = sampled;
    (
        outcome,
        u16::from_le_bytes([low, high]),
        u32::from_le_bytes(mean),
    )
}

pub(crate) fn poll_begin(poll: &mut [u8; MEMORY], address: u16) {
    // SAFETY: above.
    unsafe { osturdam_poll_begin(poll, address) }
}

/// What is asked for: of all units or of one, by function, command and data.
pub(crate) struct Figures {
    pub all: bool,
    pub function: u8,
    pub command: u8,
    pub body: Vec<u8>,
}

#[rustfmt::skip]
pub(crate) fn poll_ask(poll: &mut [u8; MEMORY], room: usize, wish: &Figures, buffer: &mut [u8]) -> u64 {
    // SAFETY: above; `body` and `buffer` are told with lengths of memory that they have.
    unsafe {
        osturdam_poll_ask(
            poll, room as u64, wish.all.into(), wish.function, wish.command, wish.body.as_ptr(), wish.body.len() as u64,
            buffer.as_mut_ptr(), buffer.len() as u64)
    }
}

/// How the reply was read, how many records stand in the front of the room, and how many characters each has.
pub(crate) fn poll_read(
    poll: &mut [u8; MEMORY],
    reply: &[u8],
    room: &mut [u8],
) -> (u8, usize, usize) {
    let mut kept = [0; 2];
    // SAFETY: above; `reply` and `room` are told with lengths of memory that they have.
    #[rustfmt::skip]
    let read = unsafe {
        osturdam_poll_read(poll, reply.as_ptr(), reply.len() as u64, room.as_mut_ptr(), room.len() as u64, &mut kept)
    };
    let [count, size] = kept.map(usize::from);
    (read, count, size)
}

pub(crate) fn poll_retry(poll: &[u8; MEMORY]) -> bool {
    // SAFETY: above.
    unsafe { osturdam_poll_retry(poll) != 0 }
}
