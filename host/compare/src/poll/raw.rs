//! The proved master as a caller of its C interface sees it: one safe function a call.

/// The numbers of include/osturdam_poll.h.
pub mod header {
    include!(concat!(env!("OUT_DIR"), "/poll.rs"));
}

use crate::board::{place, place_mut};

/// The memory of a master.
pub type Memory = [u8; header::POLL_MEMORY];

#[rustfmt::skip] // as the header has them
extern "C" {
    fn osturdam_poll_begin(poll: &mut Memory, address: u16);
    fn osturdam_poll_ask(
        poll: &mut Memory, room: u64, all: u8, function: u8, command: u8, body: *const u8, count: u64, buffer: *mut u8, length: u64) -> u64;
    fn osturdam_poll_read(
        poll: &mut Memory, reply: *const u8, count: u64, room: *mut u8, length: u64, kept: &mut [u8; 2]) -> u8;
    fn osturdam_poll_retry(poll: &Memory) -> u8;
}

/// The figures of a request.
#[derive(Clone, Debug, PartialEq)]
pub struct Figures {
    pub all: u8,
    pub function: u8,
    pub command: u8,
    pub body: Vec<u8>,
}

pub fn begin(poll: &mut Memory, address: u16) {
    unsafe { osturdam_poll_begin(poll, address) }
}

pub fn ask(poll: &mut Memory, room: u64, wish: &Figures, buffer: &mut [u8]) -> u64 {
    let (body, count) = (place(&wish.body), wish.body.len() as u64);
    let (chars, length) = (place_mut(buffer), buffer.len() as u64);
    let (all, function, command) = (wish.all, wish.function, wish.command);
    unsafe {
        osturdam_poll_ask(
            poll, room, all, function, command, body, count, chars, length,
        )
    }
}

pub fn read(poll: &mut Memory, reply: &[u8], room: &mut [u8], kept: &mut [u8; 2]) -> u8 {
    let (chars, count) = (place(reply), reply.len() as u64);
    let (records, length) = (place_mut(room), room.len() as u64);
    unsafe { osturdam_poll_read(poll, chars, count, records, length, kept) }
}

pub fn retry(poll: &Memory) -> u8 {
    unsafe { osturdam_poll_retry(poll) }
}
