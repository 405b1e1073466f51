//! The entries: one for a stretch, one for elapsed time, six for local events.

use crate::config::{Calculation, Config, Input};
use crate::control::Action;
use crate::frame::{reply_function, Frame, Reply, Stretch, BROADCAST};
use crate::means::Sampled;
use crate::outcome::{self, Sent};
use crate::state::{fits, State};
use crate::{block, clock, contacts, control, history, means, port, scan};

/// What a stretch came to.
#[derive(Clone, Copy, Debug, PartialEq, Eq)]
pub struct Answer {
    /// The outcome number of document 01.
    pub outcome: u8,
    /// The output action, if one is to be done.
    pub action: Option<Action>,
    /// The length of the reply at the front of the lent buffer; 0 if nothing is sent.
    pub sent: usize,
}

impl Answer {
    /// An outcome that sends nothing.
    fn silent(outcome: u8) -> Self {
        Answer {
            outcome,
            action: None,
            sent: 0,
        }
    }
}

/// Takes one stretch; a reply is filled into the front of the buffer. The lag is the milliseconds
/// from the sync point to the idle mark, at which only Set Time looks.
pub fn stretch(
    config: &Config,
    state: &mut State,
    params: &mut [u8],
    buffer: &mut [u8],
    bytes: &[u8],
    lag: u32,
) -> Answer {
    if buffer.len() < Reply::LONGEST {
        return Answer::silent(outcome::SHORT_BUFFER);
    }
    if !fits(config, state, params.len()) {
        return Answer::silent(outcome::NO_CONFIG);
    }
    if bytes.is_empty() {
        return Answer::silent(outcome::LENGTH);
    }
    port::heard(state);
    match Stretch::read(bytes) {
        Err(refused) => {
            port::damaged(state);
            Answer::silent(refused)
        }
        Ok(heard) if heard.frame.unit == BROADCAST => {
            Answer::silent(broadcast(config, state, &heard.frame, lag))
        }
        Ok(heard) if heard.frame.unit != config.unit => Answer::silent(outcome::OTHER_UNIT),
        Ok(heard) => answer(config, state, params, buffer, &heard, lag),
    }
}

/// A frame to all units: two commands are carried out, under their usual checks.
fn broadcast(config: &Config, state: &mut State, frame: &Frame, lag: u32) -> u8 {
    state.bit2 = true;
    let done = match (frame.function, frame.command) {
        (0x20, 0x11) => scan::reset_count(config, state, frame.data),
        (0x20, 0x38) => clock::set(state, frame.data, lag),
        _ => outcome::UNKNOWN,
    };
    match done {
        outcome::DONE => outcome::BROADCAST_DONE,
        _ => outcome::BROADCAST_REFUSED,
    }
}

/// A stretch for this unit: serves it and builds the reply, status as the stretch found it.
fn answer(
    config: &Config,
    state: &mut State,
    params: &mut [u8],
    buffer: &mut [u8],
    heard: &Stretch,
    lag: u32,
) -> Answer {
    let (status, port_status) = (state.status(), port::status(state));
    let mut reply = Reply::new(buffer);
    let (outcome, action) = serve_both(config, state, params, heard, &mut reply, lag);
    let form = outcome::sent(outcome);
    if form == Sent::Nothing {
        return Answer::silent(outcome);
    }
    state.bit2 = false;
    port::answered(state);
    let function = reply_function(heard.frame.function, form);
    let sent = reply.finish(heard.frame.address, function, status, port_status);
    Answer {
        outcome,
        action,
        sent,
    }
}

/// Serves a WRITE that came in front, then the frame; a refused WRITE is the one answer.
fn serve_both(
    config: &Config,
    state: &mut State,
    params: &mut [u8],
    heard: &Stretch,
    reply: &mut Reply,
    lag: u32,
) -> (u8, Option<Action>) {
    if let Some(write) = &heard.write {
        let (outcome, _) = serve(config, state, params, write, reply, lag);
        if outcome != outcome::WRITE_TAKEN {
            return (outcome, None);
        }
    }
    serve(config, state, params, &heard.frame, reply, lag)
}

/// Carries out a frame to this unit; every such frame drops its master's waiting write.
fn serve(
    config: &Config,
    state: &mut State,
    params: &mut [u8],
    frame: &Frame,
    reply: &mut Reply,
    lag: u32,
) -> (u8, Option<Action>) {
    let own_write = block::drop_own(state, frame.master);
    if control::breaks_select(state, frame) {
        state.select = None;
        return (outcome::BROKEN_OFF, None);
    }
    let outcome = match (frame.function, frame.command) {
        (0x00, _) => scan::basic(config, state, frame, reply),
        (0x03, _) => scan::calculations(config, state, frame, reply),
        (0x04, _) => history::serve(config, state, frame, reply),
        (0x0A, _) => scan::by_table(config, state, frame, reply),
        (0x10, _) => return control::serve(config, state, frame, reply),
        (0x20, 0x00) => initialize(state, frame),
        (0x20, 0x11) => echoed_reset(config, state, frame, reply),
        (0x20, 0x30) => block::write(state, frame),
        (0x20, 0x31) => block::execute(state, params, frame, own_write),
        (0x20, 0x38) => clock::set(state, frame.data, lag),
        (0x28, 0x30) => block::read(state, params, frame, reply),
        (0x28, 0x31) => read_time(state, frame, reply),
        _ => outcome::UNKNOWN,
    };
    (outcome, None)
}

/// Function 20h command 00: forgets what waits; points, tables, records and clock stay.
fn initialize(state: &mut State, frame: &Frame) -> u8 {
    if !frame.data.is_empty() {
        return outcome::COUNT;
    }
    state.select = None;
    state.timed_out = None;
    state.write = None;
    state.history = None;
    state.bit2 = false;
    state.bit7 = true;
    outcome::DONE
}

/// Function 20h command 11h with the echo of its number.
fn echoed_reset(config: &Config, state: &mut State, frame: &Frame, reply: &mut Reply) -> u8 {
    let outcome = scan::reset_count(config, state, frame.data);
    if outcome == outcome::DONE {
        reply.push_all(frame.data);
    }
    outcome
}

/// Function 28h command 31h: the clock.
fn read_time(state: &State, frame: &Frame, reply: &mut Reply) -> u8 {
    if !frame.data.is_empty() {
        return outcome::COUNT;
    }
    reply.push_all(&state.clock.characters());
    outcome::DONE
}

/// Takes elapsed milliseconds: 0 or 17.
pub fn elapsed(config: &Config, state: &mut State, params: &[u8], ms: u32) -> u8 {
    if !fits(config, state, params.len()) {
        return outcome::NO_CONFIG;
    }
    state.clock = state.clock.after(ms);
    port::elapsed(state, ms);
    control::elapsed(state, ms);
    block::elapsed(state, ms);
    outcome::DONE
}

/// Local event: sets the word of a simple status or analog input: 0, 8 or 17.
pub fn set_word(config: &Config, state: &mut State, params: &[u8], number: u8, word: u16) -> u8 {
    if !fits(config, state, params.len()) {
        return outcome::NO_CONFIG;
    }
    scan::set_word(config, state, Input(number), word)
}

/// Local event: sets the value of a calculation: 0, 8 or 17.
pub fn set_value(config: &Config, state: &mut State, params: &[u8], number: u8, bits: u32) -> u8 {
    if !fits(config, state, params.len()) {
        return outcome::NO_CONFIG;
    }
    scan::set_value(config, state, Calculation(number), bits)
}

/// Local event: stores a record; gives one of the four numbers of [`history`], or 17.
pub fn store(
    config: &Config,
    state: &mut State,
    params: &[u8],
    file: u8,
    event: u8,
    values: &[u16],
) -> u8 {
    if !fits(config, state, params.len()) {
        return outcome::NO_CONFIG;
    }
    history::store(config, state, file, event, values)
}

/// Local event: counts pulses on an accumulator: 0, 8 or 17.
pub fn pulses(config: &Config, state: &mut State, params: &[u8], number: u8, count: u16) -> u8 {
    if !fits(config, state, params.len()) {
        return outcome::NO_CONFIG;
    }
    scan::pulses(config, state, Input(number), count)
}

/// Local event: gives the state of a contact, 0 or 1: 0, 8 or 17.
pub fn contact(config: &Config, state: &mut State, params: &[u8], contact: u8, on: u8) -> u8 {
    if !fits(config, state, params.len()) {
        return outcome::NO_CONFIG;
    }
    contacts::report(config, state, contact, on)
}

/// Local event: samples the analog of a mean; refused by 8 or 17.
pub fn sample(
    config: &Config,
    state: &mut State,
    params: &[u8],
    number: u8,
) -> Result<Sampled, u8> {
    if !fits(config, state, params.len()) {
        return Err(outcome::NO_CONFIG);
    }
    means::sample(config, state, Calculation(number))
}
