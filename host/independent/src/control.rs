//! Select and operate: function 10h.

use crate::config::{Config, Output};
use crate::frame::{Frame, Reply};
use crate::outcome;
use crate::state::State;

/// The function of select and operate.
const FUNCTION: u8 = 0x10;
const OPEN: u8 = 0x10;
const CLOSE: u8 = 0x11;
const OPERATE: u8 = 0x20;
const RESET: u8 = 0x21;

/// A select that lives.
#[derive(Clone, Copy, Debug, PartialEq, Eq)]
pub struct Select {
    /// The master that holds it, 0 to 31.
    pub master: u8,
    /// The output number.
    pub output: u8,
    /// True to close, false to open.
    pub close: bool,
    /// Milliseconds since it was taken, not over the hold time.
    pub age: u32,
}

impl Select {
    /// The hold time in milliseconds; at this age it still lives.
    pub const HOLD: u32 = 5_000;
}

/// What the unit does to an output.
#[derive(Clone, Copy, Debug, PartialEq, Eq)]
pub struct Action {
    /// The output number.
    pub output: u8,
    /// True to close, false to open.
    pub close: bool,
}

/// Whether this frame breaks off a live select of its own master (outcome 12).
pub fn breaks_select(state: &State, frame: &Frame) -> bool {
    let operate = frame.function == FUNCTION && frame.command == OPERATE && frame.data.is_empty();
    held_by(state, frame.master) && !operate
}

/// Serves function 10h; a select of this master lives only when the frame is an operate.
pub fn serve(
    config: &Config,
    state: &mut State,
    frame: &Frame,
    reply: &mut Reply,
) -> (u8, Option<Action>) {
    match (frame.command, frame.data) {
        (OPEN | CLOSE, &[number]) => (take(config, state, frame, number, reply), None),
        (OPERATE, []) => operate(state, frame.master),
        (RESET, []) => (not_own(state), None),
        (OPEN | CLOSE | OPERATE | RESET, _) => (outcome::COUNT, None),
        _ => (outcome::UNKNOWN, None),
    }
}

/// Takes a select and echoes its number.
fn take(config: &Config, state: &mut State, frame: &Frame, number: u8, reply: &mut Reply) -> u8 {
    if !config.has_output(Output(number)) {
        return outcome::NOT_VALID;
    }
    if state.select.is_some() {
        return outcome::SELECT_HELD;
    }
    let close = frame.command == CLOSE;
    state.select = Some(Select {
        master: frame.master,
        output: number,
        close,
        age: 0,
    });
    state.timed_out = None;
    reply.push(number);
    outcome::DONE
}

/// Operates the select of this master; its own timed-out mark comes before another's select.
fn operate(state: &mut State, master: u8) -> (u8, Option<Action>) {
    match state.select {
        Some(select) if select.master == master => {
            state.select = None;
            (
                outcome::DONE,
                Some(Action {
                    output: select.output,
                    close: select.close,
                }),
            )
        }
        _ if state.timed_out == Some(master) => {
            state.timed_out = None;
            (outcome::TIMED_OUT, None)
        }
        _ => (not_own(state), None),
    }
}

/// 13 while another master holds the select, else 14.
fn not_own(state: &State) -> u8 {
    match state.select {
        Some(_) => outcome::SELECT_HELD,
        None => outcome::NONE_WAITS,
    }
}

fn held_by(state: &State, master: u8) -> bool {
    state.select.is_some_and(|select| select.master == master)
}

/// Time passed: the select ages, and past its hold time leaves its master's mark.
pub fn elapsed(state: &mut State, ms: u32) {
    let Some(select) = &mut state.select else {
        return;
    };
    select.age = select.age.saturating_add(ms);
    if select.age > Select::HOLD {
        state.timed_out = Some(select.master);
        state.select = None;
    }
}
