//! The port: its silence count and the mark of the port status character.

use crate::state::State;

/// All is well.
pub const MARK_OK: u8 = 0;
/// Nothing came for a minute.
pub const MARK_SILENT: u8 = 1;
/// A damaged stretch came.
pub const MARK_DAMAGED: u8 = 2;

/// The silence, in milliseconds, that sets the mark; the count stays there.
pub const SILENCE_LIMIT: u32 = 60_000;

/// There is only one port, so the three others show 01.
const OTHER_PORTS: u8 = 0b01_01_01_00;

/// The port status character as it stands.
pub fn status(state: &State) -> u8 {
    OTHER_PORTS | state.mark
}

/// A non-empty stretch came, good or not.
pub fn heard(state: &mut State) {
    state.silence = 0;
}

/// The stretch was no whole frame or had wrong check characters.
pub fn damaged(state: &mut State) {
    state.mark = MARK_DAMAGED;
}

/// A reply carried the mark.
pub fn answered(state: &mut State) {
    state.mark = MARK_OK;
}

/// Time passed; the count is held at its limit, as no more is ever asked of it.
pub fn elapsed(state: &mut State, ms: u32) {
    state.silence = state.silence.saturating_add(ms).min(SILENCE_LIMIT);
    if state.silence == SILENCE_LIMIT {
        state.mark = MARK_SILENT;
    }
}

/// Whether the kept count and mark are ones a port can have.
pub fn in_range(state: &State) -> bool {
    state.silence <= SILENCE_LIMIT && state.mark <= MARK_DAMAGED
}
