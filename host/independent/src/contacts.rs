//! Contacts: the makers of two-bit status words (document 02, request 8).

use crate::config::{Config, Input, InputKind};
use crate::outcome;
use crate::state::State;

/// The number of groups, each of eight contacts and with one input number.
pub const GROUPS: usize = 32;

/// Takes the state of a contact; a second change since the group's last reply sets its mark.
pub fn report(config: &Config, state: &mut State, contact: u8, on: u8) -> u8 {
    let (group, place) = (contact / 8, contact % 8);
    if on > 1 || !config.has_input(Input(group)) {
        return outcome::NOT_VALID;
    }
    let word = &mut state.words[usize::from(group)];
    let changed = &mut state.changed[usize::from(group)];
    if *word >> place & 1 != u16::from(on) {
        *word ^= 1 << place;
        if *changed >> place & 1 == 1 {
            *word |= 0x100 << place;
        }
        *changed |= 1 << place;
    }
    outcome::DONE
}

/// A reply carried this number: marks and tally of a two-bit group start anew.
pub fn carried(state: &mut State, number: Input) {
    if number.kind() == Some(InputKind::TwoBit) {
        state.words[usize::from(number.0)] &= 0x00FF;
        state.changed[usize::from(number.0)] = 0;
    }
}
