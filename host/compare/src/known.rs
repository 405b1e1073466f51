//! How a thing worth seeing is known: by the event, by both units before and after it, and by the answer.

use crate::board::header::*;
use crate::both::{halves, is_pair};
use crate::event::Event;
use crate::pair::Pair;
use independent::{Answer, Clock};

/// A stretch of so many characters was judged, and no whole frame, or its frame was looked at.
pub fn told(event: &Event, answer: &Answer, many: usize) -> bool {
    let is = matches!(event, Event::Stretch { bytes, .. } if bytes.len() == many);
    is && (answer.outcome == NOT_WHOLE as u8 || many == 8 && served(answer))
}

/// The stretch was a whole frame.
pub fn served(answer: &Answer) -> bool {
    let outcome = usize::from(answer.outcome);
    outcome != NOT_WHOLE
        && outcome != CHECK_WRONG
        && outcome != NOT_CONFIGURED
        && outcome != BUFFER_SHORT
}

/// The stretch was a pair that ended so.
pub fn paired(event: &Event, answer: &Answer, outcome: usize) -> bool {
    usize::from(answer.outcome) == outcome && is_pair(heard(event))
}

/// The stretch was no whole frame: a WRITE and an EXECUTE, of which these were right.
pub fn apart(event: &Event, answer: &Answer, right: (bool, bool)) -> bool {
    usize::from(answer.outcome) == NOT_WHOLE && halves(heard(event)) == Some(right)
}

/// Of a contact whose state was taken: whether it was in that state, is marked, was marked, and had changed since its group's last reply.
pub fn given(event: &Event, pair: &Pair, answer: &Answer) -> Option<(bool, bool, bool, bool)> {
    let Event::Contact(number, state) = event else {
        return None;
    };
    let (group, place) = (usize::from(number / 8), number % 8);
    let (word, bits) = pair.groups[group];
    let marked = |word: u16| word >> (8 + place) & 1 == 1;
    let own = word >> place & 1 == u16::from(*state);
    (answer.outcome == DONE as u8).then(|| {
        let now = pair.unit.memory.word(group as u8);
        (own, marked(now), marked(word), bits >> place & 1 == 1)
    })
}

pub fn not_valid(answer: &Answer) -> bool {
    answer.outcome == NOT_VALID as u8
}

/// The stretch was a scan by this function, and had a normal reply.
pub fn scans(event: &Event, answer: &Answer, function: u8) -> bool {
    answer.outcome == DONE as u8 && heard(event).get(2) == Some(&function)
}

/// Whether a group that was such has nothing left to tell.
pub fn cleared(pair: &Pair, was: fn(u16, u8) -> bool) -> bool {
    (0..GROUPS).any(|g| {
        let (word, bits) = pair.groups[g];
        was(word, bits) && pair.unit.memory.word(g as u8) < 0x100 && pair.state.changed[g] == 0
    })
}

/// Whether an equipped group has a mark now.
pub fn waiting(pair: &Pair) -> bool {
    (0..GROUPS).any(|g| pair.config.inputs[g] && pair.unit.memory.word(g as u8) > 0xFF)
}

/// Whether a reply has this word at two places.
pub fn told_twice(pair: &Pair, word: u16) -> bool {
    let reply = pair.reply();
    let data = &reply[7..reply.len() - 2];
    data.chunks(2)
        .filter(|two| **two == word.to_le_bytes())
        .count()
        > 1
}

/// The file that a record was stored in.
pub fn stored(event: &Event, answer: &Answer) -> Option<usize> {
    match event {
        Event::Store { file, .. } if answer.outcome == STORED as u8 => Some((*file).into()),
        _ => None,
    }
}

/// The full file that took a record.
pub fn drops(event: &Event, pair: &Pair, answer: &Answer) -> Option<usize> {
    stored(event, answer).filter(|_| pair.full)
}

/// The full file that refused a record.
pub fn refuses(event: &Event, pair: &Pair, answer: &Answer) -> Option<usize> {
    match event {
        Event::Store { file, .. } if pair.full && answer.outcome == FILE_FULL as u8 => {
            Some((*file).into())
        }
        _ => None,
    }
}

/// How many records of a file the latest history reply carried.
pub fn spared(pair: &Pair, file: usize) -> usize {
    let own = pair.before[MEMORY] == 1 && usize::from(pair.before[MEMORY_FILE]) == file;
    if own {
        pair.before[MEMORY_QUANTITY].into()
    } else {
        0
    }
}

/// Whether there is not a character of records more than the configuration asks for, which has files.
pub fn exact(pair: &Pair) -> bool {
    pair.places.room > 0 && pair.lent.records == pair.places.room
}

pub fn full(pair: &Pair, file: usize) -> bool {
    usize::from(pair.unit.memory.count(file)) == ROOM
}

pub fn heard(event: &Event) -> &[u8] {
    match event {
        Event::Stretch { bytes, .. } => bytes,
        _ => &[],
    }
}

/// The milliseconds that came with a stretch.
pub fn lag(event: &Event) -> usize {
    match event {
        Event::Stretch { lag, .. } => *lag as usize,
        _ => 0,
    }
}

/// The time that a Set Time sent, a good one with seven characters, and its lag.
pub fn time(event: &Event) -> Option<(Clock, usize)> {
    let bytes = heard(event);
    let data = bytes.get(6..13)?.try_into().ok()?;
    (bytes.len() == 15 && bytes[2..4] == [0x20, 0x38])
        .then(|| Clock::from_characters(data))?
        .map(|sent| (sent, lag(event)))
}

/// The same of one that was carried out.
pub fn set(event: &Event, answer: &Answer) -> Option<(Clock, usize)> {
    let outcome = usize::from(answer.outcome);
    time(event).filter(|_| outcome == DONE || outcome == BROADCAST_DONE)
}

pub fn master(event: &Event) -> u16 {
    heard(event).get(1).map_or(32, |high| u16::from(high >> 3))
}

/// The command of a history request that was served.
pub fn history(event: &Event, answer: &Answer) -> Option<u8> {
    let bytes = heard(event);
    (answer.outcome == 0 && answer.sent > 0 && bytes[2] == 0x04).then(|| bytes[3])
}

pub fn acknowledges(event: &Event, answer: &Answer) -> bool {
    history(event, answer).is_some_and(|command| command & 0x40 != 0)
}

pub fn releases(event: &Event, pair: &Pair, answer: &Answer) -> bool {
    acknowledges(event, answer)
        && pair.before[MEMORY] == 1
        && pair.before[MEMORY_MASTER] == master(event)
        && pair.before[MEMORY_QUANTITY] > 0
}

/// The table that a stretch asks for, by whose plan it is scanned.
pub fn plan_of(event: &Event) -> Option<usize> {
    let head = heard(event).get(2..4)?;
    (head[0] == 0x0A).then(|| usize::from(head[1] & 0x0F))
}

/// How many numbers the parts of its plan have: those of ST1, of ST2 and its own.
pub fn planned_parts(event: &Event, pair: &Pair) -> [u8; 3] {
    let at = AT_PLANS + 16 + 6 * plan_of(event).unwrap_or(0);
    [1, 3, 5].map(|part| pair.unit.memory.chars[at + part])
}
