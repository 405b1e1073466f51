//! Things worth seeing in a run of two masters, each with how it is known: a comparison that never met one has not compared it.

use super::event::{request_of, Call, Event};
use super::raw::header::{POLL_FRAME, POLL_ROOM};
use super::raw::Figures;
use super::replies::{LONGEST, SHORTEST};
use super::twin::Told;
use independent::history::most_sent;
use independent::master::{Kept, Master, Request};
use independent::Config;

/// An event, the independent master before and behind it, and what both told.
pub struct View<'a> {
    pub event: &'a Event,
    pub before: &'a Master,
    pub after: &'a Master,
    pub told: &'a Told,
}

type Known = fn(&View) -> bool;

/// What must have been seen.
pub const SEEN: [(&str, Known); 56] = [
    ("first history request, with the bit", |v| {
        v.polled() == Some(true) && v.before.latest.is_none()
    }),
    ("next history request, with the bit", |v| {
        v.polled() == Some(true) && v.before.latest.is_some()
    }),
    ("repeat without the bit", |v| v.polled() == Some(false)),
    ("repeat of another file or kind than is wished", |v| {
        v.polled() == Some(false) && v.frame()[3] != v.wish().command
    }),
    ("repeat of a repeat", |v| {
        v.polled() == Some(false) && v.before.latest.is_some_and(|x| !x.acknowledge)
    }),
    ("history asked for with just enough room", |v| {
        v.polled().is_some() && v.room() == POLL_ROOM as u64
    }),
    ("history not asked for with one too little room", |v| {
        v.refuses(|x| x.function == 0x04) && v.room() == POLL_ROOM as u64 - 1
    }),
    ("another request built with no room", |v| {
        v.frame().get(2).is_some_and(|&f| f != 0x04) && v.room() == 0
    }),
    ("no frame in a buffer one too short", |v| {
        v.refuses(|_| true) && v.buffer() == POLL_FRAME - 1
    }),
    ("frame in a buffer just long enough", |v| {
        !v.frame().is_empty() && v.buffer() == POLL_FRAME
    }),
    ("frame of 136 characters", |v| v.frame().len() == POLL_FRAME),
    ("129 characters not sent", |v| {
        v.unmade() && v.wish().body.len() == POLL_FRAME - 7
    }),
    ("date that is none not sent", |v| {
        v.unmade() && v.wish().command == 0x38 && v.wish().body.len() == 7
    }),
    ("file 32 not asked for", |v| {
        v.unmade() && v.wish().function == 0x04 && v.wish().command >= 64
    }),
    ("table that is none not asked for", |v| {
        v.unmade() && v.wish().function == 0x0A && v.wish().command == 0x40
    }),
    ("master of all units asks for nothing", |v| {
        v.refuses(|_| true) && v.before.unit > Config::LAST_UNIT
    }),
    ("request built while another waits", |v| {
        !v.frame().is_empty() && v.before.outstanding.is_some()
    }),
    ("another request built behind history", |v| {
        v.frame().get(2).is_some_and(|&f| f != 0x04) && asks_history(v.before)
    }),
    ("records kept", |v| !v.told.records.is_empty()),
    ("32 records kept", |v| v.told.records.len() == 32),
    ("13 records kept", |v| v.told.records.len() == 13),
    ("records of 16 values kept", |v| v.kept_size() == 38),
    ("records of one value kept", |v| v.kept_size() == 8),
    ("511 characters of history kept", |v| {
        v.kept_size() > 0 && v.data().len() == POLL_ROOM
    }),
    ("records kept, more held", |v| {
        v.kept_size() > 0 && v.first() > 0x80
    }),
    ("empty history reply", |v| v.history(0) && v.data() == [0]),
    ("repeat not kept again", |v| {
        v.history(0) && v.data().len() > 1 && v.told.records.is_empty()
    }),
    ("repeat of an empty reply known", |v| {
        v.history(0) && v.data() == [0] && v.repeats() && v.same_kept()
    }),
    ("other data kept without the bit", |v| {
        v.kept_size() > 0 && v.repeats() && v.before.last_kept.is_some()
    }),
    ("first data kept without the bit", |v| {
        v.kept_size() > 0 && v.repeats() && v.before.last_kept.is_none()
    }),
    ("same data kept with the bit", |v| {
        v.kept_size() > 0 && !v.repeats() && v.same_kept()
    }),
    ("same data of another file or kind kept", |v| {
        v.kept_size() > 0 && v.repeats() && v.same_data() && !v.same_kept()
    }),
    ("flag refused below what fits", |v| {
        v.history(5) && v.whole().is_some_and(|(many, most)| many < most) && v.first() > 0x80
    }),
    ("more records than fit refused", |v| {
        v.history(5) && v.whole().is_some_and(|(many, most)| many > most)
    }),
    ("stamp that is none refused", |v| {
        v.history(5) && v.first() < 0x80 && v.whole().is_some_and(|(many, most)| many <= most)
    }),
    ("NOP lets the bit be set", |v| {
        v.history(6) && !v.before.may_acknowledge && v.after.may_acknowledge
    }),
    ("RST does not let the bit be set", |v| {
        v.history(7) && !v.after.may_acknowledge
    }),
    ("reply to another leaves the bit unset", |v| {
        v.read(0)
            && !asks_history(v.before)
            && v.before.latest.is_some()
            && !v.after.may_acknowledge
    }),
    ("second reply refused", |v| {
        v.read(4) && v.before.outstanding.is_none()
    }),
    ("retry mark set", |v| v.after.retry && !v.before.retry),
    ("retry mark cleared", |v| !v.after.retry && v.before.retry),
    ("retry mark left by a request", |v| {
        !v.frame().is_empty() && v.after.retry
    }),
    ("reply of 8 characters", |v| {
        v.read(1) && v.heard().len() == SHORTEST - 1
    }),
    ("reply of 521 characters", |v| {
        v.read(1) && v.heard().len() == LONGEST + 1
    }),
    ("NOP and RST at once", |v| {
        v.read(4) && v.before.outstanding.is_some() && v.heard()[2] >= 0xC0
    }),
    ("255 words of a table", |v| {
        v.read(0) && v.heard()[2] == 0x0A && v.data().len() == 510
    }),
    ("127 values", |v| {
        v.read(0) && v.heard()[2] == 0x03 && v.data().len() == 508
    }),
    ("102 numbers with values", |v| {
        v.read(0) && v.asked().is_some_and(|n| n == 102)
    }),
    ("103 numbers too many", |v| {
        v.read(6) && v.asked().is_some_and(|n| n == 103) && v.data().is_empty()
    }),
    ("numbers that are missing", |v| {
        v.read(6) && v.asked().is_some() && !v.data().is_empty()
    }),
    ("no number missing refused", |v| {
        v.read(5) && v.heard()[2] == 0x43 && v.data().is_empty() && v.asked().is_some()
    }),
    ("two values of one number refused", |v| {
        v.read(5) && v.asked().is_some_and(|n| 5 * n == v.data().len()) && v.heard()[2] == 0x03
    }),
    ("NOP of a block's part", |v| {
        v.read(6) && v.heard()[2] == 0x68
    }),
    ("NOP of a part that every unit has refused", |v| {
        v.read(5) && v.heard()[2] == 0x68 && v.echoes()
    }),
    ("reply behind a broadcast, of the unit's address", |v| {
        v.read(3) && v.broadcast() && v.heard()[0] != 0xFF
    }),
    ("reply behind a broadcast, of its address", |v| {
        v.read(5) && v.broadcast()
    }),
];

/// The latest history request is outstanding.
fn asks_history(m: &Master) -> bool {
    matches!(m.outstanding, Some(Request::History { .. }))
}

/// No figures: those of an event that is no request.
static NO_WISH: Figures = Figures {
    all: 0,
    function: 0xFF,
    command: 0,
    body: Vec::new(),
};

impl View<'_> {
    fn wish(&self) -> &Figures {
        match &self.event.call {
            Call::Ask { wish, .. } => wish,
            Call::Reply { .. } => &NO_WISH,
        }
    }

    fn frame(&self) -> &[u8] {
        self.told.frame.as_deref().unwrap_or_default()
    }

    /// What is lent: for records, by what is told of it or by itself.
    fn room(&self) -> u64 {
        match self.event.call {
            Call::Ask { room, .. } => room,
            Call::Reply { room, .. } => room as u64,
        }
    }

    fn buffer(&self) -> usize {
        match self.event.call {
            Call::Ask { length, .. } => length,
            Call::Reply { .. } => 0,
        }
    }

    /// History was asked for: with the bit or without.
    fn polled(&self) -> Option<bool> {
        let frame = self.frame();
        (frame.get(2) == Some(&0x04)).then(|| frame[3] & 0x40 != 0)
    }

    /// Good figures of this kind made no frame.
    fn refuses(&self, of: fn(&Figures) -> bool) -> bool {
        let asked = matches!(self.event.call, Call::Ask { .. }) && of(self.wish());
        asked && self.frame().is_empty() && request_of(self.wish()).is_some_and(|x| x.valid())
    }

    /// Figures that make no request made no frame.
    fn unmade(&self) -> bool {
        let asked = matches!(self.event.call, Call::Ask { .. });
        asked && self.frame().is_empty() && !request_of(self.wish()).is_some_and(|x| x.valid())
    }

    fn heard(&self) -> &[u8] {
        match &self.event.call {
            Call::Reply { bytes, .. } => bytes,
            Call::Ask { .. } => &[],
        }
    }

    /// A reply was read so.
    fn read(&self, number: u8) -> bool {
        matches!(self.event.call, Call::Reply { .. }) && self.told.number == number
    }

    /// A reply to the latest history request was read so, by its data if they were judged.
    fn history(&self, number: u8) -> bool {
        self.read(number) && asks_history(self.before)
    }

    /// The data of a reply that is whole.
    fn data(&self) -> &[u8] {
        let heard = self.heard();
        heard
            .get(SHORTEST - 2..heard.len().saturating_sub(2))
            .unwrap_or_default()
    }

    /// The first of them: quantity and flag of history.
    fn first(&self) -> u8 {
        self.data().first().copied().unwrap_or(0)
    }

    /// The length of the records kept, or 0.
    fn kept_size(&self) -> usize {
        let first = self.told.records.first();
        first.map_or(0, |record| record.characters.len())
    }

    /// The latest history request is one without the bit.
    fn repeats(&self) -> bool {
        self.before.latest.is_some_and(|latest| !latest.acknowledge)
    }

    fn same_data(&self) -> bool {
        let kept = self.before.last_kept.as_ref();
        kept.is_some_and(|kept| kept.data == self.data())
    }

    /// The last data kept are these, of the file and the kind of the latest request.
    fn same_kept(&self) -> bool {
        let latest = self.before.latest.map(|x| (x.file, x.dump));
        let of = |kept: &Kept| Some((kept.file, kept.dump)) == latest;
        self.same_data() && self.before.last_kept.as_ref().is_some_and(of)
    }

    /// Records in a normal reply that all have one good size: how many, and how many fit.
    fn whole(&self) -> Option<(usize, usize)> {
        let (first, rest) = self.data().split_first()?;
        let many = usize::from(first & 0x7F);
        let size = rest.len().checked_div(many)?;
        let values = (size.checked_sub(6)? / 2) as u8;
        let sized = (1..=16).contains(&values) && size % 2 == 0 && rest.len() == many * size;
        let dump = matches!(
            self.before.outstanding,
            Some(Request::History { dump: true, .. })
        );
        (sized && self.heard()[2] == 0x04).then(|| (many, most_sent(values, dump)))
    }

    /// How many calculations were asked for by their numbers.
    fn asked(&self) -> Option<usize> {
        match &self.before.outstanding {
            Some(Request::Calculations(numbers)) => Some(numbers.len()),
            _ => None,
        }
    }

    /// The data are those of the request.
    fn echoes(&self) -> bool {
        let asked = self.before.outstanding.as_ref();
        asked.is_some_and(|request| request.parts().2 == self.data())
    }

    fn broadcast(&self) -> bool {
        let asked = self.before.outstanding.as_ref();
        asked.is_some_and(Request::broadcast)
    }
}
