//! Counts of what was compared, and whether it was enough.

use super::asks::{kind_of, KINDS};
use super::event::{Call, Event};
use super::image::SPOILS;
use super::raw::header::{READ_NOT_CONFIGURED, READ_NO_SUCH_DATA, READ_ROOM_SHORT, READ_RST};
use super::seen::{View, SEEN};
use super::twin::{Told, Twin};
use crate::tally::{print_list, OFTEN};
use independent::master::Request;

/// How a reply was read, in the order of the numbers; then whether a request was built.
const READ: usize = READ_RST + 3;
const BUILT: usize = READ;
const NONE: usize = READ + 1;
const COLUMNS: [&str; READ + 2] = [
    "0", "1", "2", "3", "4", "5", "6", "7", "17", "18", "built", "none",
];
/// Behind the kinds of requests: with nothing outstanding, and figures of no kind.
const ROWS: usize = KINDS.len() + 2;
const NOTHING: usize = KINDS.len();
const NO_KIND: usize = KINDS.len() + 1;

/// The counts.
pub struct Tally {
    rows: [[u64; COLUMNS.len()]; ROWS],
    seen: [u64; SEEN.len()],
    spoils: [u64; SPOILS.len()],
}

/// The kind of the request that is outstanding.
fn outstanding(request: Option<&Request>) -> usize {
    let Some(request) = request else {
        return NOTHING;
    };
    let (function, command, _) = request.parts();
    kind_of(request.broadcast(), function, command).unwrap_or(NO_KIND)
}

impl Tally {
    pub fn new() -> Self {
        Tally {
            rows: [[0; COLUMNS.len()]; ROWS],
            seen: [0; SEEN.len()],
            spoils: [0; SPOILS.len()],
        }
    }

    /// Counts an event.
    pub fn count(&mut self, event: &Event, spoil: Option<usize>, twin: &Twin, told: &Told) {
        let (row, column) = match &event.call {
            Call::Ask { wish, .. } => {
                let kind = kind_of(wish.all != 0, wish.function, wish.command);
                let built = if told.frame.is_some() { BUILT } else { NONE };
                (kind.unwrap_or(NO_KIND), built)
            }
            Call::Reply { .. } => {
                let column = match usize::from(told.number) {
                    READ_NOT_CONFIGURED => READ_RST + 1,
                    READ_ROOM_SHORT => READ_RST + 2,
                    number => number,
                };
                (outstanding(twin.before.outstanding.as_ref()), column)
            }
        };
        self.rows[row][column] += 1;
        if let Some(i) = spoil {
            self.spoils[i] += 1;
        }
        let (before, after) = (&twin.before, &twin.master);
        let view = View {
            event,
            before,
            after,
            told,
        };
        for (count, (_, known)) in self.seen.iter_mut().zip(SEEN) {
            *count += u64::from(event.spoilt.is_none() && known(&view));
        }
    }

    /// How many events there were.
    pub fn all(&self) -> u64 {
        self.rows.iter().flatten().sum()
    }

    fn names() -> impl Iterator<Item = &'static str> {
        KINDS.iter().map(|x| x.0).chain(["nothing", "no kind"])
    }

    /// Prints kinds of requests by how replies were read, and the rest.
    pub fn print(&self) {
        print!("{:>9}", "master");
        COLUMNS.iter().for_each(|name| print!("{name:>7}"));
        println!();
        for (name, row) in Self::names().zip(&self.rows) {
            print!("{name:>9}");
            row.iter().for_each(|n| print!("{n:>7}"));
            println!();
        }
        print_list("seen", SEEN.iter().map(|x| x.0).zip(self.seen));
        print_list("out of range", SPOILS.iter().map(|x| x.0).zip(self.spoils));
    }

    /// The columns that a row must have.
    fn expected(row: usize) -> Vec<usize> {
        let refusals = 1..READ_NO_SUCH_DATA;
        match KINDS.get(row) {
            Some((.., own)) => refusals
                .chain([READ_NO_SUCH_DATA, READ_RST + 1, READ_RST + 2, BUILT, NONE])
                .chain(own.iter().map(|&n| n.into()))
                .collect(),
            None if row == NOTHING => refusals.collect(),
            None => vec![NONE],
        }
    }

    /// The things that were not seen often enough.
    pub fn missing(&self) -> Vec<String> {
        let rows = Self::names().zip(&self.rows).enumerate();
        let columns = rows.flat_map(|(at, (name, row))| {
            let told = move |i: usize| (format!("{} of {name}", COLUMNS[i]), row[i]);
            Self::expected(at).into_iter().map(told)
        });
        let seen = SEEN.iter().map(|x| x.0).zip(self.seen);
        let spoils = SPOILS.iter().map(|x| x.0).zip(self.spoils);
        let named = seen.chain(spoils).map(|(name, n)| (name.to_string(), n));
        columns
            .chain(named)
            .filter(|(_, n)| *n < OFTEN)
            .map(|(name, n)| format!("{name}: {n}"))
            .collect()
    }
}
