//! Counts of what was compared, and whether it was enough.

use crate::aims::{Aim, AIMS, OF_STRETCHES};
use crate::bends::BENDS;
use crate::event::Event;
use crate::pair::Pair;
use crate::scene::FAULTY;
use crate::seen::SEEN;
use independent::Answer;

/// How often each thing must have been seen.
pub const OFTEN: u64 = 100;
const OUTCOMES: usize = 19;

/// The counts.
pub struct Tally {
    /// Of the random runs alone.
    runs: [u64; OUTCOMES],
    functions: [[u64; OUTCOMES]; AIMS.len()],
    seen: [u64; SEEN.len()],
    bends: [u64; BENDS.len()],
    faulty: [u64; FAULTY.len()],
}

fn place(aim: Aim) -> usize {
    AIMS.iter()
        .position(|(other, ..)| *other == aim)
        .expect("every function is listed")
}

impl Tally {
    pub fn new() -> Self {
        Tally {
            runs: [0; OUTCOMES],
            functions: [[0; OUTCOMES]; AIMS.len()],
            seen: [0; SEEN.len()],
            bends: [0; BENDS.len()],
            faulty: [0; FAULTY.len()],
        }
    }

    /// Counts a call of a function.
    pub fn call(&mut self, aim: Aim, event: &Event, pair: &Pair, answer: &Answer) {
        self.functions[place(aim)][usize::from(answer.outcome)] += 1;
        for (count, (_, known)) in self.seen.iter_mut().zip(SEEN) {
            *count += u64::from(known(event, pair, answer));
        }
    }

    /// Counts an event of a random run.
    pub fn event(&mut self, aim: Aim, answer: &Answer) {
        // the numbers that storing answers with are not outcomes, but for 17
        if aim != Aim::Store || answer.outcome == 17 {
            self.runs[usize::from(answer.outcome)] += 1;
        }
    }

    /// Counts a 17 for a number out of range, or for a fault of the configuration.
    pub fn turned_away(&mut self, bend: Option<usize>, fault: Option<usize>) {
        if let Some(i) = bend {
            self.bends[i] += 1;
        }
        if let Some(i) = fault {
            self.faulty[i] += 1;
        }
    }

    /// How many calls of a function there were.
    pub fn calls(&self, aim: Aim) -> u64 {
        self.functions[place(aim)].iter().sum()
    }

    /// How many calls there were in all.
    pub fn all(&self) -> u64 {
        self.functions.iter().flatten().sum()
    }

    /// Prints functions by outcomes, and the rest.
    pub fn print(&self) {
        print!("{:>8}", "outcome");
        (0..OUTCOMES).for_each(|i| print!("{i:>7}"));
        println!();
        print_row("runs", &self.runs);
        for ((_, name, _), row) in AIMS.iter().zip(&self.functions) {
            print_row(name, row);
        }
        print_list("seen", SEEN.iter().map(|x| x.0).zip(self.seen));
        print_list("17 for", BENDS.iter().map(|x| x.0).zip(self.bends));
        print_list(
            "17 for a configuration with",
            FAULTY.iter().map(|x| x.0).zip(self.faulty),
        );
    }

    /// The things that were not seen often enough.
    pub fn missing(&self) -> Vec<String> {
        let mut made = Vec::new();
        let mut hold = |name: String, count: u64| {
            if count < OFTEN {
                made.push(format!("{name}: {count}"));
            }
        };
        self.runs
            .iter()
            .enumerate()
            .for_each(|(i, &n)| hold(format!("outcome {i} in runs"), n));
        for ((aim, name, own), row) in AIMS.iter().zip(&self.functions) {
            let common: &[u8] = if aim.by_stretch() { &OF_STRETCHES } else { &[] };
            let expected = own.iter().chain(common);
            expected.for_each(|&i| hold(format!("outcome {i} of {name}"), row[usize::from(i)]));
        }
        SEEN.iter()
            .zip(self.seen)
            .for_each(|((name, _), n)| hold(name.to_string(), n));
        BENDS
            .iter()
            .zip(self.bends)
            .for_each(|((name, _), n)| hold(format!("17 for {name}"), n));
        FAULTY
            .iter()
            .zip(self.faulty)
            .for_each(|((name, _), n)| hold(format!("17 for {name}"), n));
        made
    }
}

fn print_row(name: &str, row: &[u64; OUTCOMES]) {
    print!("{name:>8}");
    row.iter().for_each(|n| {
        if *n == 0 {
            print!("{:>7}", "-")
        } else {
            print!("{n:>7}")
        }
    });
    println!();
}

pub fn print_list<'a>(head: &str, counts: impl Iterator<Item = (&'a str, u64)>) {
    let items: Vec<String> = counts.map(|(name, n)| format!("{name} {n}")).collect();
    println!("{head}: {}", items.join("; "));
}
