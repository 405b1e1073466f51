//! Runs the proved master and the independent one side by side: random requests, and the replies of both units and of none to them.

mod asks;
mod event;
mod faults;
mod image;
mod raw;
mod replies;
mod runs;
mod seen;
mod tally;
mod twin;

use crate::event::hex;
use crate::reduce::fewer;
use crate::rng::Rng;
use event::Event;
use faults::{Fault, FAULTS};
use independent::master::Master;
use runs::{run, Failure, Run};
use tally::Tally;
use twin::{Start, Twin};

/// The parts of the comparison that are a master's.
const RUNS: u64 = 300;
const BROKEN: u64 = 400;
/// A planted fault is found in as many runs.
const FIND_WITHIN: u64 = 2_000;

/// Where a run fails first, as its number of events and the difference.
fn fails(
    start: &Start,
    events: &[Event],
    fault: Option<&'static Fault>,
) -> Option<(usize, String)> {
    let mut twin = match Twin::new(start, fault) {
        Ok(twin) => twin,
        Err(found) => return Some((0, found)),
    };
    let mut numbered = (1..).zip(events);
    numbered.find_map(|(i, event)| twin.take(event).err().map(|found| (i, found)))
}

/// Ways to make a start simpler; the first makes all of it so.
const SIMPLER: [fn(&mut Start); 5] = [
    |s| {
        s.master = Master::new(s.master.master, s.master.unit);
        s.fresh = true;
    },
    |s| s.master.outstanding = None,
    |s| s.master.last_kept = None,
    |s| s.master.retry = false,
    |s| s.fill = 0,
];

/// The short run.
fn reduced(mut failure: Run, fault: Option<&'static Fault>) -> Run {
    fewer_events(&mut failure, fault);
    for simpler in SIMPLER {
        let mut start = failure.start.clone();
        simpler(&mut start);
        if let Some((needed, _)) = fails(&start, &failure.events, fault) {
            failure.events.truncate(needed);
            failure.start = start;
            fewer_events(&mut failure, fault);
        }
    }
    failure
}

/// Leaves out events of a run of the masters.
fn fewer_events(failure: &mut Run, fault: Option<&'static Fault>) {
    let start = &failure.start;
    fewer(&mut failure.events, |events| {
        fails(start, events, fault).map(|x| x.0)
    });
}

fn print(failure: &Run, fault: Option<&'static Fault>) {
    let Start {
        master,
        fresh,
        fill,
    } = &failure.start;
    let (number, unit) = (master.master, master.unit);
    println!("  master {number} of unit {unit}, fresh {fresh}, memory filled with {fill:02X}");
    if !fresh {
        let kept = master.last_kept.as_ref();
        let data = kept.map(|kept| (kept.file, kept.dump, hex(&kept.data)));
        println!(
            "  outstanding {:?}, latest {:?}, may acknowledge {}, retry {}, kept {data:?}",
            master.outstanding, master.latest, master.may_acknowledge, master.retry
        );
    }
    for (i, event) in failure.events.iter().enumerate() {
        println!("  {}. {event}", i + 1);
    }
    if let Some((_, found)) = fails(&failure.start, &failure.events, fault) {
        println!("  differs: {found}");
    }
}

/// Runs until there were so many events; the first failing run is made short and printed.
pub fn compare(seed: u64, events: u64) -> Result<(), String> {
    let mut tally = Tally::new();
    let mut number = 0;
    while tally.all() < events {
        match run(Rng::of(seed, RUNS, number), None, &mut tally) {
            Ok(()) => number += 1,
            Err(Failure::Units(found)) => {
                return Err(format!("run {number}: the units polled differ: {found}"))
            }
            Err(Failure::Masters(failure)) => {
                println!("run {number} of two masters differs; the short run is");
                print(&reduced(*failure, None), None);
                return Err(format!("the masters differ (seed {seed})"));
            }
        }
    }
    tally.print();
    println!("{} events of two masters in {number} runs", tally.all());
    match tally.missing() {
        missing if missing.is_empty() => Ok(()),
        missing => Err(format!("seen too seldom: {}", missing.join("; "))),
    }
}

/// Plants each fault, and holds the comparison to finding it and to a short run.
pub fn find_faults(seed: u64) -> Result<(), String> {
    FAULTS.iter().try_for_each(|fault| find(seed, fault))
}

fn find(seed: u64, fault: &'static Fault) -> Result<(), String> {
    let found = |number| match run(
        Rng::of(seed, BROKEN, number),
        Some(fault),
        &mut Tally::new(),
    ) {
        Err(Failure::Masters(failure)) => Some(*failure),
        _ => None,
    };
    let failure = (0..FIND_WITHIN)
        .find_map(found)
        .ok_or(format!("not found: {}", fault.name))?;
    let long = failure.events.len();
    let short = reduced(failure, Some(fault));
    println!(
        "planted: {}; found after {long} events, shown by {}",
        fault.name,
        short.events.len()
    );
    print(&short, Some(fault));
    if short.events.len() > fault.most {
        return Err(format!("the run is longer than {} events", fault.most));
    }
    Ok(())
}
