//! Runs the proved unit and the independent one side by side, and the two masters, and compares everything.
//!
//! usage: compare [--seed N] [--events N] [--calls N] [--polls N] [--break | --record FILE]

mod aims;
mod bends;
mod board;
mod both;
mod calls;
mod event;
mod faults;
mod frames;
mod image;
mod known;
mod means;
mod pair;
mod places;
mod poll;
mod raw;
mod record;
mod reduce;
mod report;
mod rng;
mod runs;
mod scene;
mod seen;
mod shapes;
mod stirs;
mod tally;

use aims::{Aim, AIMS};
use faults::{Fault, FAULTS};
use record::Recording;
use rng::Rng;
use runs::run;
use std::fs::File;
use std::io::BufWriter;
use std::process::ExitCode;
use std::time::Instant;
use tally::Tally;

/// The parts of the comparison that are no function's own; functions follow from 1.
const RUNS: u64 = 0;
const RAW: u64 = 100;
const BROKEN: u64 = 200;
/// Calls with raw patterns, and how many of them share a unit.
const RAW_CALLS: usize = 12_000;
const RAW_SHARE: usize = 60;
/// A planted fault is found in as many runs.
const FIND_WITHIN: u64 = 2_000;

/// What the command line asks for.
struct Settings {
    seed: u64,
    events: u64,
    calls: u64,
    polls: u64,
    broken: bool,
    record: Option<String>,
}

fn settings() -> Result<Settings, String> {
    let mut made = Settings {
        seed: 2179,
        events: 200_000,
        calls: 100_000,
        polls: 1_000_000,
        broken: false,
        record: None,
    };
    let mut words = std::env::args().skip(1);
    while let Some(word) = words.next() {
        let mut number = || {
            words
                .next()
                .and_then(|w| w.parse().ok())
                .ok_or(format!("{word} wants a number"))
        };
        match word.as_str() {
            "--seed" => made.seed = number()?,
            "--events" => made.events = number()?,
            "--calls" => made.calls = number()?,
            "--polls" => made.polls = number()?,
            "--break" => made.broken = true,
            "--record" => made.record = words.next(),
            _ => return Err(format!("{word} is not known")),
        }
    }
    Ok(made)
}

/// Runs until there were enough; the first failing one is made short and printed.
fn enough(
    s: &Settings,
    part: u64,
    most: Option<Aim>,
    tally: &mut Tally,
    done: impl Fn(&Tally) -> bool,
) -> Result<(), String> {
    let mut number = 0;
    while !done(tally) {
        if let Err(failure) = run(Rng::of(s.seed, part, number), most, None, tally) {
            println!("run {number} of part {part} differs; the short run is");
            report::print(&reduce::reduce(*failure, None), None);
            return Err(format!("the units differ (seed {})", s.seed));
        }
        number += 1;
    }
    Ok(())
}

fn compare(s: &Settings) -> Result<(), String> {
    let mut tally = Tally::new();
    if usize::from(board::layout()) != board::header::LAYOUT {
        return Err("the library has another layout than the header".to_string());
    }
    enough(s, RUNS, None, &mut tally, |t| t.all() >= s.events)?;
    let runs = tally.all();
    for (part, (aim, ..)) in (1..).zip(AIMS) {
        enough(s, part, Some(aim), &mut tally, |t| t.calls(aim) >= s.calls)?;
    }
    let spoilt = (RAW_CALLS / RAW_SHARE) as u64;
    (0..spoilt).try_for_each(|number| raw::run(Rng::of(s.seed, RAW, number), RAW_SHARE))?;
    tally.print();
    println!(
        "{runs} events in random runs, {} calls in all, {RAW_CALLS} of spoilt memory",
        tally.all()
    );
    match tally.missing() {
        missing if missing.is_empty() => Ok(()),
        missing => Err(format!("seen too seldom: {}", missing.join("; "))),
    }
}

/// Plants a fault, and holds the comparison to finding it and to a short run.
fn find(s: &Settings, fault: &'static Fault) -> Result<(), String> {
    let found = |number| {
        run(
            Rng::of(s.seed, BROKEN, number),
            None,
            Some(fault),
            &mut Tally::new(),
        )
        .err()
    };
    let failure = (0..FIND_WITHIN)
        .find_map(found)
        .ok_or(format!("not found: {}", fault.name))?;
    let long = failure.events.len();
    let short = reduce::reduce(*failure, Some(fault));
    println!(
        "planted: {}; found after {long} events, shown by {}",
        fault.name,
        short.events.len()
    );
    report::print(&short, Some(fault));
    if short.events.len() > fault.most {
        return Err(format!("the run is longer than {} events", fault.most));
    }
    Ok(())
}

/// Writes random runs down, with at least as many calls as events are asked for; each is compared before it is written.
fn record(s: &Settings, path: &str) -> Result<(), String> {
    let told = |why: std::io::Error| format!("{path}: {why}");
    let file = File::create(path).map_err(told)?;
    let mut made = Recording::new(BufWriter::new(file)).map_err(told)?;
    let mut runs = 0;
    while u64::from(made.calls()) < s.events {
        let played = run(Rng::of(s.seed, RUNS, runs), None, None, &mut Tally::new());
        let played = played.map_err(|_| format!("run {runs} differs (seed {})", s.seed))?;
        made.run(&played).map_err(told)?;
        runs += 1;
    }
    made.end().map_err(told)?;
    println!("{} calls in {runs} runs are recorded", made.calls());
    Ok(())
}

fn main() -> ExitCode {
    let start = Instant::now();
    let told = settings().and_then(|s| {
        println!("seed {}", s.seed);
        if let Some(path) = &s.record {
            record(&s, path)
        } else if s.broken {
            let units = FAULTS.iter().try_for_each(|fault| find(&s, fault));
            units.and_then(|()| poll::find_faults(s.seed))
        } else {
            poll::compare(s.seed, s.polls).and_then(|()| compare(&s))
        }
    });
    println!("{} s", start.elapsed().as_secs());
    match told {
        Ok(()) => ExitCode::SUCCESS,
        Err(why) => {
            eprintln!("compare: {why}");
            ExitCode::FAILURE
        }
    }
}
