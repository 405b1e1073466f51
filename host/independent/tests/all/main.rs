//! The tests: one module a theme, all over a `Rig`.

mod bench_lines;
mod blocks;
mod calculations;
mod cases;
mod clock;
mod contacts;
mod control;
mod demands;
mod dice;
mod history;
mod kept;
mod lag;
mod master;
mod means;
mod newest;
mod order;
mod outcomes;
mod pairs;
mod programs;
mod rig;
mod scans;
mod slips;
mod status;
mod stretches;
mod tables;
