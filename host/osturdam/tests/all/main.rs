//! The unit through its safe interface: document 01's cases, the letter's story, and any input at all.

mod any;
mod apart;
mod cases;
mod lag;
mod letter;
mod line;
mod masters;
mod means;
mod pairs;
mod saved;
