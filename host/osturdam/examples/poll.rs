//! A first program: a unit, a status word, a master's poll, and the reply. `examples/c/poll.c` is the same in C.

use osturdam::{Config, Input, Unit, REPLY};

fn main() {
    let mut unit = Unit::fresh(Config::new(1234).input(Input(0x30)).input(Input(0x40)));
    println!(
        "set word: outcome {}",
        unit.set_word(Input(0x30), 0x8001).number()
    );
    println!("pulses: outcome {}", unit.pulses(Input(0x40), 5).number());

    // function 00 from master 1: simple status and accumulators
    let poll = [0xD2, 0x0C, 0x00, 0x41, 0x00, 0x00, 0x52, 0x67];
    let mut buffer = [0; REPLY];
    let turn = unit.stretch(&poll, 0, &mut buffer);

    // here a board stores the unit, then sends
    let sent: String = turn.reply.iter().map(|c| format!("{c:02X}")).collect();
    println!("poll: outcome {}, reply {sent}", turn.outcome.number());
}
