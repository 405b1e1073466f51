//! Local events: a contact that bounces, the demand of a feeder as a mean of samples, and what a master reads of both.
//! `examples/c/events.c` is the same in C.

use osturdam::{Config, Contact, Input, Sampled, SpecialCalculation, Unit, REPLY};

const GROUP: Input = Input(0x02);
const LOAD: Input = Input(0x80);
const DEMAND: SpecialCalculation = SpecialCalculation(0x07);

fn ask(unit: &mut Unit, what: &str, chars: &[u8]) {
    let mut buffer = [0; REPLY];
    let turn = unit.stretch(chars, 0, &mut buffer);
    let sent: String = turn.reply.iter().map(|c| format!("{c:02X}")).collect();
    println!("{what}: outcome {}, reply {sent}", turn.outcome.number());
}

/// The analog is now this, and sampled.
fn sample(unit: &mut Unit, word: i16) {
    unit.set_word(LOAD, word as u16);
    match unit.sample(DEMAND) {
        Ok(Sampled::Ready(mean)) => println!("sample {word}: outcome 0, mean {mean:.2}"),
        Ok(Sampled::NotReady(missing)) => println!("sample {word}: outcome 0, {missing} missing"),
        Err(refused) => println!("sample {word}: outcome {}", refused.number()),
    }
}

fn main() {
    let equipped = Config::new(1234)
        .input(GROUP)
        .input(LOAD)
        .calculation(DEMAND);
    let mut unit = Unit::fresh(equipped.mean(DEMAND, LOAD, 4));
    let states = [0xD2, 0x0C, 0x00, 0x04, 0x00, 0x00, 0x43, 0xB2];
    let value = [0xD2, 0x0C, 0x03, 0x00, 0x01, 0x00, 0x07, 0xA6, 0xC3];

    // contact 5 of the group closes, opens and closes between two polls: the first reply has a mark beside its state, the next has none
    for closed in [true, false, true] {
        let outcome = unit.contact(Contact(8 * GROUP.0 + 5), closed);
        println!("contact: outcome {}", outcome.number());
    }
    ask(&mut unit, "states", &states);
    ask(&mut unit, "states", &states);

    // until four samples are in, the calculation is one that is not equipped
    ask(&mut unit, "value", &value);
    for word in [410, 395, -20, 402] {
        sample(&mut unit, word);
    }
    ask(&mut unit, "value", &value);
}
