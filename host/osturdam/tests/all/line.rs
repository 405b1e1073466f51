//! A line with masters on it.

use osturdam::{Action, Outcome, Unit, REPLY};

/// The unit of the tests.
pub const UNIT: u16 = 1234;

/// The check over characters: divided bit by bit, low bit first.
fn check(chars: &[u8]) -> u16 {
    chars.iter().fold(0, |sum, c| {
        (0..8).fold(sum ^ u16::from(*c), |word, _| {
            (word >> 1) ^ (if word & 1 == 1 { 0xA001 } else { 0 })
        })
    })
}

/// A master's frame to a unit.
pub fn frame_to(unit: u16, master: u8, function: u8, command: u8, data: &[u8]) -> Vec<u8> {
    let address = unit | u16::from(master) << 11;
    let count = data.len() as u16;
    let mut frame = [
        &address.to_le_bytes()[..],
        &[function, command],
        &count.to_le_bytes(),
        data,
    ]
    .concat();
    frame.extend(check(&frame).to_le_bytes());
    frame
}

/// A master's frame to the unit of the tests.
pub fn frame(master: u8, function: u8, command: u8, data: &[u8]) -> Vec<u8> {
    frame_to(UNIT, master, function, command, data)
}

/// How a stretch ended that came without a lag, with the whole reply.
pub fn heard(unit: &mut Unit, stretch: &[u8]) -> (Outcome, Action, Vec<u8>) {
    heard_late(unit, stretch, 0)
}

/// The same with a lag.
pub fn heard_late(unit: &mut Unit, stretch: &[u8], lag: u32) -> (Outcome, Action, Vec<u8>) {
    let mut buffer = [0xEE; REPLY];
    let turn = unit.stretch(stretch, lag, &mut buffer);
    let told = (turn.outcome, turn.action, turn.reply.to_vec());
    let sent = told.2.len();
    assert!(
        buffer[sent..].iter().all(|c| *c == 0xEE),
        "behind the reply nothing is written"
    );
    if sent > 0 {
        assert_eq!(check(&told.2), 0, "the reply's check is right");
    }
    told
}

/// How a master's request ended.
pub fn asked(unit: &mut Unit, master: u8, function: u8, command: u8, data: &[u8]) -> Outcome {
    heard(unit, &frame(master, function, command, data)).0
}

/// The data of the reply to a request that is done.
pub fn answered(unit: &mut Unit, master: u8, function: u8, command: u8, data: &[u8]) -> Vec<u8> {
    let (outcome, _, reply) = heard(unit, &frame(master, function, command, data));
    assert_eq!(outcome, Outcome::Done);
    reply[7..reply.len() - 2].to_vec()
}
