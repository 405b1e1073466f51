//! The master's side (document 02, request 1).

mod build;
mod history;
mod judged;
mod refusals;
mod runs;

use crate::rig::*;
use independent::check_word;
use independent::master::{build, read, Data, Master, Read, Refusal, Request, Said};
use independent::{Calculation, Clock, Input, Output};

/// Room for records that never runs out.
const ROOM: usize = 511;
/// A time that can be sent.
const TIME: Clock = Clock {
    day: 234,
    hour: 15,
    minute: 7,
    second: 59,
    ms: 767,
};

/// The master that the rig's unit is polled by.
fn fresh() -> Master {
    Master::new(1, UNIT)
}

/// A reply of the unit to master 1 with right check characters.
fn reply(function: u8, data: &[u8]) -> Vec<u8> {
    let address = (1 << 11 | UNIT).to_le_bytes();
    let count = (data.len() as u16).to_le_bytes();
    let head = [address[0], address[1], function, 0x80, 0x54];
    checked([&head, &count[..], data].concat())
}

/// The bytes with their check characters behind them.
fn checked(mut bytes: Vec<u8>) -> Vec<u8> {
    let check = check_word(&bytes).to_le_bytes();
    bytes.extend_from_slice(&check);
    bytes
}

/// A master that has built this request.
fn asking(request: &Request) -> Master {
    let mut master = fresh();
    build(&mut master, request, ROOM).expect("a frame");
    master
}

/// What a master that asked this reads from a reply.
fn answer(request: &Request, bits: u8, data: &[u8]) -> Result<Said, Refusal> {
    let function = request.parts().0 | bits;
    read(&mut asking(request), &reply(function, data)).map(|read| read.said)
}

/// Calculation numbers.
fn calculations(numbers: &[u8]) -> Request {
    Request::Calculations(numbers.iter().copied().map(Calculation).collect())
}

/// A wish for records.
fn poll(file: u8, dump: bool) -> Request {
    Request::History { file, dump }
}

/// One of each kind of request that a unit answers, and is not a history request.
fn plain_requests() -> Vec<Request> {
    vec![
        Request::Scan { kinds: 0x4D },
        Request::Table(1),
        Request::AllCalculations,
        calculations(&[4, 0x15]),
        Request::Select {
            output: Output(7),
            close: true,
        },
        Request::Operate,
        Request::ResetSelect,
        Request::Initialize,
        Request::ResetCount(Input(0x40)),
        Request::Write {
            bias: 0x0102,
            ordinal: 6,
        },
        Request::Execute(vec![1, 2, 3]),
        Request::SetTime(TIME),
        Request::Read {
            bias: 0x0102,
            ordinal: 6,
            quantity: 9,
        },
        Request::ReadTime,
    ]
}

/// The two requests to all units.
fn broadcasts() -> [Request; 2] {
    [
        Request::BroadcastResetCount(Input(0x40)),
        Request::BroadcastSetTime(TIME),
    ]
}
