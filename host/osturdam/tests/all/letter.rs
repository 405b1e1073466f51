//! The letter's story: a second master's poll is no acknowledgement of what the first was sent.

use crate::line::{answered, asked, frame, heard, UNIT};
use osturdam::{Config, File, HistoryReply, Master, Memory, Outcome, Stored, Unit};

const TRIP: u8 = 0x07;
const FIRST: u8 = 1;
const SECOND: u8 = 2;

/// A unit that holds one trip, which the first master has been sent.
fn sent_to_first() -> (Unit, Vec<u8>) {
    let mut unit = Unit::fresh(Config::new(UNIT).file(File(0), 1));
    assert_eq!(unit.store_record(File(0), TRIP, &[630]), Stored::Stored);
    let trip = answered(&mut unit, FIRST, 0x04, 0x40, &[]);
    assert_eq!(trip[..2], [1, TRIP]);
    (unit, trip)
}

#[test]
fn another_masters_poll_leaves_the_record() {
    let (mut unit, trip) = sent_to_first();
    assert_eq!(answered(&mut unit, SECOND, 0x04, 0x40, &[]), trip);
    assert_eq!(
        unit.held(File(0)),
        Some(1),
        "the first master may never have received it whole"
    );
    assert_eq!(answered(&mut unit, FIRST, 0x04, 0x40, &[]), trip);
}

#[test]
fn its_own_masters_next_request_releases_it() {
    let (mut unit, _) = sent_to_first();
    assert_eq!(answered(&mut unit, FIRST, 0x04, 0x40, &[]), [0]);
    assert_eq!(unit.held(File(0)), Some(0));
}

#[test]
fn it_is_sent_again_to_its_own_master_alone() {
    let (mut unit, trip) = sent_to_first();
    assert_eq!(answered(&mut unit, FIRST, 0x04, 0x00, &[]), trip);
    assert_eq!(
        asked(&mut unit, SECOND, 0x04, 0x00, &[]),
        Outcome::NothingAgain
    );
    assert_eq!(unit.held(File(0)), Some(1));
}

#[test]
fn a_damaged_acknowledgement_leaves_it() {
    let (mut unit, _) = sent_to_first();
    let mut damaged = frame(FIRST, 0x04, 0x40, &[]);
    damaged[3] ^= 0x40;
    assert_eq!(heard(&mut unit, &damaged).0, Outcome::CheckWrong);
    assert_eq!(unit.held(File(0)), Some(1));
}

#[test]
fn the_view_tells_whose_reply_it_was() {
    let (unit, _) = sent_to_first();
    let reply = HistoryReply {
        master: Master(FIRST),
        file: File(0),
        dump: false,
        quantity: 1,
        more: false,
    };
    assert_eq!(
        unit.kept().view().map(|view| view.memory),
        Some(Memory::Remembered(reply))
    );
}
