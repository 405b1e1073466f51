//! A master through its safe interface polls a unit through its own: what is asked is answered, taken apart, and kept once.

use crate::line::{frame, UNIT};
use osturdam::poll::{Data, Kinds, Poll, Read, Request, FRAME, MEMORY, ROOM};
use osturdam::{
    Clock, Config, ControlOutput, File, Input, Master, Ordinal, Outcome, SpecialCalculation,
    Stored, Unit, REPLY,
};

const NEW_YEAR: Clock = Clock {
    day: 366,
    hour: 23,
    minute: 59,
    second: 58,
    ms: 999,
};

fn equipped() -> Config {
    Config::new(UNIT)
        .input(Input(0x30))
        .input(Input(0x40))
        .output(ControlOutput(0x12))
        .calculation(SpecialCalculation(1))
        .calculation(SpecialCalculation(7))
        .file(File(3), 2)
}

fn master() -> Poll {
    Poll::begin(Master(31), UNIT)
}

/// The frame of a request, with all the room that it may want.
fn asked(poll: &mut Poll, request: Request) -> Vec<u8> {
    let mut buffer = [0xEE; FRAME];
    let frame = poll.ask(request, ROOM, &mut buffer);
    frame.expect("it is a request").to_vec()
}

/// The unit's reply to a frame.
fn answered(unit: &mut Unit, frame: &[u8]) -> Vec<u8> {
    let mut buffer = [0; REPLY];
    unit.stretch(frame, 0, &mut buffer).reply.to_vec()
}

/// A request with its reply: how it was read, and what it tells.
fn polled(unit: &mut Unit, poll: &mut Poll, request: Request, told: (Read, Data)) {
    let reply = answered(unit, &asked(poll, request));
    let mut room = [0; ROOM];
    let reading = poll.read(&reply, &mut room);
    assert_eq!((reading.read, reading.data), told, "{request:?}");
    assert_eq!(reading.status.map(|x| x[0]), Some(reply[3]));
    assert!(!poll.retry());
}

#[test]
fn each_request_is_answered_and_taken_apart() {
    let (mut unit, mut poll) = (Unit::fresh(equipped()), master());
    assert_eq!(unit.set_word(Input(0x30), 0x8001), Outcome::Done);
    assert_eq!(
        unit.set_value(SpecialCalculation(7), 0x40490FDB),
        Outcome::Done
    );
    let kinds = Kinds {
        simple_status: true,
        accumulators: true,
        ..Kinds::default()
    };
    let [one, seven] = [1, 7].map(SpecialCalculation);
    let (numbers, select) = ([seven, one], ControlOutput(0x12));
    let normal: [(Request, Data); 9] = [
        (Request::Scan(kinds), Data::Words(vec![0x8001, 0])),
        (Request::AllValues, Data::Values(vec![0, 0x40490FDB])),
        (
            Request::Values(&numbers),
            Data::Numbered(vec![(seven, 0x40490FDB), (one, 0)]),
        ),
        (
            Request::Select {
                output: select,
                close: true,
            },
            Data::Selected(select),
        ),
        (Request::Operate, Data::Nothing),
        (Request::ResetCount(Input(0x40)), Data::Reset(Input(0x40))),
        (Request::Initialise, Data::Nothing),
        (Request::SetTime(NEW_YEAR), Data::Nothing),
        (Request::Time, Data::Time(NEW_YEAR)),
    ];
    for (request, data) in normal {
        polled(&mut unit, &mut poll, request, (Read::Normal, data));
    }
}

#[test]
fn what_a_unit_lacks_is_told() {
    let (mut unit, mut poll) = (Unit::fresh(equipped()), master());
    let [one, two] = [1, 2].map(SpecialCalculation);
    let (numbers, past) = ([two, one, two], [0xFF, 0xFF, 0x06, 1]);
    let block = Request::Block {
        bias: 0xFFFF,
        ordinal: Ordinal(0x06),
        count: 1,
    };
    let missing = Data::Missing(vec![two, two]);
    for (request, data) in [
        (Request::Values(&numbers), missing),
        (Request::Table(5), Data::Nothing),
        (block, Data::Block(&past)),
    ] {
        polled(&mut unit, &mut poll, request, (Read::Nop, data));
    }
    polled(
        &mut unit,
        &mut poll,
        Request::Operate,
        (Read::Rst, Data::Nothing),
    );
}

#[test]
fn a_block_is_written_and_read_back() {
    let (mut unit, mut poll) = (Unit::fresh(equipped()), master());
    let (bias, ordinal, chars) = (14, Ordinal(0x00), [0xAB, 0xCD]);
    let write = asked(&mut poll, Request::Write { bias, ordinal });
    assert_eq!(answered(&mut unit, &write), [], "a WRITE is not answered");
    let execute = Request::Execute(&chars);
    polled(&mut unit, &mut poll, execute, (Read::Normal, Data::Nothing));
    let block = Request::Block {
        bias,
        ordinal,
        count: 2,
    };
    polled(
        &mut unit,
        &mut poll,
        block,
        (Read::Normal, Data::Block(&chars)),
    );
}

#[test]
fn all_units_are_told_and_none_answers() {
    let (mut unit, mut poll) = (Unit::fresh(equipped()), master());
    assert_eq!(unit.pulses(Input(0x40), 5), Outcome::Done);
    for request in [
        Request::ResetCountOfAll(Input(0x40)),
        Request::SetTimeOfAll(NEW_YEAR),
    ] {
        let frame = asked(&mut poll, request);
        assert_eq!(answered(&mut unit, &frame), []);
    }
    assert_eq!(unit.word(Input(0x40)), 0);
    assert_eq!(unit.kept().view().map(|view| view.clock), Some(NEW_YEAR));
}

/// History asked for: what is kept of the reply, unless that is lost.
fn history(unit: &mut Unit, poll: &mut Poll, lost: bool) -> Vec<u8> {
    let request = Request::History {
        file: File(3),
        dump: true,
    };
    let reply = answered(unit, &asked(poll, request));
    let mut room = [0; ROOM];
    match lost {
        true => Vec::new(),
        false => poll.read(&reply, &mut room).kept.to_vec(),
    }
}

#[test]
fn records_are_kept_once_and_in_order() {
    let (mut unit, mut poll) = (Unit::fresh(equipped()), master());
    assert_eq!(unit.store_record(File(3), 1, &[10, 11]), Stored::Stored);
    assert_eq!(unit.store_record(File(3), 2, &[20, 21]), Stored::Stored);
    assert_eq!(history(&mut unit, &mut poll, true), []);
    let kept = history(&mut unit, &mut poll, false);
    assert_eq!(
        (kept.len(), kept[0], kept[10]),
        (20, 1, 2),
        "a repeat brings what was lost"
    );
    assert_eq!(unit.store_record(File(3), 3, &[30, 31]), Stored::Stored);
    assert_eq!(history(&mut unit, &mut poll, true), []);
    assert_eq!(
        unit.held(File(3)),
        Some(1),
        "the two were kept, so the request released them"
    );
    let mut stored = Poll::from_bytes(poll.to_bytes());
    assert_eq!(history(&mut unit, &mut stored, false)[0], 3);
    assert_eq!(history(&mut unit, &mut stored, false), []);
    assert_eq!(unit.held(File(3)), Some(0));
}

#[test]
fn a_repeat_names_the_file_that_it_repeats() {
    let (mut unit, mut poll) = (Unit::fresh(equipped()), master());
    assert_eq!(unit.store_record(File(3), 9, &[1, 2]), Stored::Stored);
    history(&mut unit, &mut poll, true);
    let other = Request::History {
        file: File(4),
        dump: false,
    };
    let reply = answered(&mut unit, &asked(&mut poll, other));
    let mut room = [0; ROOM];
    let Data::History { records, more } = poll.read(&reply, &mut room).data else {
        panic!("history is told");
    };
    assert_eq!((records.len(), more), (1, false));
    assert_eq!((records[0].file, records[0].event()), (File(3), 9));
    assert_eq!(records[0].values(), [1, 2]);
    assert_eq!((records[0].stamp().day, records[0].stamp().ms), (1, 0));
}

/// A reply is refused, and nothing but the retry mark changes.
fn refused(poll: &mut Poll, before: &Poll, reply: &[u8], read: Read) {
    let mut room = [0xEE; ROOM];
    let reading = poll.read(reply, &mut room);
    let told = (reading.read, reading.status, reading.data);
    assert_eq!(told, (read, None, Data::Nothing));
    assert_eq!(room, [0xEE; ROOM]);
    assert!(poll.retry());
    let (is, was) = (poll.to_bytes(), before.to_bytes());
    let changed = (0..MEMORY).filter(|&i| is[i] != was[i]).count();
    assert_eq!(changed, 1, "the retry mark");
}

#[test]
fn what_is_refused_changes_the_retry_mark_alone() {
    let (mut unit, mut poll) = (Unit::fresh(equipped()), master());
    let good = answered(&mut unit, &asked(&mut poll, Request::Time));
    let before = poll.clone();
    let mut damaged = good.clone();
    damaged[9] ^= 1;
    refused(&mut poll, &before, &good[..8], Read::NotWhole);
    refused(&mut poll, &before, &damaged, Read::CheckWrong);
    for (master, function, command, data, read) in [
        (1, 0x28, 0x31, &[][..], Read::OtherAddress),
        (31, 0x20, 0x00, &[], Read::OtherFunction),
        (31, 0x28, 0x30, &[0, 0, 0, 1], Read::NoSuchData),
    ] {
        let reply = answered(&mut unit, &frame(master, function, command, data));
        refused(&mut poll, &before, &reply, read);
    }
    assert_eq!(poll.read(&good, &mut [0; ROOM]).read, Read::Normal);
    assert!(!poll.retry());
    let again = poll.read(&good, &mut [0; ROOM]).read;
    assert_eq!(again, Read::OtherFunction, "nothing is outstanding");
}

#[test]
fn figures_that_make_no_request_change_nothing() {
    let (none, many) = ([], [SpecialCalculation(0); 129]);
    let wrong = Clock {
        hour: 24,
        ..NEW_YEAR
    };
    let far = Clock {
        day: 1366,
        ..NEW_YEAR
    };
    let file = File(32);
    for request in [
        Request::Table(0),
        Request::Table(16),
        Request::Values(&none),
        Request::Values(&many),
        Request::Execute(&[]),
        Request::Execute(&[0; 129]),
        Request::History { file, dump: true },
        Request::SetTime(wrong),
        Request::SetTimeOfAll(far),
    ] {
        let (mut poll, mut buffer) = (master(), [0xEE; FRAME]);
        assert_eq!(poll.ask(request, ROOM, &mut buffer), None, "{request:?}");
        assert_eq!((poll, buffer), (master(), [0xEE; FRAME]));
    }
}

#[test]
fn what_is_too_short_is_told() {
    let history = Request::History {
        file: File(0),
        dump: false,
    };
    let mut poll = master();
    assert_eq!(poll.ask(history, ROOM - 1, &mut [0; FRAME]), None);
    assert_eq!(poll.ask(Request::Time, 0, &mut [0; FRAME - 1]), None);
    let reading = poll.read(&[0; 9], &mut [0; ROOM - 1]).read;
    assert_eq!((reading, poll), (Read::RoomShort, master()));
}

#[test]
fn numbers_that_are_none_ask_for_nothing() {
    for (number, unit) in [(32, UNIT), (1, 0x7FF), (255, 0xFFFF)] {
        let mut poll = Poll::begin(Master(number), unit);
        assert_eq!(poll.ask(Request::Time, ROOM, &mut [0; FRAME]), None);
    }
    let mut worn = Poll::from_bytes([0xFF; MEMORY]);
    assert_eq!(worn.ask(Request::Time, ROOM, &mut [0; FRAME]), None);
    assert_eq!(worn.read(&[0; 9], &mut [0; ROOM]).read, Read::NotConfigured);
    assert_eq!(worn, Poll::from_bytes([0xFF; MEMORY]));
}

#[test]
fn reads_have_their_numbers() {
    let numbers: Vec<u8> = Read::ALL.iter().map(|read| read.number()).collect();
    assert_eq!(numbers, [0, 1, 2, 3, 4, 5, 6, 7, 17, 18]);
    assert_eq!(Read::from_number(8), None);
}
