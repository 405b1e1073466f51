//! Frames built, and read by the unit as what was meant (readings 1.12, 1.15, 1.18).

use super::*;

/// Function, command and data of a built frame, with its address and check seen to.
fn built(request: &Request, unit: u16) -> (u8, u8, Vec<u8>) {
    let bytes = build(&mut fresh(), request, ROOM).expect("a frame");
    let end = bytes.len() - 2;
    let whole = frame(1, unit, bytes[2], bytes[3], &bytes[6..end]);
    assert_eq!(bytes, whole);
    (bytes[2], bytes[3], bytes[6..end].to_vec())
}

#[test]
fn scan_of_the_papers_appendix() {
    let bytes = build(&mut fresh(), &Request::Scan { kinds: 0x41 }, 0).unwrap();
    assert_eq!(bytes, [0xD2, 0x0C, 0, 0x41, 0, 0, 0x52, 0x67]);
}

#[test]
fn every_request_has_its_function_command_and_data() {
    let time = vec![2, 0x34, 0x15, 0x07, 0x59, 0x02, 0xFF];
    let expected: [(u8, u8, Vec<u8>); 14] = [
        (0x00, 0x4D, vec![]),
        (0x0A, 0x41, vec![]),
        (0x03, 0x80, vec![]),
        (0x03, 0x00, vec![4, 0x15]),
        (0x10, 0x11, vec![7]),
        (0x10, 0x20, vec![]),
        (0x10, 0x21, vec![]),
        (0x20, 0x00, vec![]),
        (0x20, 0x11, vec![0x40]),
        (0x20, 0x30, vec![2, 1, 6]),
        (0x20, 0x31, vec![1, 2, 3]),
        (0x20, 0x38, time.clone()),
        (0x28, 0x30, vec![2, 1, 6, 9]),
        (0x28, 0x31, vec![]),
    ];
    for (request, expected) in plain_requests().iter().zip(expected) {
        assert_eq!(built(request, UNIT), expected);
    }
    let open = Request::Select {
        output: Output(0xFF),
        close: false,
    };
    assert_eq!(built(&open, UNIT), (0x10, 0x10, vec![0xFF]));
    let [reset, set] = broadcasts();
    assert_eq!(built(&reset, ALL), (0x20, 0x11, vec![0x40]));
    assert_eq!(built(&set, ALL), (0x20, 0x38, time));
}

#[test]
fn history_request_names_file_and_kind() {
    for file in 0..32 {
        assert_eq!(built(&poll(file, false), UNIT), (4, 0x40 | file, vec![]));
        assert_eq!(built(&poll(file, true), UNIT), (4, 0x60 | file, vec![]));
    }
}

#[test]
fn tables_and_kinds_go_as_far_as_document_01() {
    for table in 1..=15 {
        assert_eq!(built(&Request::Table(table), UNIT).1, 0x40 | table);
    }
    for kinds in (0..=255).filter(|kinds| kinds & !0x4D == 0) {
        assert_eq!(built(&Request::Scan { kinds }, UNIT).1, kinds);
    }
}

#[test]
fn data_go_to_128_characters() {
    for length in [1, 128] {
        let numbers = built(&calculations(&vec![0xFF; length]), UNIT).2;
        assert_eq!(numbers, vec![0xFF; length]);
        let data = built(&Request::Execute(vec![9; length]), UNIT).2;
        assert_eq!(data, vec![9; length]);
    }
}

/// Figures that make no request of document 01.
fn no_requests() -> Vec<Request> {
    let wrong_times = [
        (0, 0, 0, 0),
        (367, 0, 0, 0),
        (1, 24, 0, 0),
        (1, 0, 60, 0),
        (1, 0, 0, 1000),
    ];
    let mut wrong = vec![
        Request::Scan { kinds: 0x02 },
        Request::Scan { kinds: 0xFF },
        Request::Table(0),
        Request::Table(16),
        calculations(&[]),
        calculations(&[4; 129]),
        Request::Execute(vec![]),
        Request::Execute(vec![0; 129]),
        poll(32, false),
        poll(255, true),
    ];
    for (day, hour, minute, ms) in wrong_times {
        let clock = Clock {
            day,
            hour,
            minute,
            second: minute,
            ms,
        };
        wrong.push(Request::SetTime(clock));
        wrong.push(Request::BroadcastSetTime(clock));
    }
    wrong
}

#[test]
fn figures_that_make_no_request_change_nothing() {
    for request in no_requests() {
        for mut master in [fresh(), asking(&Request::ReadTime), asking(&poll(3, true))] {
            let before = master.clone();
            assert_eq!(build(&mut master, &request, ROOM), None, "{request:?}");
            assert_eq!(master, before);
        }
    }
}

#[test]
fn address_that_is_none_gives_no_frame() {
    for (master, unit, good) in [(31, 0x7FE, true), (32, 1, false), (1, 0x7FF, false)] {
        let mut master = Master::new(master, unit);
        let built = build(&mut master, &Request::ReadTime, ROOM);
        assert_eq!(
            (built.is_some(), master.outstanding.is_some()),
            (good, good)
        );
    }
}

#[test]
fn history_request_needs_room_for_a_whole_reply() {
    for mut master in [fresh(), asking(&poll(3, true))] {
        let before = master.clone();
        for room in [0, 1, 510] {
            assert_eq!(build(&mut master, &poll(0, false), room), None);
            assert_eq!(master, before);
        }
        assert!(build(&mut master, &poll(0, false), 511).is_some());
    }
    assert!(build(&mut fresh(), &Request::Scan { kinds: 1 }, 0).is_some());
}

#[test]
fn building_leaves_the_retry_mark_and_the_history() {
    let mut master = asking(&poll(3, true));
    assert!(read(&mut master, &[]).is_err());
    let before = master.clone();
    for request in plain_requests().into_iter().chain(broadcasts()) {
        build(&mut master, &request, ROOM).unwrap();
        assert_eq!(master.outstanding, Some(request));
        master.outstanding = before.outstanding.clone();
        assert_eq!(master, before);
    }
}

#[test]
fn unit_takes_every_request_for_what_was_meant() {
    let (mut master, mut rig) = (fresh(), Rig::full());
    rig.load(1, 3, 0, &[0, 1, 0x80]);
    rig.word(0x80, 0x1234);
    rig.pulses(0x40, 9);
    let mut got = plain_requests().into_iter().map(|request| {
        let bytes = build(&mut master, &request, ROOM).expect("a frame");
        let got = rig.raw(&bytes);
        (got, rig.clone())
    });
    let mut next = || got.next().unwrap();
    assert_eq!(next().0.data().len(), 16);
    assert_eq!(next().0.data(), [0x34, 0x12]);
    assert_eq!(next().0.data().len(), 12);
    assert_eq!(next().0.data()[5], 0x15);
    assert_eq!(next().0.data(), [7]);
    let action = next().0.action.unwrap();
    assert_eq!((action.output, action.close), (7, true));
    assert_eq!(next().0.outcome, 14);
    let (initialized, rig) = next();
    assert_eq!((initialized.outcome, rig.state.bit7), (0, true));
    let (reset, rig) = next();
    assert_eq!((reset.data(), rig.state.words[0x40]), (&[0x40][..], 0));
    let (written, rig) = next();
    let place = rig.state.write.map(|write| (write.bias, write.ordinal));
    assert_eq!((written.outcome, place), (5, Some((0x0102, 6))));
    assert_eq!(next().0.outcome, 8);
    let (set, rig) = next();
    assert_eq!((set.outcome, rig.state.clock), (0, TIME));
    assert_eq!(next().0.data(), [2, 1, 6, 9]);
    assert_eq!(next().0.data(), TIME.characters());
}

#[test]
fn unit_carries_out_both_broadcasts() {
    let (mut master, mut rig) = (fresh(), Rig::full());
    rig.pulses(0x40, 9);
    for request in broadcasts() {
        let bytes = build(&mut master, &request, 0).expect("a frame");
        assert_eq!(rig.raw(&bytes).outcome, 4);
    }
    assert_eq!((rig.state.words[0x40], rig.state.clock), (0, TIME));
}
