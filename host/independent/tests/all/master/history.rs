//! The acknowledge bit, repeats and the records kept (readings 1.1 to 1.7).

use super::*;

/// A dump reply with one record of this event type.
fn one(event: u8) -> Vec<u8> {
    vec![1, event, 0, 1, 0, 0, 0, 7, 7]
}

/// The command of the next history request.
fn command(master: &mut Master, wish: &Request) -> u8 {
    build(master, wish, ROOM).expect("a frame")[3]
}

/// The event types of the records kept, each with its file.
fn kept(master: &Master) -> Vec<(u8, u8)> {
    let records = master.records.iter();
    records.map(|r| (r.file, r.characters[0])).collect()
}

/// Hears a normal history reply.
fn hear(master: &mut Master, data: &[u8]) {
    assert!(read(master, &reply(0x04, data)).is_ok());
}

#[test]
fn first_request_and_any_after_a_normal_or_nop_reply_have_the_bit() {
    let mut master = fresh();
    assert_eq!(command(&mut master, &poll(3, false)), 0x43);
    hear(&mut master, &[0]);
    assert_eq!(command(&mut master, &poll(31, true)), 0x7F);
    assert!(read(&mut master, &reply(0x44, &[])).is_ok());
    assert_eq!(command(&mut master, &poll(0, true)), 0x60);
}

#[test]
fn otherwise_the_latest_request_is_repeated_whatever_is_wished() {
    let mut master = asking(&poll(3, true));
    for wish in [poll(3, true), poll(3, false), poll(9, true)] {
        assert_eq!(command(&mut master, &wish), 0x23);
        assert_eq!(master.outstanding, Some(poll(3, true)));
    }
    hear(&mut master, &[0]);
    assert_eq!(command(&mut master, &poll(9, false)), 0x49);
    assert_eq!(command(&mut master, &poll(3, true)), 0x09);
}

#[test]
fn rst_is_believed_but_does_not_let_the_bit_be_set() {
    let mut master = asking(&poll(3, true));
    assert_eq!(
        read(&mut master, &reply(0x84, &[])).unwrap().said,
        Said::Rst
    );
    assert_eq!(command(&mut master, &poll(9, true)), 0x23);
    assert!(read(&mut master, &reply(0x84, &[])).is_ok());
    assert_eq!(command(&mut master, &poll(9, true)), 0x23);
    assert!(read(&mut master, &reply(0x44, &[])).is_ok());
    assert_eq!(command(&mut master, &poll(9, true)), 0x69);
}

#[test]
fn refused_reply_does_not_let_the_bit_be_set() {
    let mut master = asking(&poll(3, true));
    for bytes in [vec![], reply(0x04, &[]), reply(0xC4, &[]), reply(0x00, &[])] {
        assert!(read(&mut master, &bytes).is_err());
        assert_eq!(command(&mut master, &poll(3, true)), 0x23);
    }
}

#[test]
fn reply_to_anything_else_does_not_count() {
    let mut master = asking(&poll(3, true));
    build(&mut master, &Request::Table(1), ROOM);
    assert!(read(&mut master, &reply(0x04, &one(1))).is_err());
    assert!(read(&mut master, &reply(0x0A, &[])).is_ok());
    assert_eq!(command(&mut master, &poll(9, true)), 0x23);
    hear(&mut master, &one(1));
    build(&mut master, &Request::Table(1), ROOM);
    assert_eq!(command(&mut master, &poll(9, true)), 0x69);
}

#[test]
fn records_are_kept_in_the_order_received() {
    let mut master = fresh();
    for (file, event) in [(3, 1), (9, 2), (3, 3)] {
        command(&mut master, &poll(file, true));
        hear(&mut master, &one(event));
    }
    let two = [&[2], &one(4)[1..], &one(5)[1..]].concat();
    command(&mut master, &poll(9, true));
    hear(&mut master, &two);
    assert_eq!(kept(&master), [(3, 1), (9, 2), (3, 3), (9, 4), (9, 5)]);
    assert_eq!(master.records[0].characters, one(1)[1..]);
}

#[test]
fn repeat_that_equals_the_last_data_kept_is_not_kept_again() {
    let mut master = asking(&poll(3, true));
    hear(&mut master, &one(1));
    command(&mut master, &poll(3, true));
    command(&mut master, &poll(3, true));
    hear(&mut master, &one(1));
    assert_eq!(kept(&master), [(3, 1)]);
    assert!(master.may_acknowledge);
}

#[test]
fn repeat_with_other_data_file_or_kind_is_kept() {
    let again = [
        (poll(3, true), one(2)),
        (poll(9, true), one(1)),
        (poll(3, false), one(1)),
    ];
    for (wish, data) in again {
        let mut master = asking(&poll(3, true));
        hear(&mut master, &one(1));
        command(&mut master, &wish);
        command(&mut master, &wish);
        hear(&mut master, &data);
        assert_eq!(master.records.len(), 2);
        command(&mut master, &wish);
        command(&mut master, &wish);
        hear(&mut master, &data);
        assert_eq!(master.records.len(), 2);
    }
}

#[test]
fn reply_to_an_acknowledging_request_is_always_kept() {
    let mut master = fresh();
    for _ in 0..3 {
        assert_eq!(command(&mut master, &poll(3, true)), 0x63);
        hear(&mut master, &one(1));
    }
    assert_eq!(kept(&master), [(3, 1); 3]);
}

#[test]
fn flag_is_part_of_the_data_compared() {
    let mut master = asking(&poll(3, false));
    hear(&mut master, &one(1));
    command(&mut master, &poll(3, false));
    command(&mut master, &poll(3, false));
    let mut flagged = one(1);
    flagged[0] |= 0x80;
    hear(&mut master, &flagged);
    assert_eq!(kept(&master), [(3, 1); 2]);
}

#[test]
fn empty_reply_takes_the_place_of_the_last_data_kept() {
    let mut master = asking(&poll(3, true));
    hear(&mut master, &one(1));
    command(&mut master, &poll(3, true));
    hear(&mut master, &[0]);
    assert_eq!(master.last_kept.clone().unwrap().data, [0]);
    command(&mut master, &poll(3, true));
    command(&mut master, &poll(3, true));
    hear(&mut master, &one(1));
    assert_eq!(kept(&master), [(3, 1); 2]);
}

#[test]
fn nop_and_rst_leave_the_last_data_kept() {
    let mut master = asking(&poll(3, true));
    hear(&mut master, &one(1));
    let before = master.clone();
    for function in [0x44, 0x84] {
        command(&mut master, &poll(9, true));
        assert!(read(&mut master, &reply(function, &[])).is_ok());
        assert_eq!(master.last_kept, before.last_kept);
        assert_eq!(master.records, before.records);
    }
}

#[test]
fn doubled_reply_is_not_kept_twice() {
    let mut master = asking(&poll(3, true));
    hear(&mut master, &one(1));
    assert_eq!(
        read(&mut master, &reply(4, &one(1))),
        Err(Refusal::Function)
    );
    assert_eq!(kept(&master), [(3, 1)]);
}
