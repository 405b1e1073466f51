//! The clock (readings 63 to 69).

use crate::rig::*;
use independent::Clock;

/// Asks for the time.
fn time(rig: &mut Rig) -> Vec<u8> {
    rig.send(1, 0x28, 0x31, &[]).data().to_vec()
}

#[test]
fn hours_minutes_and_seconds_have_their_usual_ranges() {
    let mut rig = Rig::full();
    assert_eq!(
        rig.ask(1, 0x20, 0x38, &[3, 0x66, 0x23, 0x59, 0x59, 3, 0xE7]),
        0
    );
    for (place, character) in [(2, 0x24), (3, 0x60), (4, 0x60), (2, 0x30), (3, 0x99)] {
        let mut data = [0, 1, 0, 0, 0, 0, 0];
        data[place] = character;
        rig.refused(8, 1, 0x20, 0x38, &data);
    }
}

#[test]
fn other_digits_and_set_top_bits_are_refused() {
    let mut rig = Rig::full();
    let wrong = [
        (0, 0x0A),
        (0, 0x10),
        (0, 0x80),
        (0, 0x40),
        (1, 0x1A),
        (1, 0xA1),
        (2, 0x0A),
        (3, 0x0F),
        (4, 0xF0),
        (5, 0x10),
        (5, 0x80),
        (5, 0x04),
        (5, 0xF0),
    ];
    for (place, character) in wrong {
        let mut data = [0, 1, 0, 0, 0, 0, 0];
        data[place] = character;
        rig.refused(8, 1, 0x20, 0x38, &data);
    }
    rig.refused(8, 1, 0x20, 0x38, &[0, 1, 0, 0, 0, 3, 0xE8]);
    rig.refused(8, 1, 0x20, 0x38, &[0, 0, 0, 0, 0, 0, 0]);
    assert_eq!(rig.ask(1, 0x20, 0x38, &[0, 1, 0, 0, 0, 3, 0xE7]), 0);
}

#[test]
fn set_time_replies_without_data_and_read_gives_the_very_time() {
    let mut rig = Rig::full();
    let sent = [2, 0x34, 0x15, 0x07, 0x59, 0x02, 0xFF];
    let got = rig.send(1, 0x20, 0x38, &sent);
    assert_eq!((got.outcome, got.data()), (0, &[][..]));
    assert_eq!(
        rig.state.clock,
        Clock {
            day: 234,
            hour: 15,
            minute: 7,
            second: 59,
            ms: 767
        }
    );
    assert_eq!(time(&mut rig), sent);
}

#[test]
fn every_valid_day_is_shown_as_it_was_set() {
    let mut rig = Rig::full();
    for day in 0..=399u16 {
        let (hundreds, tens, units) = (day / 100, day / 10 % 10, day % 10);
        let data = [
            hundreds as u8,
            (tens << 4 | units) as u8,
            0x12,
            0x34,
            0x56,
            0x01,
            0x23,
        ];
        let expected = if (1..=366).contains(&day) { 0 } else { 8 };
        assert_eq!(rig.ask(1, 0x20, 0x38, &data), expected);
        if expected == 0 {
            assert_eq!((rig.state.clock.day, time(&mut rig)), (day, data.to_vec()));
        }
    }
}

#[test]
fn day_366_is_followed_by_day_1_with_all_carries() {
    let mut rig = Rig::full();
    rig.ask(1, 0x20, 0x38, &[3, 0x66, 0x23, 0x59, 0x59, 3, 0xE7]);
    rig.wait(1);
    assert_eq!(rig.state.clock, Clock::START);
    rig.ask(1, 0x20, 0x38, &[3, 0x65, 0x23, 0x59, 0x59, 3, 0xE7]);
    rig.wait(1);
    assert_eq!(time(&mut rig), [3, 0x66, 0, 0, 0, 0, 0]);
}

#[test]
fn longest_elapsed_time_is_counted_whole() {
    let mut rig = Rig::full();
    rig.wait(u32::MAX);
    // 4,294,967,295 ms are 49 days, 17:02:47.295.
    let expected = Clock {
        day: 50,
        hour: 17,
        minute: 2,
        second: 47,
        ms: 295,
    };
    assert_eq!(rig.state.clock, expected);
    for _ in 0..7 {
        rig.wait(u32::MAX);
    }
    // Eight of them pass the year end once: 397 days, 16:22:18.360.
    let expected = Clock {
        day: 32,
        hour: 16,
        minute: 22,
        second: 18,
        ms: 360,
    };
    assert_eq!(rig.state.clock, expected);
}

#[test]
fn many_small_steps_equal_one_large() {
    let (mut small, mut large) = (Rig::full(), Rig::full());
    for _ in 0..1_000 {
        small.wait(86_399_999 / 50);
    }
    large.wait(86_399_999 / 50 * 1_000);
    assert_eq!(small.state, large.state);
}

#[test]
fn no_time_passes_without_an_elapsed_event() {
    let mut rig = Rig::full();
    for _ in 0..5 {
        rig.ask(1, 0x00, 0x4D, &[]);
        rig.wait(0);
    }
    assert_eq!(rig.state.clock, Clock::START);
}

#[test]
fn broadcast_sets_the_time_too() {
    let mut rig = Rig::full();
    assert_eq!(rig.broadcast(9, 0x20, 0x38, &[1, 0, 0, 0, 0, 0, 0]), 4);
    assert_eq!(time(&mut rig), [1, 0, 0, 0, 0, 0, 0]);
}

#[test]
fn set_time_moves_no_ages() {
    let mut rig = Rig::full();
    rig.ask(1, 0x10, 0x10, &[7]);
    rig.ask(2, 0x20, 0x30, &[0, 0, 6]);
    rig.wait(4_000);
    rig.broadcast(3, 0x20, 0x38, &[2, 0, 0, 0, 0, 0, 0]);
    let ages = (
        rig.state.select.map(|s| s.age),
        rig.state.write.map(|w| w.age),
    );
    assert_eq!(ages, (Some(4_000), Some(4_000)));
}
