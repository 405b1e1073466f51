//! The clock: moving it, setting it and showing it.

use crate::outcome;
use crate::state::State;

const MS_PER_DAY: u64 = 86_400_000;
/// Day 366 is always followed by day 1.
const DAYS: u64 = 366;
/// The most milliseconds from the sync point to the idle mark with which a time is taken.
pub const LONGEST_LAG: u32 = 10_000;

/// The time of the unit.
#[derive(Clone, Copy, Debug, PartialEq, Eq)]
pub struct Clock {
    /// 1 to 366.
    pub day: u16,
    /// 0 to 23.
    pub hour: u8,
    /// 0 to 59.
    pub minute: u8,
    /// 0 to 59.
    pub second: u8,
    /// 0 to 999.
    pub ms: u16,
}

impl Clock {
    /// The time of a fresh unit.
    pub const START: Clock = Clock {
        day: 1,
        hour: 0,
        minute: 0,
        second: 0,
        ms: 0,
    };

    /// Whether every field is one a clock can show.
    pub fn in_range(&self) -> bool {
        (1..=366).contains(&self.day)
            && self.hour < 24
            && self.minute < 60
            && self.second < 60
            && self.ms < 1000
    }

    /// The clock after some milliseconds more.
    pub fn after(self, ms: u32) -> Clock {
        let hours = (u64::from(self.day) - 1) * 24 + u64::from(self.hour);
        let seconds = (hours * 60 + u64::from(self.minute)) * 60 + u64::from(self.second);
        let total = seconds * 1000 + u64::from(self.ms) + u64::from(ms);
        Clock {
            day: (total / MS_PER_DAY % DAYS) as u16 + 1,
            hour: (total / 3_600_000 % 24) as u8,
            minute: (total / 60_000 % 60) as u8,
            second: (total / 1000 % 60) as u8,
            ms: (total % 1000) as u16,
        }
    }

    /// The time as a record shows it, in five characters; the milliseconds are dropped.
    pub fn stamp(&self) -> [u8; 5] {
        [
            (self.day / 100) as u8,
            to_bcd((self.day % 100) as u8),
            to_bcd(self.hour),
            to_bcd(self.minute),
            to_bcd(self.second),
        ]
    }

    /// The seven characters of the time messages; milliseconds high character first.
    pub fn characters(&self) -> [u8; 7] {
        let [hundreds, rest, hour, minute, second] = self.stamp();
        let [high, low] = self.ms.to_be_bytes();
        [hundreds, rest, hour, minute, second, high, low]
    }

    /// The time that the seven characters give; None if it is no valid time.
    pub fn from_characters(characters: [u8; 7]) -> Option<Clock> {
        let [hundreds, rest, hour, minute, second, high, low] = characters;
        let clock = Clock {
            day: u16::from(from_bcd(hundreds)?) * 100 + u16::from(from_bcd(rest)?),
            hour: from_bcd(hour)?,
            minute: from_bcd(minute)?,
            second: from_bcd(second)?,
            ms: u16::from_be_bytes([high, low]),
        };
        // Set top bits make the hundreds or the milliseconds too large, so the range covers them.
        clock.in_range().then_some(clock)
    }
}

/// The two decimal digits of a number under 100, one in each half.
fn to_bcd(number: u8) -> u8 {
    (number / 10) * 16 + number % 10
}

/// The number that two decimal digits give; None for other digits.
fn from_bcd(character: u8) -> Option<u8> {
    let (tens, units) = (character >> 4, character & 0x0F);
    (tens < 10 && units < 10).then_some(tens * 10 + units)
}

/// Function 20h command 38h: takes the time sent plus the lag since then, or gives 7 or 8.
pub fn set(state: &mut State, data: &[u8], lag: u32) -> u8 {
    let Ok(characters) = <[u8; 7]>::try_from(data) else {
        return outcome::COUNT;
    };
    match Clock::from_characters(characters) {
        Some(sent) if lag <= LONGEST_LAG => {
            state.clock = sent.after(lag);
            outcome::DONE
        }
        _ => outcome::NOT_VALID,
    }
}
