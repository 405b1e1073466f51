//! A unit and its events.

use crate::memory::{word_at, Memory};
use crate::{
    header, raw, Action, Config, Contact, File, Input, Kept, Ordinal, Outcome, Sampled,
    SpecialCalculation, Stored, Turn, LENT,
};

/// A remote unit: all its memory, in which its configuration lies too.
///
/// ```
/// use osturdam::{Config, File, Outcome, Stored, Unit, REPLY};
///
/// // a file of records with one value, and a trip at 12 ms past midnight of day 1
/// let mut unit = Unit::fresh(Config::new(1234).file(File(0), 1));
/// assert_eq!(unit.elapsed(12), Outcome::Done);
/// assert_eq!(unit.store_record(File(0), 0x07, &[630]), Stored::Stored);
/// assert_eq!(unit.held(File(0)), Some(1));
///
/// // any stretch is judged, and none is answered that is no whole frame
/// let mut buffer = [0; REPLY];
/// let turn = unit.stretch(b"noise", 0, &mut buffer);
/// assert_eq!((turn.outcome, turn.reply), (Outcome::NotWhole, &[][..]));
/// ```
#[derive(Clone, Debug, PartialEq, Eq)]
pub struct Unit {
    memory: Box<Memory>,
}

impl Unit {
    /// A fresh unit: clock on day 1, 00:00:00.000, all areas 0, no records or samples, and room for as many as the configuration asks for.
    pub fn fresh(config: Config) -> Unit {
        // one that asks for more is not valid
        let room = config.room().min(LENT as u64);
        let mut memory = Memory::empty(room as usize);
        raw::fresh(&mut memory, &config);
        Unit { memory }
    }

    /// The unit that was saved. Any characters may be here, and any number of them: one that is not in range, is cut short or was saved by a
    /// library of another layout is told by [`Outcome::NotConfigured`] at each event, and none changes it. Its configuration is the one that
    /// it was saved with ([`Unit::config`]), and its scan plans are made anew of its tables.
    ///
    /// ```
    /// use osturdam::{Outcome, Unit};
    ///
    /// let mut worn = Unit::from_bytes(&[0xFF; 3000]);
    /// assert_eq!(worn.elapsed(1), Outcome::NotConfigured);
    /// ```
    pub fn from_bytes(bytes: &[u8]) -> Unit {
        let mut memory = Memory::from_bytes(bytes);
        let layout = word_at(&memory.unit, header::AT_LAYOUT as usize);
        if u32::from(layout) == header::LAYOUT {
            raw::replan(&mut memory);
        }
        Unit { memory }
    }

    /// The whole unit with its configuration, to be stored before a reply is sent: the same characters on every machine, and always as many
    /// for a configuration.
    pub fn to_bytes(&self) -> Vec<u8> {
        self.memory.to_bytes()
    }

    /// What the unit is equipped with.
    pub fn config(&self) -> Config {
        Config::of_unit(&self.memory.unit)
    }

    /// Clock, select, write, status, latest history reply and port.
    pub fn kept(&self) -> Kept {
        Kept::of_unit(&self.memory.unit)
    }

    /// An input's word.
    pub fn word(&self, input: Input) -> u16 {
        word_at(
            &self.memory.unit,
            header::AT_WORDS as usize + 2 * usize::from(input.0),
        )
    }

    /// A calculation's value, if it is one of the unit's 128.
    pub fn value(&self, calculation: SpecialCalculation) -> Option<u32> {
        let number = u32::from(calculation.0);
        let chars = self.memory.part(header::AT_RESULTS + 4 * number, 4);
        let value = chars.iter().rev().fold(0, |v, c| v << 8 | u32::from(*c));
        (number < header::CALCULATIONS).then_some(value)
    }

    /// The characters of a block that masters write and read, if there is one of this ordinal.
    pub fn block(&self, ordinal: Ordinal) -> Option<&[u8]> {
        let memory = &self.memory;
        match u32::from(ordinal.0) {
            header::ORDINAL_00 => Some(memory.part(header::AT_00, header::LENGTH_00)),
            header::ORDINAL_03 => Some(memory.part(header::AT_03, header::LENGTH_03)),
            header::ORDINAL_0B => Some(memory.part(header::AT_0B, header::LENGTH_0B)),
            header::ORDINAL_06 => memory.block.get(..memory.lent() as usize),
            _ => None,
        }
    }

    /// How many records a file holds, if it is one of the unit's 32.
    pub fn held(&self, file: File) -> Option<u8> {
        let counts = self.memory.part(header::AT_COUNTS, header::FILES);
        counts.get(usize::from(file.0)).copied()
    }

    /// How many records of a file the unit has dropped, if it is one of the unit's 32: to 65,535, where it stays.
    pub fn dropped(&self, file: File) -> Option<u16> {
        (u32::from(file.0) < header::FILES).then(|| raw::dropped(&self.memory, file.0))
    }

    /// The characters of a record that a file holds; record 0 is the oldest.
    pub fn record(&self, file: File, record: u8) -> Option<&[u8]> {
        let config = self.config();
        if config.values(file).is_none() || record >= self.held(file)? {
            return None;
        }
        let (base, length) = config.place(file);
        let start = base + usize::from(record) * length;
        self.memory.records.get(start..start + length)
    }

    /// A stretch of characters between two idle marks was heard. The caller stores the unit, then sends the reply.
    ///
    /// The lag is the milliseconds from the sync point, which is the edge that ends the start bit of the fifth character, to the idle mark
    /// behind the last one; what is handed to [`Unit::elapsed`] goes on from there. A Set Time carries the time of its sync point, and the
    /// clock becomes that and the lag; with one over [`LAG`](crate::LAG) it is refused. No other stretch looks at it.
    pub fn stretch<'a>(&mut self, heard: &[u8], lag: u32, buffer: &'a mut [u8]) -> Turn<'a> {
        let turned = raw::stretch(&mut self.memory, heard, lag, buffer);
        Turn {
            outcome: Outcome::told(turned.outcome),
            action: Action::told(turned.action, turned.output),
            reply: buffer.get(..usize::from(turned.sent)).unwrap_or(&[]),
        }
    }

    /// So many milliseconds have passed.
    pub fn elapsed(&mut self, ms: u32) -> Outcome {
        Outcome::told(raw::elapsed(&mut self.memory, ms))
    }

    /// A word of simple status or an analog is now this; two-bit status comes from its contacts alone.
    pub fn set_word(&mut self, input: Input, word: u16) -> Outcome {
        Outcome::told(raw::set_word(&mut self.memory, input.0, word))
    }

    /// A contact is now closed, or open. Its group's word has the states in its low eight bits, and in its high eight a mark for each
    /// contact that has changed more than once since the last reply that carried the word.
    ///
    /// ```
    /// use osturdam::{Config, Contact, Input, Outcome, Unit};
    /// let mut unit = Unit::fresh(Config::new(1).input(Input(2)));
    /// for closed in [true, false, true] {
    ///     assert_eq!(unit.contact(Contact(8 * 2 + 5), closed), Outcome::Done);
    /// }
    /// assert_eq!(unit.word(Input(2)), 0x2020);
    /// assert_eq!(unit.contact(Contact(8 * 3), true), Outcome::NotValid);
    /// ```
    pub fn contact(&mut self, contact: Contact, closed: bool) -> Outcome {
        Outcome::told(raw::contact(&mut self.memory, contact.0, closed.into()))
    }

    /// Which of an input's eight contacts have changed since the last reply that carried its word, a bit each; 0 for an input that is no
    /// two-bit status.
    pub fn changed(&self, group: Input) -> u8 {
        let place = usize::from(group.0);
        let known = place < header::GROUPS as usize;
        if known {
            self.memory.unit[header::AT_CHANGED as usize + place]
        } else {
            0
        }
    }

    /// So many pulses were counted on an accumulator.
    pub fn pulses(&mut self, input: Input, count: u16) -> Outcome {
        Outcome::told(raw::pulses(&mut self.memory, input.0, count))
    }

    /// A calculation's value is now this pattern of 32 bits: `f32::to_bits` of a number, say. That of a mean comes from its samples alone.
    pub fn set_value(&mut self, calculation: SpecialCalculation, value: u32) -> Outcome {
        Outcome::told(raw::set_value(&mut self.memory, calculation.0, value))
    }

    /// The analog of a mean is sampled: its word as it is now, signed, is in, and where there are more than the mean is over the oldest is
    /// out. Once as many are in, each sample makes their mean the calculation's value; before that a master is told that the calculation
    /// is not equipped. A calculation that is no mean is [`Outcome::NotValid`].
    ///
    /// ```
    /// use osturdam::{Config, Input, Outcome, Sampled, SpecialCalculation, Unit};
    ///
    /// let (load, demand) = (Input(0x80), SpecialCalculation(7));
    /// let config = Config::new(1).input(load).calculation(demand).mean(demand, load, 2);
    /// let mut unit = Unit::fresh(config);
    /// unit.set_word(load, 100);
    /// assert_eq!(unit.sample(demand), Ok(Sampled::NotReady(1)));
    /// unit.set_word(load, -3_i16 as u16);
    /// assert_eq!(unit.sample(demand), Ok(Sampled::Ready(48.5)));
    /// assert_eq!(unit.value(demand), Some(48.5_f32.to_bits()));
    /// assert_eq!(unit.sample(SpecialCalculation(8)), Err(Outcome::NotValid));
    /// ```
    pub fn sample(&mut self, calculation: SpecialCalculation) -> Result<Sampled, Outcome> {
        let (outcome, missing, bits) = raw::sample(&mut self.memory, calculation.0);
        match Outcome::told(outcome) {
            Outcome::Done => Ok(Sampled::told(missing, bits)),
            refused => Err(refused),
        }
    }

    /// The samples of a mean that are in, oldest first.
    pub fn samples(&self, calculation: SpecialCalculation) -> Option<Vec<i16>> {
        let config = self.config();
        let place = config.mean_place(calculation)?;
        let taken = header::AT_TAKEN as usize + 2 * usize::from(place);
        let first = config.samples_place(place);
        let sample = |n| word_at(&self.memory.records, first + 2 * usize::from(n)) as i16;
        Some((0..word_at(&self.memory.unit, taken)).map(sample).collect())
    }

    /// A record of this event and these values is to be stored under the unit's clock.
    pub fn store_record(&mut self, file: File, event: u8, values: &[u16]) -> Stored {
        Stored::told(raw::store_record(&mut self.memory, file.0, event, values))
    }
}

#[cfg(test)]
mod tests {
    use super::*;
    use crate::ControlOutput;

    #[test]
    fn numbers_that_no_unit_writes_have_no_view_and_are_refused() {
        let fresh = Unit::fresh(Config::new(1).output(ControlOutput(9)));
        assert!(fresh.kept().view().is_some());
        for (which, number) in [
            (header::SELECT, 3),
            (header::SELECT_CLOSE, 2),
            (header::SELECT_MASTER, 1),
            (header::WRITE, 2),
            (header::WRITE_BIAS, 1),
            (header::WRITE_ORDINAL, 256),
            (header::STATUS_CONFIGURE, 2),
            (header::STATUS_ERROR, 9),
            (header::STATUS_BROADCAST, 256),
            (header::MEMORY, 2),
            (header::MEMORY_MASTER, 1),
            (header::MARK, 3),
        ] {
            let mut worn = fresh.clone();
            let place = (header::AT_NUMBERS + 2 * which) as usize;
            worn.memory.unit[place..place + 2].copy_from_slice(&u16::to_le_bytes(number));
            let before = worn.clone();
            assert_eq!(worn.kept().view(), None, "number {which}");
            assert_eq!(worn.elapsed(0), Outcome::NotConfigured, "number {which}");
            assert_eq!(worn, before);
            assert_eq!(Unit::from_bytes(&worn.to_bytes()), worn);
        }
    }

    #[test]
    fn plans_of_a_saved_unit_are_made_anew() {
        let fresh = Unit::fresh(Config::new(1));
        let mut worn = fresh.to_bytes();
        worn[header::AT_PLANS as usize..header::UNIT as usize].fill(9);
        assert_eq!(Unit::from_bytes(&worn), fresh);
    }

    #[test]
    fn memory_of_another_layout_is_refused() {
        let fresh = Unit::fresh(Config::new(1));
        let place = header::AT_LAYOUT as usize;
        let own = word_at(&fresh.memory.unit, place);
        assert_eq!(u32::from(own), header::LAYOUT);
        for other in [0, own + 1, own + 256, u16::MAX] {
            let mut worn = fresh.clone();
            worn.memory.unit[place..place + 2].copy_from_slice(&other.to_le_bytes());
            let before = worn.clone();
            assert_eq!(worn.elapsed(1), Outcome::NotConfigured, "layout {other}");
            assert_eq!(worn, before);
        }
    }
}
