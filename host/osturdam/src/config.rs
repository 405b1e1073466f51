//! What a unit is equipped with.

use crate::memory::{word_at, CONFIG};
use crate::{header, raw, ControlOutput, File, Input, SpecialCalculation, MEANS, ROOM};

/// An address that no unit has: with it every configuration is refused.
const NO_UNIT: u16 = 0x7FF;

/// A unit's address and equipment. Anything may be asked for; a unit that cannot be is told by [`Config::valid`], and by
/// [`Outcome::NotConfigured`](crate::Outcome::NotConfigured) at each of its events.
///
/// ```
/// use osturdam::{Config, Input, Outcome, Unit};
///
/// // no unit has input 20h
/// let config = Config::new(1).input(Input(0x20));
/// assert!(!config.valid());
/// assert_eq!(Unit::fresh(config).elapsed(1), Outcome::NotConfigured);
/// ```
#[derive(Clone, Debug, PartialEq, Eq)]
pub struct Config {
    chars: [u8; CONFIG],
}

/// A place of a unit's memory as one of its configuration's.
fn inside(place: u32) -> usize {
    (place - header::AT_NUMBER) as usize
}

impl Config {
    /// How many characters of a saved unit hold its configuration.
    pub const BYTES: usize = CONFIG;

    /// A unit with nothing equipped and no parameter block. Units are 0 to 7FEh.
    pub fn new(unit: u16) -> Config {
        let mut made = Config { chars: [0; CONFIG] };
        made.put_word(header::AT_NUMBER, unit);
        made
    }

    /// With this input.
    #[must_use]
    pub fn input(self, input: Input) -> Config {
        self.with(header::AT_INPUTS, input.0, 1)
    }

    /// With this control output.
    #[must_use]
    pub fn output(self, output: ControlOutput) -> Config {
        self.with(header::AT_OUTPUTS, output.0, 1)
    }

    /// With this calculation.
    #[must_use]
    pub fn calculation(self, calculation: SpecialCalculation) -> Config {
        self.with(header::AT_CALCULATIONS, calculation.0, 1)
    }

    /// With this history file, whose records have so many values: 1 to [`VALUES`](crate::VALUES). It keeps the oldest, unless
    /// [`Config::newest`] says otherwise.
    #[must_use]
    pub fn file(mut self, file: File, values: u8) -> Config {
        if u32::from(file.0) < header::FILES {
            return self
                .with(header::AT_FILES, file.0, 1)
                .with(header::AT_VALUES, file.0, values)
                .with(header::AT_OLDEST, file.0, 1);
        }
        // the tables end there, so the refusal is asked for by the address
        self.put_word(header::AT_NUMBER, NO_UNIT);
        self
    }

    /// With this file keeping the newest: full, it drops its oldest record that is not in the latest history reply, and takes a new one.
    ///
    /// ```
    /// use osturdam::{Config, File, Stored, Unit, ROOM};
    ///
    /// let mut unit = Unit::fresh(Config::new(1).file(File(0), 1).newest(File(0)));
    /// for value in 0..=ROOM as u16 {
    ///     assert_eq!(unit.store_record(File(0), 7, &[value]), Stored::Stored);
    /// }
    /// assert_eq!((unit.held(File(0)), unit.dropped(File(0))), (Some(32), Some(1)));
    /// ```
    #[must_use]
    pub fn newest(self, file: File) -> Config {
        if u32::from(file.0) < header::FILES {
            return self.with(header::AT_OLDEST, file.0, 0);
        }
        self
    }

    /// With a calculation that is the mean of the last samples of an analog: 1, 2, 4 up to [`SAMPLES`](crate::SAMPLES) of them. Both
    /// numbers are equipped besides; each calculation is one mean at most, and there are [`MEANS`](crate::MEANS) of them at most.
    ///
    /// ```
    /// use osturdam::{Config, Input, SpecialCalculation};
    ///
    /// let equipped = Config::new(1).input(Input(0x80)).calculation(SpecialCalculation(7));
    /// assert!(equipped.clone().mean(SpecialCalculation(7), Input(0x80), 16).valid());
    /// assert!(!equipped.clone().mean(SpecialCalculation(7), Input(0x80), 15).valid());
    /// assert!(!equipped.mean(SpecialCalculation(7), Input(0x81), 16).valid());
    /// ```
    #[must_use]
    pub fn mean(mut self, calculation: SpecialCalculation, analog: Input, samples: u16) -> Config {
        let free = (0..MEANS as u8).find(|&place| self.window(place) == 0);
        let Some(place) = free.filter(|_| samples > 0) else {
            // no place says so, so the refusal is asked for by the address
            self.put_word(header::AT_NUMBER, NO_UNIT);
            return self;
        };
        self.put_word(header::AT_WINDOWS + 2 * u32::from(place), samples);
        self.with(header::AT_MEANS, place, calculation.0)
            .with(header::AT_SAMPLED, place, analog.0)
    }

    /// With a parameter block of so many characters: 0 to [`BLOCK`](crate::BLOCK).
    #[must_use]
    pub fn block(mut self, length: usize) -> Config {
        match u16::try_from(length) {
            Ok(word) => self.put_word(header::AT_LENGTH, word),
            // no word says so many, so the refusal is asked for by the address
            Err(_) => self.put_word(header::AT_NUMBER, NO_UNIT),
        }
        self
    }

    /// Whether a unit can have it.
    pub fn valid(&self) -> bool {
        raw::valid(self)
    }

    /// How many characters of records and samples a unit of it has: [`LENT`](crate::LENT) at most, if it is valid.
    ///
    /// ```
    /// use osturdam::{Config, File, ROOM};
    ///
    /// // records of 8 and of 38 characters; what is not equipped takes nothing
    /// let config = Config::new(1).file(File(3), 1).file(File(30), 16);
    /// assert_eq!(config.room(), (ROOM * (8 + 38)) as u64);
    /// ```
    pub fn room(&self) -> u64 {
        raw::room(self)
    }

    /// Where the records of a file start among those characters, and how long each is; 0 of a file that is not equipped.
    pub(crate) fn place(&self, file: File) -> (usize, usize) {
        let size = |file| {
            let values = self.values(File(file));
            values.map_or(0, |v| header::RECORD_HEAD as usize + 2 * usize::from(v))
        };
        (ROOM * (0..file.0).map(size).sum::<usize>(), size(file.0))
    }

    /// The place of a calculation that is a mean.
    pub(crate) fn mean_place(&self, calculation: SpecialCalculation) -> Option<u8> {
        (0..MEANS as u8).find(|&place| {
            self.window(place) != 0 && self.at(header::AT_MEANS, place) == calculation.0
        })
    }

    /// Where the samples of a place start behind the records.
    pub(crate) fn samples_place(&self, place: u8) -> usize {
        let before: usize = (0..place).map(|p| 2 * usize::from(self.window(p))).sum();
        self.place(File(header::FILES as u8)).0 + before
    }

    fn window(&self, place: u8) -> u16 {
        word_at(
            &self.chars,
            inside(header::AT_WINDOWS) + 2 * usize::from(place),
        )
    }

    /// The unit's address.
    pub fn unit(&self) -> u16 {
        word_at(&self.chars, inside(header::AT_NUMBER))
    }

    /// Whether an input is equipped.
    pub fn has_input(&self, input: Input) -> bool {
        self.at(header::AT_INPUTS, input.0) != 0
    }

    /// Whether a control output is equipped.
    pub fn has_output(&self, output: ControlOutput) -> bool {
        self.at(header::AT_OUTPUTS, output.0) != 0
    }

    /// Whether a calculation is equipped.
    pub fn has_calculation(&self, calculation: SpecialCalculation) -> bool {
        self.at(header::AT_CALCULATIONS, calculation.0) != 0
    }

    /// How many values the records of a history file have, if it is equipped.
    pub fn values(&self, file: File) -> Option<u8> {
        let equipped = u32::from(file.0) < header::FILES && self.at(header::AT_FILES, file.0) != 0;
        equipped.then(|| self.at(header::AT_VALUES, file.0))
    }

    /// Whether a file keeps the oldest, and refuses a record when it is full.
    pub fn keeps_oldest(&self, file: File) -> bool {
        u32::from(file.0) < header::FILES && self.at(header::AT_OLDEST, file.0) != 0
    }

    /// The analog of a calculation that is a mean, and over how many samples it is.
    pub fn mean_of(&self, calculation: SpecialCalculation) -> Option<(Input, u16)> {
        let place = self.mean_place(calculation)?;
        Some((
            Input(self.at(header::AT_SAMPLED, place)),
            self.window(place),
        ))
    }

    /// How long the parameter block is.
    pub fn block_length(&self) -> u16 {
        word_at(&self.chars, inside(header::AT_LENGTH))
    }

    pub(crate) fn chars(&self) -> &[u8; CONFIG] {
        &self.chars
    }

    /// The configuration that lies in a unit's memory.
    pub(crate) fn of_unit(unit: &[u8]) -> Config {
        let mut chars = [0; CONFIG];
        let own = unit.iter().skip(header::AT_NUMBER as usize);
        for (place, char) in chars.iter_mut().zip(own) {
            *place = *char;
        }
        Config { chars }
    }

    fn at(&self, table: u32, number: u8) -> u8 {
        let place = inside(table) + usize::from(number);
        self.chars.get(place).copied().unwrap_or(0)
    }

    fn with(mut self, table: u32, number: u8, char: u8) -> Config {
        if let Some(place) = self.chars.get_mut(inside(table) + usize::from(number)) {
            *place = char;
        }
        self
    }

    fn put_word(&mut self, place: u32, word: u16) {
        let characters = self.chars.iter_mut().skip(inside(place));
        for (place, char) in characters.zip(word.to_le_bytes()) {
            *place = char;
        }
    }
}
