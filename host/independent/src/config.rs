//! The configuration, and the three kinds of numbers that must not be mixed.

use crate::means::Mean;
use crate::{history, means};

/// An input number: status, pulse accumulator or analog.
#[derive(Clone, Copy, Debug, PartialEq, Eq)]
pub struct Input(pub u8);

/// An output number.
#[derive(Clone, Copy, Debug, PartialEq, Eq)]
pub struct Output(pub u8);

/// A calculation number.
#[derive(Clone, Copy, Debug, PartialEq, Eq)]
pub struct Calculation(pub u8);

/// The four kinds of inputs.
#[derive(Clone, Copy, Debug, PartialEq, Eq)]
pub enum InputKind {
    /// 00 to 1Fh.
    TwoBit,
    /// 30h to 3Fh.
    Simple,
    /// 40h to 5Fh.
    Pulse,
    /// 80h to FFh.
    Analog,
}

impl Input {
    /// The kind of this input number; None for a number that no input may have.
    pub fn kind(self) -> Option<InputKind> {
        match self.0 {
            0x00..=0x1F => Some(InputKind::TwoBit),
            0x30..=0x3F => Some(InputKind::Simple),
            0x40..=0x5F => Some(InputKind::Pulse),
            0x80..=0xFF => Some(InputKind::Analog),
            0x20..=0x2F | 0x60..=0x7F => None,
        }
    }
}

/// What a unit is equipped with; it stands for the whole run.
#[derive(Clone, Debug, PartialEq, Eq)]
pub struct Config {
    /// The address of the unit, valid to 7FEh.
    pub unit: u16,
    /// Which input numbers are equipped.
    pub inputs: [bool; 256],
    /// Which output numbers are equipped.
    pub outputs: [bool; 256],
    /// Which calculation numbers are equipped, valid to 7Fh.
    pub calculations: [bool; 256],
    /// The calculations that are demand means, valid to 16.
    pub means: Vec<Mean>,
    /// The number of values in a record of each file; None is not equipped.
    pub files: [Option<u8>; 32],
    /// Which files keep the oldest when full, while others drop it; an absent one may be marked.
    pub oldest: [bool; 32],
    /// The length of the parameter block, valid to 512.
    pub parameter_length: usize,
}

impl Config {
    /// The highest address of a unit.
    pub const LAST_UNIT: u16 = 0x7FE;
    /// The longest parameter block.
    pub const LONGEST_PARAMETERS: usize = 512;

    /// A unit with nothing equipped and no parameter block; all files are marked, as of old.
    pub fn new(unit: u16) -> Self {
        Config {
            unit,
            inputs: [false; 256],
            outputs: [false; 256],
            calculations: [false; 256],
            means: Vec::new(),
            files: [None; 32],
            oldest: [true; 32],
            parameter_length: 0,
        }
    }

    /// Whether a unit may have this configuration (document 01, below the outcome table; its
    /// means by document 02, request 4).
    pub fn valid(&self) -> bool {
        self.unit <= Self::LAST_UNIT
            && !self.inputs[0x20..=0x2F].contains(&true)
            && !self.inputs[0x60..=0x7F].contains(&true)
            && !self.calculations[0x80..].contains(&true)
            && self
                .files
                .iter()
                .flatten()
                .all(|&v| (1..=history::MOST_VALUES).contains(&v))
            && self.parameter_length <= Self::LONGEST_PARAMETERS
            && means::valid(self)
    }

    /// Whether the input is equipped.
    pub fn has_input(&self, number: Input) -> bool {
        self.inputs[usize::from(number.0)]
    }

    /// Whether the input is equipped and a pulse accumulator.
    pub fn has_accumulator(&self, number: Input) -> bool {
        self.has_input(number) && number.kind() == Some(InputKind::Pulse)
    }

    /// Whether the output is equipped.
    pub fn has_output(&self, number: Output) -> bool {
        self.outputs[usize::from(number.0)]
    }

    /// Whether the calculation is equipped.
    pub fn has_calculation(&self, number: Calculation) -> bool {
        self.calculations[usize::from(number.0)]
    }

    /// The number of values in a record of the file; None if not equipped or no file number.
    pub fn file_values(&self, file: u8) -> Option<u8> {
        self.files.get(usize::from(file)).copied().flatten()
    }
}
