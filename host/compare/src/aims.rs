//! What a call is aimed at: one function of the unit, reached through its entry.

/// The unit's functions.
#[derive(Clone, Copy, PartialEq, Eq)]
pub enum Aim {
    Inputs,
    Tables,
    AllValues,
    AskedValues,
    Control,
    Initialise,
    ResetCount,
    Write,
    Execute,
    Both,
    SetTime,
    Read,
    ReadTime,
    History,
    Elapsed,
    SetWord,
    Contact,
    SetValue,
    Sample,
    Pulses,
    Store,
}

/// Each function with its name and the outcomes that a call of it can have, besides those of every stretch.
pub const AIMS: [(Aim, &str, &[u8]); 21] = [
    (Aim::Inputs, "00", &[0, 6, 7, 12]),
    (Aim::Tables, "0A", &[0, 6, 7, 8, 9, 12]),
    (Aim::AllValues, "03/80", &[0, 6, 7, 9, 12]),
    (Aim::AskedValues, "03/00", &[0, 6, 7, 8, 9, 12]),
    (Aim::Control, "10", &[0, 6, 7, 8, 11, 12, 13, 14]),
    (Aim::Initialise, "20/00", &[0, 6, 7, 12]),
    (Aim::ResetCount, "20/11", &[0, 4, 6, 7, 8, 12]),
    (Aim::Write, "20/30", &[5, 6, 7, 12, 15]),
    (Aim::Execute, "20/31", &[0, 6, 7, 8, 12, 14, 15]),
    (Aim::Both, "20/30/31", &[0, 5, 7, 8, 12, 15]),
    (Aim::SetTime, "20/38", &[0, 4, 6, 7, 8, 12]),
    (Aim::Read, "28/30", &[0, 6, 7, 8, 12]),
    (Aim::ReadTime, "28/31", &[0, 6, 7, 12]),
    (Aim::History, "04", &[0, 6, 7, 8, 10, 12]),
    (Aim::Elapsed, "elapsed", &[0, 17]),
    (Aim::SetWord, "word", &[0, 8, 17]),
    (Aim::Contact, "contact", &[0, 8, 17]),
    (Aim::SetValue, "value", &[0, 8, 17]),
    (Aim::Sample, "sample", &[0, 8, 17]),
    (Aim::Pulses, "pulses", &[0, 8, 17]),
    (Aim::Store, "store", &[0, 1, 2, 3, 17]),
];

/// The outcomes that every function reached by a stretch can have.
pub const OF_STRETCHES: [u8; 6] = [1, 2, 3, 16, 17, 18];

impl Aim {
    /// Whether it is reached by a stretch.
    pub fn by_stretch(self) -> bool {
        !matches!(
            self,
            Aim::Elapsed
                | Aim::SetWord
                | Aim::Contact
                | Aim::SetValue
                | Aim::Sample
                | Aim::Pulses
                | Aim::Store
        )
    }
}
