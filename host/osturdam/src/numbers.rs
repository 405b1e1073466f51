//! Numbers of each kind, so that one cannot be handed over as another: 40h is an accumulator, an output and a calculation.

macro_rules! numbers {
    ($($(#[$doc:meta])* $name:ident;)*) => {$(
        $(#[$doc])*
        #[derive(Clone, Copy, Debug, PartialEq, Eq, PartialOrd, Ord, Hash)]
        pub struct $name(pub u8);
    )*};
}

numbers! {
    /// An input: 00 to 1Fh two-bit status, 30h to 3Fh simple status, 40h to 5Fh pulse accumulators, 80h to FFh analogs.
    ///
    /// An output cannot be handed over as one:
    ///
    /// ```compile_fail
    /// use osturdam::{Config, ControlOutput, Unit};
    /// Unit::fresh(Config::new(1)).pulses(ControlOutput(0x40), 1);
    /// ```
    Input;
    /// A contact: 0 to 255, contact 8g + i at place i of group g, which is the input of that number.
    Contact;
    /// An output that masters select and operate.
    ControlOutput;
    /// A special calculation: 00 to 7Fh.
    SpecialCalculation;
    /// A history file: 0 to 31.
    File;
    /// A master: 0 to 31.
    Master;
    /// The number of a block that masters write and read.
    Ordinal;
}
