//! The outcome numbers of document 01 and what each one sends.

/// The frame was carried out; its normal reply goes out.
pub const DONE: u8 = 0;
/// The stretch cannot be a whole frame, by its length.
pub const LENGTH: u8 = 1;
/// The check word does not agree.
pub const CHECK: u8 = 2;
/// The frame is not for this unit.
pub const OTHER_UNIT: u8 = 3;
/// All units were told, and this one obeyed.
pub const BROADCAST_DONE: u8 = 4;
/// A WRITE now waits for its EXECUTE; it gets no reply.
pub const WRITE_TAKEN: u8 = 5;
/// The unit does not know this function, command or bit.
pub const UNKNOWN: u8 = 6;
/// Not as many data characters as the command wants.
pub const COUNT: u8 = 7;
/// Something named in the frame does not exist here, or is no date.
pub const NOT_VALID: u8 = 8;
/// The answer would not fit a reply.
pub const TOO_LONG: u8 = 9;
/// There is no earlier history reply that agrees.
pub const NO_REPEAT: u8 = 10;
/// The operate came too late for this master's select.
pub const TIMED_OUT: u8 = 11;
/// The master sent something else while its select lived.
pub const BROKEN_OFF: u8 = 12;
/// The select belongs to a different master.
pub const SELECT_HELD: u8 = 13;
/// There is nothing to operate, reset or execute.
pub const NONE_WAITS: u8 = 14;
/// The waiting write belongs to a different master.
pub const WRITE_HELD: u8 = 15;
/// All units were told something that this one does not obey.
pub const BROADCAST_REFUSED: u8 = 16;
/// The configuration or the kept state cannot be worked with.
pub const NO_CONFIG: u8 = 17;
/// The buffer could not take the longest reply.
pub const SHORT_BUFFER: u8 = 18;

/// Which form of reply an outcome sends.
#[derive(Clone, Copy, Debug, PartialEq, Eq)]
pub enum Sent {
    /// No reply at all.
    Nothing,
    /// The function as it came.
    Normal,
    /// The function with 40h added.
    Nop,
    /// The function with 80h added.
    Rst,
}

/// The form of reply that document 01's table gives for an outcome.
pub fn sent(outcome: u8) -> Sent {
    match outcome {
        DONE => Sent::Normal,
        UNKNOWN..=TIMED_OUT => Sent::Nop,
        BROKEN_OFF..=WRITE_HELD => Sent::Rst,
        _ => Sent::Nothing,
    }
}
