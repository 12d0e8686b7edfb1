//! The causes of request R-5: why a frame had no effect.
//!
//! Until an opcode is in, the machine has seen too few bits. Then
//! `decoder::decode` says why an opcode is not heard, and `rise::settle` why a
//! command that was heard is not carried out. Both look in the order of the
//! request's list and stop at the first cause.

/// Why a frame amounted to nothing or was aborted, in the order of the
/// request's list.
#[derive(Clone, Copy, Debug, PartialEq, Eq)]
pub enum Cause {
    /// Chip select rose before an opcode was in.
    TooFewBits,
    /// The part is in deep power-down, and the frame does not wake it.
    Asleep,
    /// An operation was running when chip select fell.
    Busy,
    /// The opcode stands for no command.
    UnknownOpcode,
    /// The command needs the write latch, which is not set.
    LatchClear,
    /// Resets are not enabled, or no second byte confirms this one.
    ResetNotReady,
    /// Chip select rose inside a byte.
    OffBoundary,
    /// The command needs more bytes.
    Incomplete,
    /// The main array is protected from program and erase.
    Protected,
    /// Status byte 1 is locked while the write-protect pin is low.
    Locked,
    /// The one-time programming of the register has been used up.
    AlreadyProgrammed,
    /// A part that is awake was told to wake.
    AlreadyAwake,
}

impl Cause {
    /// All causes, in the order of the request's list.
    pub const ALL: [Cause; 12] = [
        Cause::TooFewBits,
        Cause::Asleep,
        Cause::Busy,
        Cause::UnknownOpcode,
        Cause::LatchClear,
        Cause::ResetNotReady,
        Cause::OffBoundary,
        Cause::Incomplete,
        Cause::Protected,
        Cause::Locked,
        Cause::AlreadyProgrammed,
        Cause::AlreadyAwake,
    ];

    /// The place in the request's list, from 1.
    pub fn number(self) -> u64 {
        self as u64 + 1
    }

    /// The words of the request's list.
    pub fn words(self) -> &'static str {
        match self {
            Cause::TooFewBits => "too few bits",
            Cause::Asleep => "asleep",
            Cause::Busy => "busy",
            Cause::UnknownOpcode => "unknown opcode",
            Cause::LatchClear => "latch clear",
            Cause::ResetNotReady => "reset not enabled or not confirmed",
            Cause::OffBoundary => "off boundary",
            Cause::Incomplete => "incomplete",
            Cause::Protected => "protected",
            Cause::Locked => "locked",
            Cause::AlreadyProgrammed => "already programmed",
            Cause::AlreadyAwake => "already awake",
        }
    }
}
