//! Why nothing came of a frame, or why it was aborted.

use std::fmt;

/// Why nothing came of an accepted frame, or why it was aborted: where several hold, the first of this list. Later versions may know more.
#[derive(Clone, Copy, Debug, PartialEq, Eq, PartialOrd, Ord, Hash)]
#[repr(u8)]
#[non_exhaustive]
pub enum Cause {
    /// Fewer than 8 bits were clocked: no opcode.
    TooFewBits = 1,
    /// The part is in deep power-down, and the frame is not ABh on a byte boundary.
    Asleep = 2,
    /// An operation was running at the frame's first bit, and the opcode is neither 05h nor F0h.
    Busy = 3,
    /// The part has no such opcode.
    UnknownOpcode = 4,
    /// The command needs WEL, and WEL is 0.
    LatchClear = 5,
    /// F0h with RSTE 0, with another second byte than D0h, or with fewer than 16 bits.
    ResetUnconfirmed = 6,
    /// The command needs a bit count divisible by 8.
    OffBoundary = 7,
    /// The command needs more bytes.
    Incomplete = 8,
    /// A program or an erase of the array while BP0 is 1.
    Protected = 9,
    /// 01h while BPL is 1 and WP is low.
    Locked = 10,
    /// 9Bh, and the one-time-programmable bytes were programmed before.
    AlreadyProgrammed = 11,
    /// ABh, and the part is awake.
    AlreadyAwake = 12,
}

impl Cause {
    /// All causes, in the list's order.
    pub const ALL: [Cause; 12] = [
        Cause::TooFewBits,
        Cause::Asleep,
        Cause::Busy,
        Cause::UnknownOpcode,
        Cause::LatchClear,
        Cause::ResetUnconfirmed,
        Cause::OffBoundary,
        Cause::Incomplete,
        Cause::Protected,
        Cause::Locked,
        Cause::AlreadyProgrammed,
        Cause::AlreadyAwake,
    ];

    /// Its number in the words of an answer.
    #[must_use]
    pub fn number(self) -> u64 {
        self as u64
    }

    /// The cause of a number; none for 0 and for numbers that this version does not know.
    #[must_use]
    pub fn of_number(number: u64) -> Option<Cause> {
        let place = usize::try_from(number).ok()?.checked_sub(1)?;
        Cause::ALL.get(place).copied()
    }

    /// The request's words for it, as `latch clear`.
    #[must_use]
    pub fn words(self) -> &'static str {
        match self {
            Cause::TooFewBits => "too few bits",
            Cause::Asleep => "asleep",
            Cause::Busy => "busy",
            Cause::UnknownOpcode => "unknown opcode",
            Cause::LatchClear => "latch clear",
            Cause::ResetUnconfirmed => "reset not enabled or not confirmed",
            Cause::OffBoundary => "off boundary",
            Cause::Incomplete => "incomplete",
            Cause::Protected => "protected",
            Cause::Locked => "locked",
            Cause::AlreadyProgrammed => "already programmed",
            Cause::AlreadyAwake => "already awake",
        }
    }
}

impl fmt::Display for Cause {
    fn fmt(&self, f: &mut fmt::Formatter<'_>) -> fmt::Result {
        f.write_str(self.words())
    }
}

#[cfg(test)]
mod tests {
    use super::Cause;

    #[test]
    fn a_cause_is_found_by_its_number_which_is_its_place_in_the_list() {
        for (place, cause) in (1..).zip(Cause::ALL) {
            assert_eq!((cause.number(), Cause::of_number(place)), (place, Some(cause)));
        }
        assert_eq!(
            (Cause::of_number(0), Cause::of_number(13), Cause::of_number(u64::MAX)),
            (None, None, None)
        );
    }
}
