//! What to do about each cause for which a frame comes to nothing or is aborted.
use oxterin::Cause;

/// A remedy for each cause, in the list's order.
const REMEDIES: [(Cause, &str); Cause::ALL.len()] = [
    (Cause::TooFewBits, "clock all 8 bits of the opcode before chip select rises"),
    (
        Cause::Asleep,
        "wake the part by ABh, a frame of its own and of all 8 bits; then send the frame again",
    ),
    (
        Cause::Busy,
        "poll by 05h until bit 0 is 0, then send the frame again; if RSTE is 1, F0h D0h ends the operation early",
    ),
    (
        Cause::UnknownOpcode,
        "use an opcode of the data sheet's table 2; of these 3Bh, the dual-output read, is not simulated",
    ),
    (
        Cause::LatchClear,
        "send 06h before each program, erase or status write; the latch drops after every one",
    ),
    (
        Cause::ResetUnconfirmed,
        "enable resets by 06h and then 31h 10h, which sets RSTE; a reset is F0h D0h",
    ),
    (
        Cause::OffBoundary,
        "clock whole bytes: chip select has to rise after a multiple of 8 bits",
    ),
    (
        Cause::Incomplete,
        "02h and 9Bh need 3 address bytes and at least 1 data byte; 81h, 20h, 52h and D8h 3 address bytes; 01h and 31h 1 data byte",
    ),
    (
        Cause::Protected,
        "clear BP0 by 06h and then 01h 00h, and wait until idle; if BPL is 1, do so twice with WP high: the first only clears BPL",
    ),
    (
        Cause::Locked,
        "raise WP before 01h: while BPL is 1 and WP is low, the status byte cannot be written",
    ),
    (
        Cause::AlreadyProgrammed,
        "9Bh programs once in a part's life; to try it again, begin with a fresh part",
    ),
    (
        Cause::AlreadyAwake,
        "nothing to do: ABh wakes a part from deep power-down, and this one was awake",
    ),
];

/// What to do after an abort, whatever its cause.
pub const AFTER_AN_ABORT: &str = "the frame also dropped the latch; send 06h again before the next try";

/// What to do about a cause, in words for the author of the firmware.
pub fn remedy(cause: Cause) -> &'static str {
    REMEDIES[cause.number() as usize - 1].1
}

#[cfg(test)]
mod tests {
    use super::*;

    #[test]
    fn the_table_has_each_cause_in_its_place() {
        assert_eq!(REMEDIES.map(|(cause, _)| cause), Cause::ALL);
        for (cause, words) in REMEDIES {
            assert_eq!(remedy(cause), words);
            assert!(format!("{cause}: {words}").len() <= 140, "{cause}");
        }
    }
}
