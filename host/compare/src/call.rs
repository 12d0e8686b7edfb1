//! One call: how much memory is lent, and all that is handed over with it.
use model::Settings;
use oxterin::{Ledger, Record};

/// Bytes that lie past every lent part; no side may touch them.
pub const GUARD: usize = 16;

/// Bytes by which the usual output buffer is longer than the input.
pub const SPARE: usize = 8;

/// The longest array that a call can lend.
pub const ARRAY_ROOM: usize = 131_072 + GUARD;

/// The longest register that a call can lend.
pub const REGISTER_ROOM: usize = 128 + GUARD;

/// The longest output buffer that a call can lend.
pub const OUTPUT_ROOM: usize = 8_192 + GUARD;

/// The arguments of one call. Memories are given by their lengths: a [`crate::Trial`] lends so much of its own.
#[derive(Clone, Debug, PartialEq, Eq)]
pub struct Call {
    /// How many bytes of the array are lent, at most [`ARRAY_ROOM`].
    pub array: usize,
    /// How many bytes of the register are lent, at most [`REGISTER_ROOM`].
    pub register: usize,
    /// The length of the output buffer, at most [`OUTPUT_ROOM`].
    pub output: usize,
    /// The eight durations.
    pub durations: [u64; 8],
    /// The input bytes.
    pub input: Vec<u8>,
    /// The bits clocked.
    pub bits: u64,
    /// The level of WP.
    pub wp_high: bool,
    /// The ticks elapsed.
    pub elapsed: u64,
    /// The ticks that each byte position of the frame takes.
    pub ticks_per_byte: u64,
    /// The record handed over, if it is not the one that the call before gave back.
    pub record: Option<Record>,
    /// The account that it is for, if it goes through the ledger.
    pub account: Option<u64>,
    /// The ledger handed over, if it is not the one that the calls before left.
    pub ledger: Option<Box<Ledger>>,
    /// Whether a month is closed before it, in that ledger.
    pub close: bool,
}

impl Call {
    /// All bits of these bytes to a part of 131,072 bytes with typical durations, WP high, no time elapsed and none taken.
    #[must_use]
    pub fn of(input: &[u8]) -> Call {
        Call {
            array: 131_072,
            register: 128,
            output: usual_output(input.len()),
            durations: usual_durations(),
            input: input.to_vec(),
            bits: 8 * input.len() as u64,
            wp_high: true,
            elapsed: 0,
            ticks_per_byte: 0,
            record: None,
            account: None,
            ledger: None,
            close: false,
        }
    }

    /// The opcode, if there is a byte for one.
    #[must_use]
    pub fn opcode(&self) -> Option<u8> {
        self.input.first().copied()
    }

    /// The opcode, if all its bits are clocked.
    #[must_use]
    pub fn clocked_opcode(&self) -> Option<u8> {
        self.opcode().filter(|_| self.bits >= 8)
    }

    /// How many byte positions the frame has, a partial last one among them.
    #[must_use]
    pub fn positions(&self) -> u64 {
        self.bits.div_ceil(8)
    }

    /// The ticks for which a part with this record is still busy at the frame's first bit.
    #[must_use]
    pub fn busy_at_first_bit(&self, record: &Record) -> u64 {
        record.busy.saturating_sub(self.elapsed)
    }

    /// The ticks that pass in the call, if it is accepted.
    #[must_use]
    pub fn ticks(&self) -> u128 {
        u128::from(self.elapsed) + u128::from(self.positions()) * u128::from(self.ticks_per_byte)
    }

    /// What comes off the busy ticks of a part with this record, if the call is accepted.
    #[must_use]
    pub fn comes_off(&self, record: &Record) -> u64 {
        u64::try_from(self.ticks()).map_or(record.busy, |ticks| ticks.min(record.busy))
    }
}

/// The durations that a call usually has.
pub(crate) fn usual_durations() -> [u64; 8] {
    Settings::typical().durations
}

/// The length of the output buffer that usually goes with so many input bytes.
pub(crate) fn usual_output(input: usize) -> usize {
    (input + SPARE).min(OUTPUT_ROOM)
}
