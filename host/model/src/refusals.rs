//! The checks that turn a call away before chip select falls.

use crate::record::{Mode, Record, Settings};
use crate::view::{is_array_length, is_register_length};
use crate::Pins;

/// The number that stands for an accepted call.
pub(crate) const NONE: u8 = 0;

/// Longest input of one frame, in bytes.
const INPUT_LIMIT: usize = 8_192;

/// Longest time the part may still be busy, and longest duration, in ticks.
const TICK_LIMIT: u64 = 60_000_000;

/// Longest time a byte position may take, in ticks.
const POSITION_TICK_LIMIT: u64 = 1_000;

/// Lengths of everything the caller lends.
pub(crate) struct Lengths {
    /// Bytes of the main array.
    pub(crate) array: usize,
    /// Bytes of the security register.
    pub(crate) register: usize,
    /// Bytes of the input.
    pub(crate) input: usize,
    /// Bytes of the output buffer.
    pub(crate) output: usize,
}

impl Lengths {
    /// The lengths of what is lent in a call.
    pub(crate) fn of(array: &[u8], register: &[u8], input: &[u8], output: &[u8]) -> Lengths {
        Lengths {
            array: array.len(),
            register: register.len(),
            input: input.len(),
            output: output.len(),
        }
    }
}

/// The number of the first check that fails, in document 01's numbering, which
/// request R-2 continues.
pub(crate) fn judge(lengths: &Lengths, record: &Record, settings: &Settings, pins: &Pins) -> u8 {
    let faults = [
        (1, !is_array_length(lengths.array)),
        (2, !is_register_length(lengths.register)),
        (3, lengths.input > INPUT_LIMIT),
        (4, !carries(lengths.input, pins.bits)),
        (5, lengths.output < lengths.input),
        (6, !is_sound(record)),
        (7, !settings.durations.iter().all(is_duration)),
        (8, pins.ticks_per_byte > POSITION_TICK_LIMIT),
    ];
    faults.into_iter().find(|&(_, given)| given).map_or(NONE, |(number, _)| number)
}

/// Whether that many bits fill just that many bytes, the last perhaps partly.
fn carries(bytes: usize, bits: u64) -> bool {
    bits.div_ceil(8) == bytes as u64
}

/// Whether a part can be in this state: a sleeping part has nothing to finish.
fn is_sound(record: &Record) -> bool {
    match record.mode {
        Mode::Awake => record.busy <= TICK_LIMIT,
        Mode::Deep | Mode::UltraDeep => record.busy == 0,
    }
}

/// Whether an operation may take that long.
fn is_duration(ticks: &u64) -> bool {
    (1..=TICK_LIMIT).contains(ticks)
}
