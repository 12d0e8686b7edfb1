//! A clocked reference model of the SPI flash part that document 01 describes,
//! with the time inside a frame that request R-2 gives it.
//!
//! One call of [`frame`] is one chip-select frame. Chip select falls, the bits
//! pass through the shift registers of `machine::Machine` one at a time, the
//! busy ticks run down as the byte positions go by, and at the rise of chip
//! select `rise::settle` turns what was gathered into changes of the record
//! and of the two memories. A frame without effect gets its [`Cause`], as
//! request R-5 wants it.
//!
//! Above the frames, [`Books`] bill busy time to accounts, as request R-4 wants
//! it.
//!
//! Apart from the frames, [`hex_write`] and [`hex_read`] turn an array into
//! Intel HEX text and such a text into an array.

#![forbid(unsafe_code)]

mod cause;
mod decoder;
mod hex;
mod ledger;
mod machine;
mod page;
mod record;
mod refusals;
mod rise;
mod view;

pub use cause::Cause;
pub use hex::{hex_read, hex_write};
pub use ledger::{Books, Running, Tables};
use machine::Machine;
pub use record::{Mode, Record, Settings};
pub use view::{look, Memory};

/// What a frame amounted to.
#[derive(Clone, Copy, Debug, PartialEq, Eq)]
pub enum Outcome {
    /// The part did not react.
    Nothing,
    /// The part answered a reading command, if only with no byte at all.
    Read,
    /// A command that touches nothing but the record, at once, was obeyed.
    Control,
    /// The write latch fell although nothing was carried out.
    Aborted,
    /// A program, erase or status write took effect and made the part busy.
    Begun,
}

/// What the part sees on its pins besides the data, and the ticks that pass
/// before and in the frame.
#[derive(Clone, Copy, Debug, PartialEq, Eq)]
pub struct Pins {
    /// Clock pulses while chip select was low.
    pub bits: u64,
    /// Level of the write-protect pin throughout the frame.
    pub wp_high: bool,
    /// Ticks since the call before this one.
    pub elapsed: u64,
    /// Ticks that each byte position of the frame takes, a partial last one too.
    pub ticks_per_byte: u64,
}

/// Everything a call hands back besides the lent bytes.
#[derive(Clone, Copy, Debug, PartialEq, Eq)]
pub struct Answer {
    /// Number of the refusal, 0 for an accepted call.
    pub refusal: u8,
    /// What the frame amounted to.
    pub outcome: Outcome,
    /// Why the frame of an accepted call amounted to nothing or was aborted.
    pub cause: Option<Cause>,
    /// First output position the part drove, 0 if it drove none.
    pub first: usize,
    /// How many output positions the part drove.
    pub driven: usize,
    /// The record after the call.
    pub record: Record,
}

impl Answer {
    /// The answer to a call that is turned away.
    fn refused(refusal: u8, record: Record) -> Answer {
        Answer {
            refusal,
            outcome: Outcome::Nothing,
            cause: None,
            first: 0,
            driven: 0,
            record,
        }
    }
}

/// Runs one chip-select frame, from the checks on the arguments to the rise.
pub fn frame(
    record: Record,
    settings: &Settings,
    array: &mut [u8],
    register: &mut [u8],
    input: &[u8],
    pins: Pins,
    output: &mut [u8],
) -> Answer {
    let lengths = refusals::Lengths::of(array, register, input, output);
    let refusal = refusals::judge(&lengths, &record, settings, &pins);
    if refusal != refusals::NONE {
        return Answer::refused(refusal, record);
    }

    let mut machine = Machine::fall(record.rested(pins.elapsed), &pins, array, register);
    let mut clocks_left = pins.bits;
    for (&byte, answer) in input.iter().zip(output) {
        let clocks = clocks_left.min(8);
        *answer = exchange(&mut machine, byte, clocks);
        clocks_left -= clocks;
    }
    let gathered = machine.rise();
    let (first, driven) = (gathered.first, gathered.driven);

    let (record, outcome, cause) = rise::settle(gathered, settings, pins.wp_high, array, register);
    Answer {
        refusal,
        outcome,
        cause,
        first,
        driven,
        record,
    }
}

/// Clocks the leading bits of one byte through the machine, highest first.
/// Places without a clock keep the 1 of an undriven line.
fn exchange(machine: &mut Machine, byte: u8, clocks: u64) -> u8 {
    let mut answer = 0xFF;
    for clock in 0..clocks {
        let place = 0x80 >> clock;
        let level = machine.clock(byte & place != 0);
        if !level {
            answer &= !place;
        }
    }
    answer
}
