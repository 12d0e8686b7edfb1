//! A simulated AT25XE011, over a library whose every function is proved to answer as the data sheet's rules say.
//!
//! [`Part`] owns its memories; [`frame`] works on memories that you lend; a [`Ledger`] bills busy ticks to whoever began the operation;
//! [`hex_text`] and [`hex_read`] turn an array into Intel HEX text and back; [`raw`] is the face that C programs see, words and bytes.
//! Time passes only as the caller says, in ticks that come with each frame: those elapsed before it, and those that each of its byte
//! positions takes ([`Signals::with_ticks_per_byte`]).
//!
//! ```
//! use oxterin::{Outcome, Part, Signals, Size};
//!
//! let mut part = Part::blank(Size::Whole);
//! part.send(&[0x06])?; // write enable
//! let erase = part.send(&[0x20, 0x00, 0x10, 0x00])?;
//! assert_eq!(erase.answer.outcome, Outcome::Begun);
//! assert_eq!(part.record.busy, 50_000);
//!
//! let poll = [0x05, 0x00];
//! let later = Signals { elapsed: 50_000, ..Signals::whole(&poll) };
//! assert_eq!(part.frame(&poll, later)?.output, [0xFF, 0x10]);
//! # Ok::<(), oxterin::Refusal>(())
//! ```
//!
//! A frame of which nothing came, or that was aborted, says why ([`Cause`]):
//!
//! ```
//! use oxterin::{Cause, Outcome, Part, Size};
//!
//! let mut part = Part::blank(Size::Whole);
//! let erase = part.send(&[0x20, 0x00, 0x10, 0x00])?.answer; // without 06h before it
//! assert_eq!((erase.outcome, erase.cause), (Outcome::Nothing, Some(Cause::LatchClear)));
//! # Ok::<(), oxterin::Refusal>(())
//! ```
//!
//! Where several accounts share a part, every frame of it goes through its ledger: one sent past it ([`Part::send`], [`Part::frame`],
//! [`frame`]), or a changed record, leaves [`Ledger::running`] stale. A ledger is one part's; who has several parts keeps one ledger each
//! and adds the lines.
//!
//! ```
//! use oxterin::{Ledger, Line, Part, Signals, Size};
//!
//! let mut part = Part::blank(Size::Whole);
//! let mut ledger = Ledger::empty();
//! part.send_for(7, &mut ledger, &[0x06])?;
//! part.send_for(7, &mut ledger, &[0x20, 0x00, 0x10, 0x00])?; // account 7 begins an erase of 50,000 ticks
//!
//! let poll = [0x05, 0x00];
//! let later = Signals { elapsed: 60_000, ..Signals::whole(&poll) };
//! part.frame_for(9, &mut ledger, &poll, later)?; // and account 9 polls
//! assert_eq!(ledger.line(7)?, Line { total: 50_000, most: 50_000, number: 1 });
//! assert_eq!(ledger.line(9)?, Line { total: 0, most: 0, number: 0 });
//! # Ok::<(), oxterin::Refusal>(())
//! ```
#![deny(unsafe_code)]

mod cause;
mod frame;
mod hex;
mod ledger;
mod part;
pub mod raw;
mod record;

pub use cause::Cause;
pub use frame::{frame, look, Answer, Memory, Outcome, Refusal, Signals};
pub use hex::{hex_read, hex_text, hex_write, HexError, HexRefusal};
pub use ledger::{frame_for, Ledger, Line, Running};
pub use part::{Exchange, ImageLength, Part, Size};
pub use record::{Mode, Record, Settings};

/// How the proved library in this program was built: for which machine, and by which way.
pub const BUILT: &str = env!("OXTERIN_BUILT");

/// The version of the proved face, such as `1.5.0`.
#[must_use]
pub fn version() -> String {
    let number = raw::version();
    format!("{}.{}.{}", number / 1_000_000, number / 1_000 % 1_000, number % 1_000)
}
