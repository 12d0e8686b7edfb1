//! Calls through a ledger on the same three sides: beside all else, every word of the ledgers compared.
//!
//! A [`crate::Call`] with an account goes through the ledger of a [`crate::Trial`]. [`Generator`] makes random series of such calls, for
//! several accounts in turn, and hands over ledgers that no series could have left; [`Tally`] counts what came of them.

mod generator;
mod kept;
mod tally;

pub use generator::Generator;
pub(crate) use kept::Kept;
pub use tally::Tally;

/// The number of the refusal that only calls through a ledger have.
pub const REFUSAL: u64 = 9;

/// The largest total and the largest number of operations with which calls are accepted.
pub const LIMIT: u64 = 9_000_000_000_000_000_000;
