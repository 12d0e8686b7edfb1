//! The proved part beside the independent model: the same call on both, every field and every byte of the answers compared.
//!
//! A [`Call`] runs on three sides, each with memories of its own: the proved face by words, the safe wrapper over it, and the model. A
//! [`Trial`] holds the three and says where they differ, or tell another cause than the first that holds. [`Generator`] makes long random
//! series of calls, [`shrink()`] cuts a series that shows a difference down to what is needed, and [`text`] writes it in lines that can be
//! replayed. [`ledger`] makes series of calls that are billed to accounts. [`hex`] does all this for images as Intel HEX text, and
//! [`measure`] takes times.

mod asked;
mod call;
mod difference;
mod generator;
pub mod hex;
mod holds;
pub mod ledger;
pub mod measure;
mod opcodes;
mod random;
mod reply;
mod series;
mod shrink;
mod side;
mod sizes;
mod tally;
pub mod text;
mod trial;

pub use asked::{asked, clock};
pub use call::{Call, ARRAY_ROOM, GUARD, OUTPUT_ROOM, REGISTER_ROOM, SPARE};
pub use difference::Difference;
pub use generator::Generator;
pub use opcodes::{CHANGES, CONTROLS, READS};
pub use random::Random;
pub use reply::Reply;
pub use series::{replay, report, Mismatch};
pub use shrink::shrink;
pub use side::{model_word, model_words};
pub use sizes::both_sizes;
pub use tally::Tally;
pub use trial::{Care, Trial};
