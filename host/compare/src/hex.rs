//! Images as Intel HEX text on the same three sides: every character written, every byte read, each refusal and its place compared.
//!
//! A [`Trial`] writes and reads on memories that lie between guards, and says where the sides differ. [`Generator`] makes random texts,
//! most of them good, and damages some; [`report`] cuts a text that shows a difference down and says how to read it again; [`record`] and
//! [`written`] make records and texts without the help of any side.

mod generator;
mod record;
mod reply;
mod report;
mod shrink;
mod side;
mod tally;
mod trial;

pub use generator::{Case, Generator};
pub use record::{checksum_off, record, written, DATA, END, UPPER};
pub use reply::Reply;
pub use report::{replay, report};
pub use shrink::shrink;
pub use tally::Tally;
pub use trial::Trial;
