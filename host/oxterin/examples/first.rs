//! A first frame in Rust: a write enable, a 4-KiB erase, and a poll when it is done.
use oxterin::{Part, Refusal, Signals, Size};

fn main() -> Result<(), Refusal> {
    let mut part = Part::blank(Size::Whole);
    part.send(&[0x06])?;
    let erase = part.send(&[0x20, 0x00, 0x10, 0x00])?;
    println!("{}, busy for {} ticks", erase.answer.outcome, part.record.busy);

    let poll = [0x05, 0x00];
    let later = Signals {
        elapsed: 50_000,
        ..Signals::whole(&poll)
    };
    println!("{:02X?}", part.frame(&poll, later)?.output);
    Ok(())
}
