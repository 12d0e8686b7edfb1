//! Document 01's built-in session, from the library.
use crate::complaint::{complaint, Complaint};
use crate::lines::answered;
use oxterin::{Part, Signals, Size};

/// `oxterin session --help`.
pub const HELP: &str = "\
oxterin session: the built-in session of four frames on a part of 65,536 bytes

Usage: oxterin session

Each line has the bytes sent, what the output read, and status byte 1 after the call:
a write enable, a program across a page's end, a status read while busy, a read of what was programmed.
";

/// The frames and the ticks that elapse before each.
const FRAMES: [(&[u8], u64); 4] = [
    (&[0x06], 0),
    (&[0x02, 0x00, 0x00, 0xFE, 0x11, 0x22, 0x33], 1),
    (&[0x05, 0x00, 0x00], 1),
    (&[0x03, 0x00, 0x00, 0xFE, 0x00, 0x00, 0x00], 2_000),
];

/// The session's lines.
pub fn lines() -> Result<String, Complaint> {
    let mut part = Part::blank(Size::Small);
    part.settings.byte_program = 2_000;
    part.settings.longer_program = 2_000;
    let mut text = String::new();
    for (input, elapsed) in FRAMES {
        let signals = Signals {
            elapsed,
            ..Signals::whole(input)
        };
        let exchange = part.frame(input, signals).map_err(|refusal| complaint(refusal.to_string()))?;
        text.push_str(&answered(input, &exchange.output, part.status(true)[0]));
        text.push('\n');
    }
    Ok(text)
}
