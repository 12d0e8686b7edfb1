//! The options that describe a fresh part, for every subcommand that makes one.
use crate::complaint::{complaint, Complaint};
use crate::image;
use crate::options::{number, size, Given};
use oxterin::{Part, Record, Settings, Size};

/// Those that take a value.
pub const PART_VALUED: [&str; 3] = ["--size", "--image", "--set"];
/// Those that take none.
pub const PART_FLAGS: [&str; 3] = ["--bpl", "--bp0", "--otp-used"];
/// What they mean.
pub const PART_HELP: &str = "  --size BYTES        131072 (default) or 65536; an --image that is not HEX has its own size
  --image FILE        the array's first content; without it every byte is FFh. A file whose name ends in
                      .hex or .ihex is Intel HEX text, and bytes that it does not name are FFh
  --set NAME=TICKS    a duration: byte-program, longer-program, page-erase, erase-4k, erase-32k,
                      chip-erase, otp-program, status-write; typical ones are the default
  --bpl --bp0         the first record has BPL, or BP0, set
  --otp-used          the first record has its one-time-programmable bytes used up
";

/// The part that the options describe.
pub fn part(given: &Given) -> Result<Part, Complaint> {
    let size = size(given)?;
    let mut part = match given.value("--image") {
        Some(path) => holding(path, size)?,
        None => Part::blank(size.unwrap_or(Size::Whole)),
    };
    for setting in given.values("--set") {
        part.settings = set(part.settings, setting)?;
    }
    part.record = Record::fresh(given.has("--bpl"), given.has("--bp0"), given.has("--otp-used"));
    Ok(part)
}

/// A part whose array holds the image of this file, which has the size that is said.
fn holding(path: &str, size: Option<Size>) -> Result<Part, Complaint> {
    let part = Part::with_image(image::load(path, size)?).expect("what is loaded has the length of an array");
    match size {
        Some(size) if part.array().len() != size.bytes() => Err(complaint(format!(
            "--size {}: the image has {} bytes; leave --size out, or give an image of that size",
            size.bytes(),
            part.array().len()
        ))),
        _ => Ok(part),
    }
}

/// The settings with one duration changed, given as `NAME=TICKS`.
fn set(settings: Settings, text: &str) -> Result<Settings, Complaint> {
    let (name, ticks) = text
        .split_once('=')
        .ok_or_else(|| complaint(format!("--set {text}: write NAME=TICKS, such as --set erase-4k=50000")))?;
    let place = Settings::NAMES.iter().position(|known| *known == name).ok_or_else(|| {
        complaint(format!(
            "--set {text}: no duration is called {name}; there are {}",
            Settings::NAMES.join(", ")
        ))
    })?;
    let ticks = number(ticks)
        .filter(|ticks| (1..=60_000_000).contains(ticks))
        .ok_or_else(|| complaint(format!("--set {text}: a duration is a number of ticks from 1 to 60,000,000")))?;
    let mut words = settings.words();
    words[place] = ticks;
    Ok(Settings::of_words(&words))
}
