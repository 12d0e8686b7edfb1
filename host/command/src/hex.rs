//! `oxterin hex`: array images as Intel HEX text, and back.
use crate::complaint::{complaint, Complaint};
use crate::options::{size, Given};
use crate::paths::{apart, Use};
use crate::source::{Source, DASH};
use crate::{image, put};
use oxterin::{hex_text, Size};

/// `oxterin hex --help`.
pub const HELP: &str = "\
oxterin hex: array images as Intel HEX text, and back

Usage: oxterin hex to IMAGE TEXT
       oxterin hex from TEXT IMAGE [--size BYTES]

IMAGE is the content of the array, 131072 or 65536 bytes; TEXT is Intel HEX. For either, - is standard input or output.

to writes for each 64 KiB a record of type 04, then data records of 16 bytes, and at the end :00000001FF, all in upper
case with one LF after each record.

from reads records of types 00, 01 and 04, upper or lower case, each ended by LF or CR LF, the last perhaps by neither.
Where records name a byte twice, the later one wins; bytes that none names are FFh.

  --size BYTES        how many bytes IMAGE gets: 131072 (default) or 65536

A faulty text is an error that names file, line, column and remedy, and then nothing is written. A file is written
whole, beside the old one, which it then replaces.

run and serve take Intel HEX themselves: --image and --save with a file whose name ends in .hex or .ihex.
";

/// Turns an image into a text, or a text into an image.
pub fn hex(words: &[String]) -> Result<(), Complaint> {
    let given = Given::read(words, &["--size"], &[])?;
    let size = size(&given)?;
    let words: Vec<&str> = given.words.iter().map(String::as_str).collect();
    if let [_, from, to] = words[..] {
        apart(&given, &[("the input", from, Use::Read), ("the output", to, Use::Written)])?;
    }
    match (&words[..], size) {
        (["to", _, _], Some(_)) => Err(complaint("hex to takes no --size, since the image has its own; leave it out")),
        (["to", from, to], None) => convert(from, to, text),
        (["from", from, to], size) => convert(from, to, |source, text| image::of_hex(source, text, size.unwrap_or(Size::Whole))),
        (["to" | "from", _, _, more, ..], _) => Err(complaint(format!("hex takes two files, and {more} is a third one"))),
        (["to", ..], _) => Err(complaint("hex to wants two files after it, or - : oxterin hex to IMAGE TEXT")),
        (["from", ..], _) => Err(complaint("hex from wants two files after it, or - : oxterin hex from TEXT IMAGE")),
        ([other, ..], _) => Err(complaint(format!("hex {other}: write hex to IMAGE TEXT, or hex from TEXT IMAGE"))),
        ([], _) => Err(complaint(
            "hex wants to or from after it: hex to IMAGE TEXT, or hex from TEXT IMAGE",
        )),
    }
}

/// Reads what one word names, turns it, and writes the outcome where the other says. If it cannot be turned, nothing is written.
fn convert(from: &str, to: &str, turn: impl Fn(Source<'_>, &[u8]) -> Result<Vec<u8>, Complaint>) -> Result<(), Complaint> {
    let held = (to != DASH).then(|| image::hold(to)).transpose()?;
    let source = Source::of_word(from);
    let bytes = turn(source, &source.read()?)?;
    held.map_or_else(|| put(&bytes), |mut held| held.save(&bytes))
}

/// The text of an image, which nothing but its length can make impossible.
fn text(source: Source<'_>, image: &[u8]) -> Result<Vec<u8>, Complaint> {
    hex_text(image).map_err(|_| image::wrong_length(source, image, None))
}
