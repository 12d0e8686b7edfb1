//! Array images as Intel HEX text.
//!
//! The writer puts the whole text together, record by record, and hands it
//! over at the end. The reader cuts the text into lines, turns each line into
//! the bytes its digits stand for, judges the records in order, and collects
//! the data in a copy of the array, which it hands over only if nothing was
//! refused.

use crate::view::is_array_length;

/// The answer to a call that was carried out.
const ACCEPTED: u64 = 0;

/// A line is not a record.
const MALFORMED: u64 = 12;

/// The bytes of a record do not add up.
const WRONG_CHECKSUM: u64 = 13;

/// A record is of a type that is not taken.
const OTHER_TYPE: u64 = 14;

/// Data falls outside the array or past its 64 KiB.
const OUTSIDE: u64 = 15;

/// There is no end record, or text after it.
const NO_END: u64 = 16;

/// The text has no room for the image.
const NO_ROOM: u64 = 17;

/// An array cannot have that size.
const ARRAY_LENGTH: u64 = 18;

/// The type of a data record.
const TYPE_DATA: u8 = 0x00;

/// The type of the end record.
const TYPE_END: u8 = 0x01;

/// The type of a record that gives the upper part of the addresses.
const TYPE_UPPER: u8 = 0x04;

/// Bytes that share an upper part.
const BLOCK: usize = 65_536;

/// Bytes of each data record that is written.
const ROW: usize = 16;

/// Writes the image of an array into the text. The answer is the refusal, 0
/// for none, and the number of characters written.
pub fn hex_write(array: &[u8], text: &mut [u8]) -> (u64, usize) {
    if !is_array_length(array.len()) {
        return (ARRAY_LENGTH, 0);
    }
    let image = image(array);
    match text.get_mut(..image.len()) {
        None => (NO_ROOM, 0),
        Some(room) => {
            room.copy_from_slice(image.as_bytes());
            (ACCEPTED, image.len())
        }
    }
}

/// The whole text that stands for an array.
fn image(array: &[u8]) -> String {
    let mut text = String::new();
    for (upper, block) in array.chunks(BLOCK).enumerate() {
        let upper = upper as u16;
        text.push_str(&written(0, TYPE_UPPER, &upper.to_be_bytes()));
        for (row, data) in block.chunks(ROW).enumerate() {
            let offset = (row * ROW) as u16;
            text.push_str(&written(offset, TYPE_DATA, data));
        }
    }
    text.push_str(&written(0, TYPE_END, &[]));
    text
}

/// A record as it is written, with its ending.
fn written(offset: u16, kind: u8, data: &[u8]) -> String {
    let mut bytes = vec![data.len() as u8];
    bytes.extend(offset.to_be_bytes());
    bytes.push(kind);
    bytes.extend(data);
    let checksum = sum(&bytes).wrapping_neg();
    bytes.push(checksum);

    let mut line = String::from(":");
    for byte in bytes {
        line.push_str(&format!("{byte:02X}"));
    }
    line.push('\n');
    line
}

/// Reads a text into the array. The answer is the refusal, 0 for none, and
/// the place of the character at which what is refused begins.
pub fn hex_read(text: &[u8], array: &mut [u8]) -> (u64, usize) {
    if !is_array_length(array.len()) {
        return (ARRAY_LENGTH, 0);
    }
    let mut copy = array.to_vec();
    match follow(text, &mut copy) {
        Err(Fault { refusal, place }) => (refusal, place),
        Ok(()) => {
            array.copy_from_slice(&copy);
            (ACCEPTED, 0)
        }
    }
}

/// Why and where a text is refused.
struct Fault {
    /// Number of the refusal.
    refusal: u64,
    /// The place of the character at which what is refused begins.
    place: usize,
}

/// Carries out the records of a text on an array, up to the first fault.
fn follow(text: &[u8], array: &mut [u8]) -> Result<(), Fault> {
    let mut upper = 0;
    for line in lines(text) {
        let faulty = |refusal| Fault {
            refusal,
            place: line.start,
        };
        match record(line.characters).map_err(faulty)? {
            Record::Data { offset, data } => store(array, upper, offset, &data).map_err(faulty)?,
            Record::Upper(part) => upper = part,
            Record::End if line.next == text.len() => return Ok(()),
            Record::End => {
                return Err(Fault {
                    refusal: NO_END,
                    place: line.next,
                })
            }
        }
    }
    Err(Fault {
        refusal: NO_END,
        place: text.len(),
    })
}

/// A line of a text.
struct Line<'a> {
    /// The place of its first character.
    start: usize,
    /// The place behind its ending.
    next: usize,
    /// Its characters, the ending left out.
    characters: &'a [u8],
}

/// The lines of a text. Behind an LF at the very end there is none.
fn lines(text: &[u8]) -> Vec<Line<'_>> {
    let mut lines = Vec::new();
    let mut start = 0;
    for whole in text.split_inclusive(|&character| character == b'\n') {
        let next = start + whole.len();
        let characters = without_ending(whole);
        lines.push(Line { start, next, characters });
        start = next;
    }
    lines
}

/// A line without its LF and the one CR straight before that. A line that
/// runs to the end of the text has no ending, and a CR in it is its own.
fn without_ending(whole: &[u8]) -> &[u8] {
    match whole {
        [characters @ .., b'\r', b'\n'] => characters,
        [characters @ .., b'\n'] => characters,
        characters => characters,
    }
}

/// A record that is taken.
enum Record {
    /// Bytes for the array.
    Data {
        /// Where in the 64 KiB the first one goes.
        offset: u16,
        /// The bytes.
        data: Vec<u8>,
    },
    /// The end of the image.
    End,
    /// The upper part of the addresses from here on.
    Upper(u16),
}

/// The record that a line is, or the number of its refusal.
fn record(characters: &[u8]) -> Result<Record, u64> {
    let bytes = digit_pairs(characters).ok_or(MALFORMED)?;
    let &[length, offset_high, offset_low, kind, ref data @ .., _checksum] = bytes.as_slice() else {
        return Err(MALFORMED);
    };
    if data.len() != usize::from(length) {
        return Err(MALFORMED);
    }
    let record = match (kind, data) {
        (TYPE_DATA, data) => Some(Record::Data {
            offset: u16::from_be_bytes([offset_high, offset_low]),
            data: data.to_vec(),
        }),
        (TYPE_END, []) => Some(Record::End),
        (TYPE_UPPER, &[high, low]) => Some(Record::Upper(u16::from_be_bytes([high, low]))),
        (TYPE_END | TYPE_UPPER, _) => return Err(MALFORMED),
        _ => None,
    };
    if sum(&bytes) != 0 {
        return Err(WRONG_CHECKSUM);
    }
    record.ok_or(OTHER_TYPE)
}

/// The bytes of a colon and digit pairs, or none if that is not what it is.
fn digit_pairs(characters: &[u8]) -> Option<Vec<u8>> {
    let [b':', digits @ ..] = characters else {
        return None;
    };
    digits.chunks(2).map(byte).collect()
}

/// The byte that two digits stand for.
fn byte(digits: &[u8]) -> Option<u8> {
    let &[high, low] = digits else {
        return None;
    };
    Some(16 * digit(high)? + digit(low)?)
}

/// The value of a digit of either case.
fn digit(character: u8) -> Option<u8> {
    char::from(character).to_digit(16).map(|value| value as u8)
}

/// The low byte of the sum of some bytes.
fn sum(bytes: &[u8]) -> u8 {
    bytes.iter().fold(0, |sum, &byte| sum.wrapping_add(byte))
}

/// Puts the bytes of a data record where they belong.
fn store(array: &mut [u8], upper: u16, offset: u16, data: &[u8]) -> Result<(), u64> {
    if data.is_empty() {
        return Ok(());
    }
    let (block, length) = (BLOCK as u64, data.len() as u64);
    let (upper, offset) = (u64::from(upper), u64::from(offset));
    let start = upper * block + offset;
    let end = start + length;
    if offset + length > block || end > array.len() as u64 {
        return Err(OUTSIDE);
    }
    array[start as usize..end as usize].copy_from_slice(data);
    Ok(())
}
