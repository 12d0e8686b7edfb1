//! An array's content as Intel HEX text, and such a text read into an array.
use crate::part::Size;
use crate::raw;
use std::error::Error;
use std::fmt;

/// Why a text was not written or not read. Then neither the text nor the array has changed.
#[derive(Clone, Copy, Debug, PartialEq, Eq, Hash)]
#[repr(u8)]
pub enum HexRefusal {
    /// 12: a line is no record, by its colon, its digits or its length, or has data in 01 or other than two bytes in 04.
    Malformed = 12,
    /// 13: a record has a wrong checksum.
    Checksum = 13,
    /// 14: a record has another type than 00, 01 and 04.
    Kind = 14,
    /// 15: a record has data that do not lie in the array, or cross a border of 64 KiB.
    Outside = 15,
    /// 16: the end record is missing, or something follows it.
    End = 16,
    /// 17: the text buffer is shorter than the text.
    Room = 17,
    /// 18: the array has neither 131,072 nor 65,536 bytes.
    ArrayLength = 18,
}

impl HexRefusal {
    /// All refusals, in the order of their numbers.
    pub const ALL: [HexRefusal; 7] = [
        HexRefusal::Malformed,
        HexRefusal::Checksum,
        HexRefusal::Kind,
        HexRefusal::Outside,
        HexRefusal::End,
        HexRefusal::Room,
        HexRefusal::ArrayLength,
    ];

    /// Its number, from 12 to 18.
    #[must_use]
    pub fn number(self) -> u8 {
        self as u8
    }

    /// The refusal of this number; 0 is none, and no well-formed call gives another.
    fn of_number(number: u64) -> Option<HexRefusal> {
        if number == 0 {
            return None;
        }
        let known = HexRefusal::ALL.into_iter().find(|refusal| u64::from(refusal.number()) == number);
        Some(known.expect("the face answers a call on HEX text with 0 or a refusal from 12 to 18"))
    }
}

impl fmt::Display for HexRefusal {
    fn fmt(&self, f: &mut fmt::Formatter<'_>) -> fmt::Result {
        let why = match self {
            HexRefusal::Malformed => {
                "a line is no record, by its colon, its digits or its length, or has data in 01 or other than two bytes in 04"
            }
            HexRefusal::Checksum => "a record has a wrong checksum",
            HexRefusal::Kind => "a record has another type than 00, 01 and 04",
            HexRefusal::Outside => "a record has data that do not lie in the array, or cross a border of 64 KiB",
            HexRefusal::End => "the end record is missing, or something follows it",
            HexRefusal::Room => "the text buffer is shorter than the text",
            HexRefusal::ArrayLength => "the array has neither 131,072 nor 65,536 bytes",
        };
        write!(f, "refusal {}: {why}", self.number())
    }
}

impl Error for HexRefusal {}

/// Why a text was not written or not read, and where.
#[derive(Clone, Copy, Debug, PartialEq, Eq, Hash)]
pub struct HexError {
    /// Why.
    pub refusal: HexRefusal,
    /// The place, counted from 0, of the character at which the faulty record begins; behind the end record's line if text follows it, the
    /// text's length if there is no end record. 0 for a buffer or an array of a wrong length.
    pub place: usize,
}

impl fmt::Display for HexError {
    fn fmt(&self, f: &mut fmt::Formatter<'_>) -> fmt::Result {
        match self.refusal {
            HexRefusal::Room | HexRefusal::ArrayLength => self.refusal.fmt(f),
            _ => write!(f, "{}, at character {}", self.refusal, self.place),
        }
    }
}

impl Error for HexError {}

impl Size {
    /// How many characters an array of this size has as HEX text.
    ///
    /// ```
    /// assert_eq!(oxterin::Size::ALL.map(|size| size.hex_characters()), [180_252, 360_492]);
    /// ```
    #[must_use]
    pub fn hex_characters(self) -> usize {
        match self {
            Size::Small => 180_252,
            Size::Whole => 360_492,
        }
    }
}

/// Writes the array's content as Intel HEX text, and answers how many characters that has: [`Size::hex_characters`]. For each 64 KiB there
/// is a record of type 04 and data records of 16 bytes, then the end record; upper case, an LF after each. The bytes of `text` behind them
/// stay.
///
/// # Errors
///
/// The array's length is none of an array (18), or `text` is too short (17). Then `text` is as it was.
///
/// ```
/// use oxterin::{hex_write, HexRefusal, Size};
///
/// let mut text = vec![0; Size::Small.hex_characters()];
/// assert_eq!(hex_write(&[0xFF; 65_536], &mut text), Ok(180_252));
/// assert!(text.starts_with(b":020000040000FA\n:10000000FFFF"));
/// assert!(text.ends_with(b"\n:00000001FF\n"));
/// assert_eq!(hex_write(&[0xFF; 65_535], &mut text).unwrap_err().refusal, HexRefusal::ArrayLength);
/// ```
pub fn hex_write(array: &[u8], text: &mut [u8]) -> Result<usize, HexError> {
    let mut told = [0; raw::TOLD];
    let number = raw::hex_write(array, text, &mut told);
    match HexRefusal::of_number(number) {
        Some(refusal) => Err(HexError { refusal, place: 0 }),
        None => Ok(told[0] as usize),
    }
}

/// Reads Intel HEX text into the array: records of types 00, 01 and 04 in either case, ended by LF or CR LF. Later records win, and bytes
/// that none names stay.
///
/// # Errors
///
/// The array's length is none of an array (18), or a record is faulty (12 to 16): the error has the first one's place. Then the array is as
/// it was.
///
/// ```
/// use oxterin::{hex_read, HexError, HexRefusal};
///
/// let mut array = vec![0xFF; 131_072];
/// hex_read(b":020000040001F9\n:02001000CAFE26\n:00000001FF\n", &mut array)?;
/// assert_eq!(array[0x1_000F..0x1_0013], [0xFF, 0xCA, 0xFE, 0xFF]);
///
/// let wrong = hex_read(b":020000040001F9\n:02001000CAFE27\n:00000001FF\n", &mut array).unwrap_err();
/// assert_eq!(wrong, HexError { refusal: HexRefusal::Checksum, place: 16 });
/// assert_eq!(wrong.to_string(), "refusal 13: a record has a wrong checksum, at character 16");
/// # Ok::<(), HexError>(())
/// ```
pub fn hex_read(text: &[u8], array: &mut [u8]) -> Result<(), HexError> {
    let mut told = [0; raw::TOLD];
    let number = raw::hex_read(text, array, &mut told);
    match HexRefusal::of_number(number) {
        Some(refusal) => Err(HexError {
            refusal,
            place: told[0] as usize,
        }),
        None => Ok(()),
    }
}

/// The array's content as Intel HEX text, the whole of it.
///
/// # Errors
///
/// The array's length is none of an array.
///
/// ```
/// use oxterin::{hex_read, hex_text, Part, Size};
///
/// let mut part = Part::blank(Size::Whole);
/// part.send(&[0x06])?;
/// part.send(&[0x02, 0x00, 0x00, 0x10, 0xCA, 0xFE])?;
/// let text = hex_text(part.array())?;
/// let mut array = vec![0; 131_072];
/// hex_read(&text, &mut array)?;
/// assert_eq!(array, part.array());
/// # Ok::<(), Box<dyn std::error::Error>>(())
/// ```
pub fn hex_text(array: &[u8]) -> Result<Vec<u8>, HexError> {
    let mut text = vec![0; Size::of_bytes(array.len()).map_or(0, Size::hex_characters)];
    let characters = hex_write(array, &mut text)?;
    text.truncate(characters);
    Ok(text)
}

#[cfg(test)]
mod tests {
    use super::*;

    #[test]
    fn a_refused_text_has_its_number_and_place_and_changes_nothing() {
        for (number, place, length, text) in [
            (12, 0, 65_536, "\n:00000001FF\n"),
            (12, 14, 131_072, ":0100000011EE\n:00000001FF "),
            (13, 14, 65_536, ":0100000011EE\n:00000001FE\n"),
            (14, 14, 131_072, ":0100000011EE\n:020000021000EC\n:00000001FF\n"),
            (15, 16, 65_536, ":020000040001F9\n:0100000011EE\n:00000001FF\n"),
            (16, 14, 131_072, ":0100000011EE\n"),
            (16, 12, 65_536, ":00000001FF\n?"),
            (18, 0, 65_535, "?"),
            (18, 0, 0, ":00000001FF\n"),
        ] {
            let mut array = vec![0xAA; length];
            let error = hex_read(text.as_bytes(), &mut array).expect_err(text);
            assert_eq!((error.refusal.number(), error.place), (number, place), "{text}");
            assert!(array.iter().all(|byte| *byte == 0xAA), "{text}");
        }
    }

    #[test]
    fn a_text_has_room_or_is_not_written() {
        for size in Size::ALL {
            let array = vec![0x5A; size.bytes()];
            let mut text = vec![0xEE; size.hex_characters() + 1];
            let short = hex_write(&array, &mut text[..size.hex_characters() - 1]);
            assert_eq!(short.map_err(|error| (error.refusal, error.place)), Err((HexRefusal::Room, 0)));
            assert!(text.iter().all(|byte| *byte == 0xEE));
            assert_eq!(hex_write(&array, &mut text), Ok(size.hex_characters()));
            assert_eq!(text.pop(), Some(0xEE));
            assert_eq!(hex_text(&array), Ok(text));
        }
        assert_eq!(hex_text(&[0; 5]).unwrap_err().refusal.number(), 18);
    }

    #[test]
    fn refusals_are_numbered_from_12_to_18() {
        assert_eq!(HexRefusal::ALL.map(HexRefusal::number), [12, 13, 14, 15, 16, 17, 18]);
        assert_eq!(HexRefusal::of_number(0), None);
        for refusal in HexRefusal::ALL {
            assert_eq!(HexRefusal::of_number(refusal.number().into()), Some(refusal));
            let error = HexError { refusal, place: 7 }.to_string();
            assert!(error.starts_with(&refusal.to_string()), "{error}");
            assert_eq!(error.ends_with(", at character 7"), refusal.number() <= 16, "{error}");
        }
    }
}
