//! Records and whole texts, made without the help of any side.

/// The type of a record with data.
pub const DATA: u8 = 0x00;

/// The type of the end record.
pub const END: u8 = 0x01;

/// The type of a record with the upper part of the addresses behind it.
pub const UPPER: u8 = 0x04;

/// The digits as they are written.
const DIGITS: &[u8; 16] = b"0123456789ABCDEF";

/// The characters of a record without a line ending, its checksum right. There are at most 255 bytes of data.
#[must_use]
pub fn record(kind: u8, address: u16, data: &[u8]) -> Vec<u8> {
    let length = u8::try_from(data.len()).expect("a record has at most 255 bytes of data");
    let [high, low] = address.to_be_bytes();
    let mut bytes = [&[length, high, low, kind], data].concat();
    bytes.push(sum(&bytes).wrapping_neg());
    characters(&bytes)
}

/// The same record with so much added to its checksum.
#[must_use]
pub fn checksum_off(record: &[u8], by: u8) -> Vec<u8> {
    let mut bytes = bytes(record).expect("a record is a colon and pairs of digits");
    if let Some(checksum) = bytes.last_mut() {
        *checksum = checksum.wrapping_add(by);
    }
    characters(&bytes)
}

/// The text that has to be written for an array of an allowed size.
#[must_use]
pub fn written(array: &[u8]) -> Vec<u8> {
    let mut records = Vec::new();
    for (upper, part) in array.chunks(65_536).enumerate() {
        records.push(record(UPPER, 0, &(upper as u16).to_be_bytes()));
        let addresses = (0..=u16::MAX).step_by(16);
        records.extend(addresses.zip(part.chunks(16)).map(|(address, data)| record(DATA, address, data)));
    }
    records.push(record(END, 0, &[]));
    records.into_iter().flat_map(|record| [record, b"\n".to_vec()].concat()).collect()
}

/// A colon, and a pair of digits for each byte.
pub(crate) fn characters(bytes: &[u8]) -> Vec<u8> {
    let pairs = bytes.iter().flat_map(|byte| [byte >> 4, byte & 0x0F]);
    let digits = pairs.map(|digit| DIGITS[usize::from(digit)]);
    std::iter::once(b':').chain(digits).collect()
}

/// The bytes of a colon and pairs of digits; none if there is anything else.
pub(crate) fn bytes(characters: &[u8]) -> Option<Vec<u8>> {
    let digits = characters.strip_prefix(b":")?;
    let digits: Option<Vec<u8>> = digits.iter().map(|&character| digit(character)).collect();
    let digits = digits.filter(|digits| digits.len().is_multiple_of(2))?;
    Some(digits.chunks(2).map(|pair| pair[0] << 4 | pair[1]).collect())
}

/// The value of a digit, in either case.
fn digit(character: u8) -> Option<u8> {
    let value = char::from(character).to_digit(16)?;
    u8::try_from(value).ok()
}

/// The lines of a text with their endings.
pub(crate) fn lines(text: &[u8]) -> Vec<Vec<u8>> {
    text.split_inclusive(|&character| character == b'\n').map(<[u8]>::to_vec).collect()
}

/// The sum of bytes, of which eight bits count.
pub(crate) fn sum(bytes: &[u8]) -> u8 {
    bytes.iter().fold(0, |sum: u8, &byte| sum.wrapping_add(byte))
}

#[cfg(test)]
mod tests {
    use super::*;

    #[test]
    fn records_are_as_worked_out_by_hand() {
        assert_eq!(record(END, 0, &[]), b":00000001FF");
        assert_eq!(record(UPPER, 0, &[0, 1]), b":020000040001F9");
        assert_eq!(record(DATA, 0xFFFE, &[0x12, 0xAB]), b":02FFFE0012AB44");
        assert_eq!(checksum_off(b":00000001FF", 1), b":0000000100");
    }

    #[test]
    fn only_a_colon_and_pairs_of_digits_have_bytes() {
        assert_eq!(bytes(b":09afAF"), Some(vec![0x09, 0xAF, 0xAF]));
        assert_eq!(bytes(b":"), Some(Vec::new()));
        for wrong in [&b""[..], b"09", b":0", b":0G", b": 9", b":09\r", b"::"] {
            assert_eq!(bytes(wrong), None);
        }
    }

    #[test]
    fn a_written_text_has_the_length_that_its_size_fixes() {
        let text = written(&vec![0xFF; 131_072]);
        assert_eq!(text.len(), 360_492);
        assert_eq!(text[..16], *b":020000040000FA\n");
        assert_eq!(text[16..60], *b":10000000FFFFFFFFFFFFFFFFFFFFFFFFFFFFFFFF00\n");
        assert_eq!(text[180_240..180_256], *b":020000040001F9\n");
        assert!(text.ends_with(b"\n:10FFF000FFFFFFFFFFFFFFFFFFFFFFFFFFFFFFFF11\n:00000001FF\n"));
        assert_eq!(written(&[0; 65_536]).len(), 180_252);
    }
}
