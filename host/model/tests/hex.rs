//! Intel HEX texts written and read, with answers worked out by hand.
//!
//! A record is a colon, then as digit pairs the length, the offset (two
//! bytes), the type, the data and the checksum, which makes the low byte of
//! the sum of them all 00h.

use model::{hex_read, hex_write};

const SMALL: usize = 65_536;
const LARGE: usize = 131_072;

/// Both allowed sizes.
const SIZES: [usize; 2] = [SMALL, LARGE];

/// Sizes that are not allowed.
const WRONG_SIZES: [usize; 8] = [0, 1, 16, 65_535, 65_537, 131_071, 131_073, 196_608];

/// What a text holds before a write.
const UNTOUCHED: u8 = 0xA5;

/// The end record with its LF: 12 characters.
const END: &str = ":00000001FF\n";

/// A data record, AAh at 0, with its LF: 14 characters.
/// 01 + AA = AB, and 100 - AB = 55.
const GOOD: &str = ":01000000AA55\n";

/// The upper part 0001. 02 + 04 + 01 = 07, and 100 - 07 = F9.
const UPPER_1: &str = ":020000040001F9\n";

/// The upper part 0002. 02 + 04 + 02 = 08, and 100 - 08 = F8.
const UPPER_2: &str = ":020000040002F8\n";

/// The upper part FFFF. 02 + 04 + FF + FF = 204, and 100 - 04 = FC.
const UPPER_FFFF: &str = ":02000004FFFFFC\n";

/// A record with the right checksum, in upper case, without an ending.
fn record(offset: u16, kind: u8, data: &[u8]) -> String {
    let mut total = data.len() + usize::from(offset >> 8) + usize::from(offset & 0xFF) + usize::from(kind);
    let mut line = format!(":{:02X}{offset:04X}{kind:02X}", data.len());
    for &byte in data {
        total += usize::from(byte);
        line += &format!("{byte:02X}");
    }
    line + &format!("{:02X}", (256 - total % 256) % 256)
}

/// An array whose bytes tell near places apart, all of them below 80h.
fn patterned(size: usize) -> Vec<u8> {
    (0..size)
        .map(|place| ((place ^ (place >> 7) ^ (place >> 14)) & 0x7F) as u8)
        .collect()
}

/// Bytes without a visible order, the same for the same seed.
fn scrambled(size: usize, seed: u64) -> Vec<u8> {
    let mut state = seed;
    let mut next = || {
        state = state
            .wrapping_mul(6_364_136_223_846_793_005)
            .wrapping_add(1_442_695_040_888_963_407);
        (state >> 56) as u8
    };
    (0..size).map(|_| next()).collect()
}

/// The text of an array.
fn written(array: &[u8]) -> Vec<u8> {
    let mut text = vec![UNTOUCHED; 400_000];
    let (refusal, characters) = hex_write(array, &mut text);
    assert_eq!(refusal, 0);
    assert!(text[characters..].iter().all(|&character| character == UNTOUCHED));
    text.truncate(characters);
    text
}

/// Reads a text that must put just these bytes at these places of an array.
fn accepts(size: usize, text: impl AsRef<[u8]>, changes: &[(usize, &[u8])]) {
    let text = text.as_ref();
    let mut array = patterned(size);
    let mut expected = array.clone();
    for &(place, bytes) in changes {
        expected[place..place + bytes.len()].copy_from_slice(bytes);
    }
    assert_eq!(hex_read(text, &mut array), (0, 0), "{size} {}", text.escape_ascii());
    assert!(array == expected, "{size} {}", text.escape_ascii());
}

/// Reads a text that must be refused so, and leave the array as it was.
fn refuses(size: usize, text: impl AsRef<[u8]>, refusal: u64, place: usize) {
    let text = text.as_ref();
    let mut array = patterned(size);
    let before = array.clone();
    assert_eq!(hex_read(text, &mut array), (refusal, place), "{size} {}", text.escape_ascii());
    assert!(array == before, "{size} {}", text.escape_ascii());
}

/// Reads texts in which a line must be refused so: at the beginning, behind
/// a good record, before an end record or not, and with every ending.
fn faulty(size: usize, line: impl AsRef<[u8]>, refusal: u64) {
    let line = line.as_ref();
    refuses(size, [line, b"\n", END.as_bytes()].concat(), refusal, 0);
    refuses(size, [GOOD.as_bytes(), line, b"\n", END.as_bytes()].concat(), refusal, 14);
    refuses(size, [GOOD.as_bytes(), line, b"\r\n", END.as_bytes()].concat(), refusal, 14);
    refuses(size, [GOOD.as_bytes(), line, b"\n"].concat(), refusal, 14);
    if !line.is_empty() {
        refuses(size, [GOOD.as_bytes(), line].concat(), refusal, 14);
    }
}

mod write {
    use super::*;

    #[test]
    fn first_records() {
        let mut array = vec![0xFF; SMALL];
        for (place, byte) in array[..16].iter_mut().enumerate() {
            *byte = place as u8;
        }
        // 02 + 04 = 06, and 100 - 06 = FA.
        // 10 + (00 + 01 + ... + 0F) = 10 + 78 = 88, and 100 - 88 = 78.
        // 10 + 10 + 10 * FF = 1010, and 100 - 10 = F0.
        let expected = ":020000040000FA\n\
                        :10000000000102030405060708090A0B0C0D0E0F78\n\
                        :10001000FFFFFFFFFFFFFFFFFFFFFFFFFFFFFFFFF0\n";
        assert!(written(&array).starts_with(expected.as_bytes()));
        array.resize(LARGE, 0xFF);
        assert!(written(&array).starts_with(expected.as_bytes()));
    }

    #[test]
    fn a_sum_of_00_has_the_checksum_00() {
        // 10 + 10 * FF = 1000.
        let text = written(&vec![0xFF; SMALL]);
        assert_eq!(text[16..60], *b":10000000FFFFFFFFFFFFFFFFFFFFFFFFFFFFFFFF00\n");
    }

    #[test]
    fn last_records() {
        // 10 + FF + F0 = 1FF, and 100 - FF = 01.
        let expected = ":10FFF0000000000000000000000000000000000001\n:00000001FF\n";
        for size in SIZES {
            assert!(written(&vec![0; size]).ends_with(expected.as_bytes()));
        }
    }

    #[test]
    fn second_64_kib() {
        let mut array = vec![0; LARGE];
        array[SMALL - 1] = 0x12;
        array[SMALL] = 0x34;
        // The first 64 KiB take 16 + 4,096 * 44 = 180,240 characters.
        // 10 + FF + F0 + 12 = 211, and 100 - 11 = EF.
        // 10 + 34 = 44, and 100 - 44 = BC.
        let expected = ":10FFF00000000000000000000000000000000012EF\n\
                        :020000040001F9\n\
                        :1000000034000000000000000000000000000000BC\n";
        let text = written(&array);
        assert_eq!(text[180_240 - 44..180_240 + 16 + 44], *expected.as_bytes());
    }

    #[test]
    fn lengths() {
        // 16 for each type 04 record, 44 for each data record, 12 at the end:
        // 16 + 4,096 * 44 + 12, and 2 * (16 + 4,096 * 44) + 12.
        for (size, characters) in [(SMALL, 180_252), (LARGE, 360_492)] {
            for array in [vec![0; size], vec![0xFF; size], scrambled(size, 1)] {
                assert_eq!(written(&array).len(), characters);
            }
        }
    }

    #[test]
    fn upper_case_digits_colons_and_lf_alone() {
        for size in SIZES {
            let text = written(&scrambled(size, 2));
            let line_lengths: Vec<usize> = text.split_inclusive(|&character| character == b'\n').map(<[u8]>::len).collect();
            let mut expected = Vec::new();
            for _ in 0..size / SMALL {
                expected.push(16);
                expected.extend([44; 4_096]);
            }
            expected.push(12);
            assert!(line_lengths == expected);
            for line in text.split_inclusive(|&character| character == b'\n') {
                assert_eq!((line[0], line[line.len() - 1]), (b':', b'\n'));
                assert!(line[1..line.len() - 1].iter().all(|digit| b"0123456789ABCDEF".contains(digit)));
            }
        }
    }

    #[test]
    fn every_byte_has_its_place() {
        for size in SIZES {
            let array = scrambled(size, 3);
            let text = written(&array);
            for (place, &byte) in array.iter().enumerate() {
                let (block, offset) = (place / 65_536, place % 65_536);
                let line = block * 180_240 + 16 + offset / 16 * 44;
                let digits = line + 9 + offset % 16 * 2;
                assert_eq!(text[digits..digits + 2], *format!("{byte:02X}").as_bytes());
                let head = format!(":10{:04X}00", offset - offset % 16);
                assert_eq!(text[line..line + 9], *head.as_bytes());
            }
        }
    }

    #[test]
    fn every_record_adds_up() {
        for size in SIZES {
            let text = String::from_utf8(written(&scrambled(size, 4))).unwrap();
            for line in text.lines() {
                let pairs = (1..line.len()).step_by(2).map(|at| &line[at..at + 2]);
                let total: u32 = pairs.map(|pair| u32::from_str_radix(pair, 16).unwrap()).sum();
                assert_eq!(total % 256, 0, "{line}");
            }
        }
    }

    #[test]
    fn room() {
        for (size, characters) in [(SMALL, 180_252), (LARGE, 360_492)] {
            let array = scrambled(size, 5);
            let whole = written(&array);
            for length in [0, 1, 12, 16, characters / 2, characters - 12, characters - 1] {
                let mut text = vec![UNTOUCHED; length];
                assert_eq!(hex_write(&array, &mut text), (17, 0), "{size} {length}");
                assert!(text == vec![UNTOUCHED; length], "{size} {length}");
            }
            for more in [0, 1, 2, 1_000] {
                let mut text = vec![UNTOUCHED; characters + more];
                assert_eq!(hex_write(&array, &mut text), (0, characters), "{size} {more}");
                assert!(text[..characters] == whole, "{size} {more}");
                assert_eq!(text[characters..], vec![UNTOUCHED; more], "{size} {more}");
            }
        }
    }

    #[test]
    fn the_room_for_the_small_array_is_too_short_for_the_large_one() {
        let mut text = vec![UNTOUCHED; 180_252];
        assert_eq!(hex_write(&[0; LARGE], &mut text), (17, 0));
        assert!(text == vec![UNTOUCHED; 180_252]);
    }

    #[test]
    fn array_size() {
        for size in WRONG_SIZES {
            // With room, and with so little that 17 would be due.
            for length in [0, 1, 180_251, 180_252, 360_491, 360_492, 600_000] {
                let mut text = vec![UNTOUCHED; length];
                assert_eq!(hex_write(&vec![0; size], &mut text), (18, 0), "{size} {length}");
                assert!(text == vec![UNTOUCHED; length], "{size} {length}");
            }
        }
    }
}

mod read {
    use super::*;

    #[test]
    fn an_end_record_alone() {
        for size in SIZES {
            accepts(size, ":00000001FF\n", &[]);
            accepts(size, ":00000001FF\r\n", &[]);
            accepts(size, ":00000001FF", &[]);
            accepts(size, ":00000001ff", &[]);
        }
    }

    #[test]
    fn a_published_example() {
        let text = ":10010000214601360121470136007EFE09D2190140\n\
                    :100110002146017E17C20001FF5F16002148011928\n\
                    :10012000194E79234623965778239EDA3F01B2CAA7\n\
                    :100130003F0156702B5E712B722B732146013421C7\n\
                    :00000001FF\n";
        let bytes = [
            0x21, 0x46, 0x01, 0x36, 0x01, 0x21, 0x47, 0x01, 0x36, 0x00, 0x7E, 0xFE, 0x09, 0xD2, 0x19, 0x01, //
            0x21, 0x46, 0x01, 0x7E, 0x17, 0xC2, 0x00, 0x01, 0xFF, 0x5F, 0x16, 0x00, 0x21, 0x48, 0x01, 0x19, //
            0x19, 0x4E, 0x79, 0x23, 0x46, 0x23, 0x96, 0x57, 0x78, 0x23, 0x9E, 0xDA, 0x3F, 0x01, 0xB2, 0xCA, //
            0x3F, 0x01, 0x56, 0x70, 0x2B, 0x5E, 0x71, 0x2B, 0x72, 0x2B, 0x73, 0x21, 0x46, 0x01, 0x34, 0x21,
        ];
        for size in SIZES {
            accepts(size, text, &[(0x100, &bytes)]);
        }
    }

    #[test]
    fn either_case() {
        // 03 + 12 + CD + AB + CD + EF = 449, and 100 - 49 = B7.
        for line in [":0312CD00ABCDEFB7", ":0312cd00abcdefb7", ":0312Cd00aBCdEfb7"] {
            accepts(SMALL, format!("{line}\n{END}"), &[(0x12CD, &[0xAB, 0xCD, 0xEF])]);
        }
        // 01 + AB + FA = 1A6, and 100 - A6 = 5A.
        for line in [":0100AB00FA5A", ":0100ab00fa5a", ":0100Ab00Fa5A"] {
            accepts(SMALL, format!("{line}\n:00000001fF\n"), &[(0xAB, &[0xFA])]);
        }
    }

    #[test]
    fn every_digit_pair() {
        for value in 0..=255 {
            let upper = record(0x40, 0, &[value]);
            accepts(SMALL, format!("{upper}\n{END}"), &[(0x40, &[value])]);
            accepts(SMALL, format!("{}\n{END}", upper.to_lowercase()), &[(0x40, &[value])]);
        }
    }

    #[test]
    fn endings() {
        // 01 + 01 + AB = AD, and 100 - AD = 53.
        let changes: [(usize, &[u8]); 2] = [(0, &[0xAA]), (1, &[0xAB])];
        for first in ["\n", "\r\n"] {
            for second in ["\n", "\r\n"] {
                for last in ["\n", "\r\n", ""] {
                    let text = format!(":01000000AA55{first}:01000100AB53{second}:00000001FF{last}");
                    accepts(SMALL, text, &changes);
                }
            }
        }
    }

    #[test]
    fn upper_part_is_0_at_first() {
        accepts(LARGE, format!("{GOOD}{END}"), &[(0, &[0xAA])]);
    }

    #[test]
    fn upper_part_holds_for_all_records_behind_it() {
        // 01 + AB = AC, and 100 - AC = 54. 01 + 01 + AC = AE, and 100 - AE = 52.
        let text = format!("{GOOD}{UPPER_1}:01000000AB54\n:01000100AC52\n{END}");
        accepts(LARGE, text, &[(0, &[0xAA]), (65_536, &[0xAB, 0xAC])]);
    }

    #[test]
    fn the_latest_upper_part_counts() {
        let text = format!("{UPPER_FFFF}{UPPER_2}{UPPER_1}{GOOD}:020000040000FA\n:01000100AB53\n{END}");
        accepts(LARGE, text, &[(65_536, &[0xAA]), (1, &[0xAB])]);
    }

    #[test]
    fn an_upper_part_without_data_may_lie_anywhere() {
        for size in SIZES {
            accepts(size, format!("{GOOD}{UPPER_FFFF}{END}"), &[(0, &[0xAA])]);
            accepts(size, format!("{GOOD}{UPPER_2}{END}"), &[(0, &[0xAA])]);
        }
    }

    #[test]
    fn address_fields_of_01_and_04_are_not_judged() {
        // FF + FF + 01 = 1FF, and 100 - FF = 01.
        // 02 + 12 + 34 + 04 + 01 = 4D, and 100 - 4D = B3.
        accepts(SMALL, format!("{GOOD}:00FFFF0101\n"), &[(0, &[0xAA])]);
        accepts(LARGE, format!(":021234040001B3\n{GOOD}{END}"), &[(65_536, &[0xAA])]);
        // 02 + FF + FF + 04 + 01 = 205, and 100 - 05 = FB.
        accepts(LARGE, format!(":02FFFF040001FB\n{GOOD}{END}"), &[(65_536, &[0xAA])]);
    }

    #[test]
    fn later_records_win() {
        let first = record(0x10, 0, &[0x81, 0x82, 0x83, 0x84]);
        let second = record(0x12, 0, &[0x91, 0x92, 0x93]);
        accepts(
            SMALL,
            format!("{first}\n{second}\n{END}"),
            &[(0x10, &[0x81, 0x82, 0x91, 0x92, 0x93])],
        );
        accepts(
            SMALL,
            format!("{second}\n{first}\n{END}"),
            &[(0x10, &[0x81, 0x82, 0x83, 0x84, 0x93])],
        );
    }

    #[test]
    fn offset_is_high_byte_first() {
        // 01 + 12 + 34 + AA = F1, and 100 - F1 = 0F.
        accepts(SMALL, format!(":01123400AA0F\n{END}"), &[(0x1234, &[0xAA])]);
    }

    #[test]
    fn every_length() {
        let data: Vec<u8> = (0..255).map(|place| 0x80 | place).collect();
        for length in 0..=255 {
            let text = format!("{}\n{END}", record(0x2000, 0, &data[..length]));
            accepts(SMALL, text, &[(0x2000, &data[..length])]);
        }
    }

    #[test]
    fn records_in_any_order() {
        let text = format!("{UPPER_1}{GOOD}:020000040000FA\n:01FFFF00AA57\n{UPPER_1}:01FFFF00AA57\n:020000040000FA\n{GOOD}{END}");
        accepts(
            LARGE,
            text,
            &[(0, &[0xAA]), (65_535, &[0xAA]), (65_536, &[0xAA]), (131_071, &[0xAA])],
        );
    }
}

mod malformed {
    use super::*;

    #[test]
    fn no_colon() {
        for line in [
            "0",
            "00",
            "00000001FF",
            "000000001FF",
            ";00000001FF",
            "x:00000001FF",
            "00:000001FF",
            "00000001FF:",
        ] {
            faulty(SMALL, line, 12);
        }
    }

    #[test]
    fn more_than_one_colon() {
        for line in ["::", "::00000001FF", ":00000001FF:", ":00:000001FF", ":00000001FF:00000001FF"] {
            faulty(SMALL, line, 12);
        }
    }

    #[test]
    fn every_shorter_line() {
        for line in [":00000001FF", ":020000040000FA", ":01000000AA55", ":00000002FE"] {
            for length in 0..line.len() {
                faulty(SMALL, &line[..length], 12);
            }
        }
    }

    #[test]
    fn longer_lines() {
        for line in [":00000001FF", ":020000040000FA", ":01000000AA55", ":00000002FE"] {
            for more in ["0", "00", "000", "FF", "0000", "00000001FF"] {
                faulty(SMALL, format!("{line}{more}"), 12);
            }
        }
    }

    #[test]
    fn the_length_byte_rules() {
        // One data byte where two, none and FFh are asked. The checksums are
        // right: 02 + AA = AC, 00 + AA = AA, FF + AA = 1A9.
        for line in [":02000000AA54", ":00000000AA56", ":FF000000AA57"] {
            faulty(SMALL, line, 12);
        }
        // FFh bytes are asked: one too few, just enough, one too many.
        // FF + FF * AA = FF + A956 = AA55, and 100 - 55 = AB.
        let long = |count: usize| format!(":FF000000{}AB", "AA".repeat(count));
        faulty(SMALL, long(254), 12);
        accepts(SMALL, format!("{}\n{END}", long(255)), &[(0, &[0xAA; 255])]);
        faulty(SMALL, long(256), 12);
    }

    #[test]
    fn odd_digit() {
        for line in [
            ":0",
            ":000",
            ":00000001F",
            ":00000001FF0",
            ":0000001FF",
            ":01000000AA5",
            ":01000000A55",
        ] {
            faulty(SMALL, line, 12);
        }
    }

    #[test]
    fn empty_line() {
        faulty(SMALL, "", 12);
        for size in SIZES {
            refuses(size, "\n", 12, 0);
            refuses(size, "\r\n", 12, 0);
            refuses(size, "\n\n", 12, 0);
            refuses(size, format!("{GOOD}\n"), 12, 14);
            refuses(size, format!("{GOOD}\r\n"), 12, 14);
            refuses(size, format!(":01000000AA55\r\n\n{END}"), 12, 15);
        }
    }

    #[test]
    fn cr() {
        for size in SIZES {
            refuses(size, "\r", 12, 0);
            refuses(size, "\r\r\n", 12, 0);
            // At the end of the text.
            refuses(size, ":00000001FF\r", 12, 0);
            refuses(size, format!("{GOOD}:00000001FF\r"), 12, 14);
            refuses(size, format!("{GOOD}\r"), 12, 14);
            refuses(size, format!("{GOOD}:01000000AA55\r"), 12, 14);
            // Two before an LF.
            refuses(size, ":00000001FF\r\r\n", 12, 0);
            refuses(size, format!("{GOOD}:01000000AA55\r\r\n{END}"), 12, 14);
            // As an ending of its own.
            refuses(size, ":00000001FF\r\0", 12, 0);
            refuses(size, format!(":01000000AA55\r{END}"), 12, 0);
            refuses(size, format!("{GOOD}:01000000AA55\r{END}"), 12, 14);
            // In front, also behind an LF.
            refuses(size, format!("\r{END}"), 12, 0);
            refuses(size, format!("{GOOD}\r{END}"), 12, 14);
            // Within.
            refuses(size, ":00000001\rFF\n", 12, 0);
            refuses(size, ":\r00000001FF\n", 12, 0);
        }
    }

    #[test]
    fn blanks_and_nuls() {
        for strange in [" ", "\t", "\0"] {
            faulty(SMALL, strange, 12);
            faulty(SMALL, format!("{strange}:00000001FF"), 12);
            faulty(SMALL, format!(":{strange}00000001FF"), 12);
            faulty(SMALL, format!(":{strange}0000001FF"), 12);
            faulty(SMALL, format!(":00{strange}000001FF"), 12);
            faulty(SMALL, format!(":00{strange}{strange}000001FF"), 12);
            faulty(SMALL, format!(":00000001FF{strange}"), 12);
            faulty(SMALL, format!(":00000001FF{strange}{strange}"), 12);
        }
        refuses(SMALL, ":00000001FF \r\n", 12, 0);
        refuses(SMALL, ":00000001FF\r \n", 12, 0);
    }

    #[test]
    fn letters_behind_f() {
        for line in [
            ":0000000gFF",
            ":0000000GFF",
            ":g0000001FF",
            ":00000001Fg",
            ":01000000gA55",
            ":01000000Ag55",
        ] {
            faulty(SMALL, line, 12);
        }
    }

    #[test]
    fn signs_and_prefixes() {
        // Were + a leading 0, those with it would be good records.
        for line in [
            ":+0000001FF",
            ":00+00001FF",
            ":0000+001FF",
            ":000000+1FF",
            // 01 + 0A = 0B, and 100 - 0B = F5. 01 + FA = FB, and 100 - FB = 05.
            ":01000000+AF5",
            ":01000000FA+5",
            ":-0000001FF",
            ":0x000001FF",
            ":0_000001FF",
        ] {
            faulty(SMALL, line, 12);
        }
    }

    #[test]
    fn any_other_character_anywhere() {
        for line in [":00000001FF", ":01000000AA55"] {
            for place in 0..line.len() {
                for character in 0..=255u8 {
                    let is_fine = match place {
                        0 => character == b':',
                        _ => b"0123456789ABCDEFabcdef".contains(&character),
                    };
                    if !is_fine {
                        // An LF makes a shorter line of it, at the same place.
                        let mut changed = line.as_bytes().to_vec();
                        changed[place] = character;
                        refuses(SMALL, [&changed, b"\n".as_slice(), END.as_bytes()].concat(), 12, 0);
                        refuses(SMALL, [GOOD.as_bytes(), &changed, b"\r\n"].concat(), 12, 14);
                    }
                }
            }
        }
    }

    #[test]
    fn end_record_with_data() {
        // 01 + 01 = 02, and 100 - 02 = FE. 02 + 01 = 03, and 100 - 03 = FD.
        for line in [":0100000100FE", ":020000010000FD"] {
            faulty(SMALL, line, 12);
        }
        for length in 1..=255 {
            refuses(SMALL, format!("{GOOD}{}\n", record(0, 1, &vec![0; length])), 12, 14);
        }
    }

    #[test]
    fn upper_part_without_two_bytes() {
        // 04, and 100 - 04 = FC. 01 + 04 = 05, and 100 - 05 = FB.
        // 03 + 04 = 07, and 100 - 07 = F9. 04 + 04 = 08, and 100 - 08 = F8.
        for line in [":00000004FC", ":0100000400FB", ":03000004000000F9", ":0400000400000000F8"] {
            for size in SIZES {
                faulty(size, line, 12);
            }
        }
        for length in 0..=255 {
            let text = format!("{GOOD}{}\n{END}", record(0, 4, &vec![0; length]));
            match length {
                2 => accepts(SMALL, text, &[(0, &[0xAA])]),
                _ => refuses(SMALL, text, 12, 14),
            }
        }
    }
}

mod checksum {
    use super::*;

    #[test]
    fn one_off() {
        for line in [
            ":01000000AA54",
            ":01000000AA56",
            ":00000001FE",
            ":0000000100",
            ":020000040000F9",
            ":020000040000FB",
        ] {
            for size in SIZES {
                faulty(size, line, 13);
            }
        }
    }

    #[test]
    fn every_wrong_one() {
        for (line, right) in [
            (":01000000AA", 0x55),
            (":00000001", 0xFF),
            (":020000040000", 0xFA),
            (":00000000", 0x00),
            // Records that are refused for another reason if they add up.
            (":00000002", 0xFE),
            (":000000FF", 0x01),
            (":02FFFF00AABB", 0x9B),
        ] {
            for checksum in 0..=255 {
                if checksum != right {
                    refuses(SMALL, format!("{GOOD}{line}{checksum:02X}\n{END}"), 13, 14);
                }
            }
        }
    }

    #[test]
    fn every_byte_is_in_the_sum() {
        for line in [":01000000AB55", ":01000100AA55", ":01010000AA55", ":00000101FF", ":020000040001FA"] {
            faulty(SMALL, line, 13);
        }
        // The length as well: AA + AB = 155, and 100 - 55 = AB would be right
        // without it.
        faulty(SMALL, ":02000000AAABAB", 13);
    }

    #[test]
    fn the_sum_wraps() {
        // FF * FF = FE01, 01 + FF = 100: the checksum is 00.
        let long = |checksum: &str| format!(":FF000000{}{checksum}", "FF".repeat(255));
        accepts(SMALL, format!("{}\n{END}", long("00")), &[(0, &[0xFF; 255])]);
        faulty(SMALL, long("01"), 13);
        faulty(SMALL, long("FF"), 13);
    }
}

mod kind {
    use super::*;

    #[test]
    fn empty_records() {
        // 100 - 02 = FE, 100 - 03 = FD, 100 - 05 = FB, 100 - 06 = FA, 100 - FF = 01.
        for line in [":00000002FE", ":00000003FD", ":00000005FB", ":00000006FA", ":000000FF01"] {
            for size in SIZES {
                faulty(size, line, 14);
            }
        }
    }

    #[test]
    fn records_as_they_are_published() {
        // 02 + 02 + 10 = 14, and 100 - 14 = EC.
        // 04 + 03 + 38 = 3F, and 100 - 3F = C1.
        // 04 + 05 + CD = D6, and 100 - D6 = 2A.
        for line in [":020000021000EC", ":0400000300003800C1", ":04000005000000CD2A"] {
            for size in SIZES {
                faulty(size, line, 14);
            }
        }
    }

    #[test]
    fn every_type_with_many_lengths() {
        for kind in (0..=255).filter(|kind| ![0, 1, 4].contains(kind)) {
            for length in [0, 1, 2, 3, 4, 5, 16, 255] {
                let line = record(0xFFFF, kind, &vec![0xAA; length]);
                refuses(SMALL, format!("{GOOD}{line}\n{END}"), 14, 14);
            }
        }
    }
}

mod outside {
    use super::*;

    #[test]
    fn last_byte_of_the_small_array() {
        // 01 + FF + FF + AA = 2A9, and 100 - A9 = 57.
        accepts(SMALL, format!(":01FFFF00AA57\n{END}"), &[(65_535, &[0xAA])]);
        // 02 + FF + FE + AA + BB = 364, and 100 - 64 = 9C: 65,534 + 2 = 65,536.
        accepts(SMALL, format!(":02FFFE00AABB9C\n{END}"), &[(65_534, &[0xAA, 0xBB])]);
        // 02 + FF + FF + AA + BB = 365, and 100 - 65 = 9B: 65,535 + 2 = 65,537.
        faulty(SMALL, ":02FFFF00AABB9B", 15);
        refuses(SMALL, format!("{UPPER_1}{GOOD}{END}"), 15, 16);
    }

    #[test]
    fn last_byte_of_the_first_64_kib_of_the_large_array() {
        accepts(LARGE, format!(":01FFFF00AA57\n{END}"), &[(65_535, &[0xAA])]);
        accepts(LARGE, format!(":02FFFE00AABB9C\n{END}"), &[(65_534, &[0xAA, 0xBB])]);
        // Inside the array, but past its 64 KiB.
        faulty(LARGE, ":02FFFF00AABB9B", 15);
    }

    #[test]
    fn last_byte_of_the_large_array() {
        accepts(LARGE, format!("{UPPER_1}:01FFFF00AA57\n{END}"), &[(131_071, &[0xAA])]);
        accepts(LARGE, format!("{UPPER_1}:02FFFE00AABB9C\n{END}"), &[(131_070, &[0xAA, 0xBB])]);
        refuses(LARGE, format!("{UPPER_1}:02FFFF00AABB9B\n{END}"), 15, 16);
        refuses(LARGE, format!("{UPPER_2}{GOOD}{END}"), 15, 16);
    }

    #[test]
    fn every_length_at_the_edge() {
        let data = [0xAA; 255];
        for length in 1..=255 {
            let just = (65_536 - length) as u16;
            let inside = record(just, 0, &data[..length]);
            for size in SIZES {
                accepts(size, format!("{inside}\n{END}"), &[(65_536 - length, &data[..length])]);
            }
            accepts(LARGE, format!("{UPPER_1}{inside}\n{END}"), &[(131_072 - length, &data[..length])]);
            if length > 1 {
                let past = record(just + 1, 0, &data[..length]);
                for size in SIZES {
                    refuses(size, format!("{GOOD}{past}\n{END}"), 15, 14);
                }
                refuses(LARGE, format!("{UPPER_1}{past}\n{END}"), 15, 16);
            }
        }
    }

    #[test]
    fn upper_parts() {
        // The upper part 1 is past the small array and in the large one.
        for line in [GOOD, ":01FFFF00AA57\n"] {
            refuses(SMALL, format!("{UPPER_1}{line}{END}"), 15, 16);
        }
        accepts(LARGE, format!("{UPPER_1}{GOOD}{END}"), &[(65_536, &[0xAA])]);
        // 2 and FFFF are past both.
        for upper in [UPPER_2, UPPER_FFFF] {
            for line in [GOOD, ":01FFFF00AA57\n", ":02FFFF00AABB9B\n"] {
                for size in SIZES {
                    refuses(size, format!("{upper}{line}{END}"), 15, 16);
                    refuses(size, format!("{GOOD}{upper}{line}{END}"), 15, 30);
                }
            }
        }
    }

    #[test]
    fn every_bit_of_the_upper_part_counts() {
        for bit in 0..16 {
            let upper = record(0, 4, &(1u16 << bit).to_be_bytes());
            refuses(SMALL, format!("{upper}\n{GOOD}{END}"), 15, 16);
            if bit > 0 {
                refuses(LARGE, format!("{upper}\n{GOOD}{END}"), 15, 16);
            }
        }
        // 02 + 04 + 01 = 07, and 100 - 07 = F9: 0100, not 0001.
        refuses(LARGE, format!(":020000040100F9\n{GOOD}{END}"), 15, 16);
    }

    #[test]
    fn length_0_is_good_anywhere() {
        // FF + FF = 1FE, and 100 - FE = 02.
        for size in SIZES {
            for line in [":0000000000\n", ":00FFFF0002\n"] {
                accepts(size, format!("{line}{END}"), &[]);
                for upper in [UPPER_1, UPPER_2, UPPER_FFFF] {
                    accepts(size, format!("{GOOD}{upper}{line}{END}"), &[(0, &[0xAA])]);
                }
            }
        }
    }
}

mod end {
    use super::*;

    #[test]
    fn empty_text() {
        for size in SIZES {
            refuses(size, "", 16, 0);
        }
    }

    #[test]
    fn no_end_record() {
        for size in SIZES {
            refuses(size, ":01000000AA55", 16, 13);
            refuses(size, ":01000000AA55\n", 16, 14);
            refuses(size, ":01000000AA55\r\n", 16, 15);
            refuses(size, UPPER_1, 16, 16);
            refuses(size, format!("{GOOD}{GOOD}{GOOD}"), 16, 42);
            refuses(size, ":0000000000", 16, 11);
        }
    }

    #[test]
    fn no_end_record_comes_after_every_earlier_fault() {
        for (line, refusal) in [("x", 12), (":01000000AA54", 13), (":00000002FE", 14), (":02FFFF00AABB9B", 15)] {
            refuses(SMALL, line, refusal, 0);
            refuses(SMALL, format!("{GOOD}{line}\n{GOOD}"), refusal, 14);
        }
    }

    #[test]
    fn text_after_it() {
        for more in [
            "\n",
            "\r",
            "\0",
            " ",
            "\r\n",
            "x",
            ":",
            "\x1A",
            ":00000001FF",
            END,
            GOOD,
            ":01000000AA54\n",
            ":00000002FE\n",
            ":02FFFF00AABB9B\n",
        ] {
            for size in SIZES {
                refuses(size, format!(":00000001FF\n{more}"), 16, 12);
                refuses(size, format!(":00000001FF\r\n{more}"), 16, 13);
                refuses(size, format!("{GOOD}:00000001FF\n{more}"), 16, 26);
                refuses(size, format!("{GOOD}:00000001FF\r\n{more}"), 16, 27);
            }
        }
    }

    #[test]
    fn every_single_character_after_it() {
        for character in 0..=255 {
            refuses(SMALL, [END.as_bytes(), &[character]].concat(), 16, 12);
        }
    }

    #[test]
    fn a_faulty_end_record_is_none() {
        refuses(SMALL, format!("{GOOD}:00000001FE\n"), 13, 14);
        refuses(SMALL, format!("{GOOD}:0100000100FE\n"), 12, 14);
    }

    #[test]
    fn text_cut_anywhere() {
        let text = ":020000040001F9\n:01000000AA55\r\n:00000001FF\n";
        for length in 0..=43 {
            let cut = &text[..length];
            match length {
                0 | 15 | 16 | 29 | 31 => refuses(LARGE, cut, 16, length),
                1..=14 => refuses(LARGE, cut, 12, 0),
                // 30 cuts between CR and LF.
                17..=28 | 30 => refuses(LARGE, cut, 12, 16),
                32..=41 => refuses(LARGE, cut, 12, 31),
                _ => accepts(LARGE, cut, &[(65_536, &[0xAA])]),
            }
        }
        assert_eq!(text.len(), 43);
    }
}

mod array_size {
    use super::*;

    #[test]
    fn it_comes_before_all_others() {
        for size in WRONG_SIZES {
            for text in [
                "",
                "x",
                "\n",
                ":00000001FF\n",
                ":01000000AA55\n:00000001FF\n",
                ":01000000AA54\n",
                ":00000002FE\n",
                ":02FFFF00AABB9B\n",
                ":01000000AA55\n",
                ":00000001FF\n\n",
            ] {
                refuses(size, text, 18, 0);
            }
        }
    }
}

mod order {
    use super::*;

    /// A faulty record for each number, without its ending.
    const FAULTS: [(u64, &str); 4] = [
        (12, ":01000000AA550"),
        (13, ":01000000AA54"),
        (14, ":00000002FE"),
        (15, ":02FFFF00AABB9B"),
    ];

    #[test]
    fn malformed_before_checksum() {
        for line in [
            // Data in 01, and one byte and three in 04, without the sum.
            ":0100000100FF",
            ":0100000400FF",
            ":03000004000000FF",
            ":00000004FF",
            // Too long, too short, a wrong digit.
            ":01000000AA5400",
            ":02000000AA55",
            ":01000000AG54",
        ] {
            faulty(SMALL, line, 12);
        }
    }

    #[test]
    fn malformed_before_type() {
        for line in [
            ":00000002FE0",
            ":00000002F",
            ":01000002FD",
            ":0000000200FE",
            " :00000002FE",
            ":000000FF0g",
        ] {
            faulty(SMALL, line, 12);
        }
    }

    #[test]
    fn malformed_before_outside() {
        for line in [":02FFFF00AABB", ":02FFFF00AABB9B0", ":02FFFF00AABB9g"] {
            for size in SIZES {
                faulty(size, line, 12);
            }
        }
        refuses(SMALL, format!("{UPPER_1}:01000000AA5\n{END}"), 12, 16);
    }

    #[test]
    fn checksum_before_type() {
        for line in [
            ":0000000200",
            ":00000003FE",
            ":00000005FF",
            ":00000006F9",
            ":000000FFFF",
            ":020000021000ED",
        ] {
            faulty(SMALL, line, 13);
        }
    }

    #[test]
    fn checksum_before_outside() {
        for size in SIZES {
            faulty(size, ":02FFFF00AABB9C", 13);
            refuses(size, format!("{UPPER_FFFF}:01000000AA54\n{END}"), 13, 16);
        }
        refuses(SMALL, format!("{UPPER_1}:01000000AA56\n{END}"), 13, 16);
    }

    #[test]
    fn type_before_outside() {
        // As data they would be outside: 02 + FF + FF + 02 + AA + BB = 367,
        // and 100 - 67 = 99. 01 + 02 + AA = AD, and 100 - AD = 53.
        for size in SIZES {
            faulty(size, ":02FFFF02AABB99", 14);
            refuses(size, format!("{UPPER_FFFF}:01000002AA53\n{END}"), 14, 16);
        }
    }

    #[test]
    fn the_first_faulty_record_decides() {
        for (refusal, first) in FAULTS {
            for (_, second) in FAULTS {
                for size in SIZES {
                    refuses(size, format!("{first}\n{second}\n{END}"), refusal, 0);
                    refuses(size, format!("{GOOD}{first}\n{GOOD}{second}\n{END}"), refusal, 14);
                    refuses(size, format!("{GOOD}{GOOD}{first}\r\n{second}"), refusal, 28);
                    refuses(size, format!("{GOOD}{first}\n{second}\n{END}{second}\n"), refusal, 14);
                    refuses(size, format!("{GOOD}{END}{first}\n{second}\n"), 16, 26);
                }
            }
        }
    }

    #[test]
    fn places_count_every_character() {
        for (refusal, line) in FAULTS {
            // 14 + 15 + 17 + 14 characters before it.
            let text = format!("{GOOD}:01000000AA55\r\n:020000040000FA\r\n{GOOD}{line}\n{END}");
            for size in SIZES {
                refuses(size, &text, refusal, 60);
            }
        }
    }

    #[test]
    fn a_refused_read_undoes_records_in_both_64_kib() {
        for (refusal, line) in FAULTS {
            refuses(LARGE, format!("{GOOD}{UPPER_1}{GOOD}{line}\n{END}"), refusal, 44);
        }
        refuses(LARGE, format!("{GOOD}{UPPER_1}{GOOD}"), 16, 44);
        refuses(LARGE, format!("{GOOD}{UPPER_1}{GOOD}{END}{END}"), 16, 56);
    }
}

mod round_trip {
    use super::*;

    /// Reads a text into an array that differs from the wanted one in every
    /// byte.
    fn gives(text: &[u8], wanted: &[u8]) {
        let mut array: Vec<u8> = wanted.iter().map(|byte| !byte).collect();
        assert_eq!(hex_read(text, &mut array), (0, 0));
        assert!(array == wanted);
    }

    #[test]
    fn reading_what_was_written() {
        for size in SIZES {
            for array in [vec![0; size], vec![0xFF; size], patterned(size)] {
                gives(&written(&array), &array);
            }
            for seed in 0..20 {
                let array = scrambled(size, seed);
                gives(&written(&array), &array);
            }
        }
    }

    #[test]
    fn in_other_forms() {
        for size in SIZES {
            let array = scrambled(size, 77);
            let text = String::from_utf8(written(&array)).unwrap();
            gives(text.trim_end().as_bytes(), &array);
            gives(text.to_lowercase().as_bytes(), &array);
            gives(text.replace('\n', "\r\n").as_bytes(), &array);
            let mixed: String = text
                .lines()
                .enumerate()
                .map(|(number, line)| format!("{line}{}", ["\n", "\r\n", "\r\n"][number % 3]))
                .collect();
            gives(mixed.as_bytes(), &array);
        }
    }

    #[test]
    fn with_the_data_records_backwards() {
        let array = scrambled(SMALL, 78);
        let text = String::from_utf8(written(&array)).unwrap();
        let mut lines: Vec<&str> = text.lines().collect();
        let data_records = 1..lines.len() - 1;
        lines[data_records].reverse();
        gives(lines.join("\n").as_bytes(), &array);
    }

    #[test]
    fn the_small_text_into_the_large_array() {
        let small = scrambled(SMALL, 79);
        accepts(LARGE, written(&small), &[(0, &small)]);
    }

    #[test]
    fn the_large_text_into_the_small_array() {
        // 180,240 characters of the first 64 KiB, 16 of the upper part.
        refuses(SMALL, written(&scrambled(LARGE, 80)), 15, 180_256);
    }

    #[test]
    fn a_changed_digit_is_found() {
        let array = scrambled(SMALL, 81);
        let whole = written(&array);
        // The digits of the data of some records.
        for number in [0, 1, 2_047, 4_095] {
            let line = 16 + 44 * number;
            for place in line + 9..line + 41 {
                let mut text = whole.clone();
                text[place] = if text[place] == b'0' { b'1' } else { b'0' };
                refuses(SMALL, text, 13, line);
            }
        }
    }
}

mod extremes {
    use super::*;

    /// Characters that come near to a record.
    const CHARACTERS: &[u8] = b":::::0000000123456789abcdefABCDEFgG+- \t\r\r\n\n\n\0\xFF";

    /// Reads any text and checks what holds for every answer.
    fn attempt(text: &[u8], array: &mut [u8]) {
        let before = array.to_vec();
        let (refusal, place) = hex_read(text, array);
        assert!(matches!(refusal, 0 | 12..=16), "{}", text.escape_ascii());
        assert!(place <= text.len(), "{}", text.escape_ascii());
        if refusal == 0 {
            assert_eq!(place, 0, "{}", text.escape_ascii());
        } else {
            assert!(place == 0 || text[place - 1] == b'\n' || (refusal, place) == (16, text.len()));
            assert!(array == before, "{}", text.escape_ascii());
        }
    }

    #[test]
    fn no_text_makes_the_reader_panic() {
        let mut array = patterned(SMALL);
        let choices = scrambled(100_000, 90);
        for (length, chosen) in choices.chunks(50).enumerate() {
            let text: Vec<u8> = chosen
                .iter()
                .map(|&choice| CHARACTERS[usize::from(choice) % CHARACTERS.len()])
                .collect();
            attempt(&text[..length % 51], &mut array);
        }
        for text in choices.chunks(100) {
            attempt(text, &mut array);
        }
    }

    #[test]
    fn no_change_of_a_good_text_makes_the_reader_panic() {
        let mut array = patterned(LARGE);
        let text = format!("{UPPER_1}:02FFFE00AABB9C\r\n{GOOD}{END}");
        for place in 0..text.len() {
            for &character in CHARACTERS {
                let mut changed = text.as_bytes().to_vec();
                changed[place] = character;
                attempt(&changed, &mut array);
                changed.insert(place, character);
                attempt(&changed, &mut array);
            }
            let mut changed = text.as_bytes().to_vec();
            changed.remove(place);
            attempt(&changed, &mut array);
        }
    }

    #[test]
    fn a_line_without_an_end() {
        let mut array = patterned(SMALL);
        for character in [b':', b'0', b'F', b'\r', b'\n', 0, 0xFF] {
            let mut text = vec![character; 1_000_000];
            assert_eq!(hex_read(&text, &mut array), (12, 0));
            text[0] = b':';
            assert_eq!(hex_read(&text, &mut array), (12, 0));
        }
        assert!(array == patterned(SMALL));
    }
}
