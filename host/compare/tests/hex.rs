//! Images as Intel HEX: what is written and read back, every refusal at and beside its limit, faults in pairs, texts that were cut or
//! changed at any character, and words of another length: 255.
use compare::hex::{checksum_off, record, written, Reply, Trial, DATA, END, UPPER};
use compare::Random;
use oxterin::Size;

/// Sizes of the array, most of which are refused.
const LENGTHS: [usize; 9] = [0, 1, 65_535, 65_536, 65_537, 131_071, 131_072, 131_073, 262_144];

/// The longest array that is lent.
const ROOM: usize = 262_144;

/// The two line endings.
const ENDINGS: [&[u8]; 2] = [b"\n", b"\r\n"];

/// The end record.
const LAST: &[u8] = b":00000001FF";

/// All sizes that are allowed.
fn sizes() -> [usize; 2] {
    Size::ALL.map(Size::bytes)
}

/// How many characters are written for an allowed size.
fn characters(size: usize) -> usize {
    match size {
        65_536 => 180_252,
        _ => 360_492,
    }
}

/// What an array may hold: all FFh, all 00h, a ramp whose steps tell pages apart, and bytes that follow no order.
fn contents(length: usize) -> [Vec<u8>; 4] {
    let mut random = Random::seeded(length as u64);
    let ramp = (0..length).map(|place| (place + place / 256) as u8).collect();
    let any = (0..length).map(|_| random.byte()).collect();
    [vec![0xFF; length], vec![0x00; length], ramp, any]
}

/// Lines with an ending after each.
fn text(lines: &[&[u8]], ending: &[u8]) -> Vec<u8> {
    lines.iter().flat_map(|line| [line, ending].concat()).collect()
}

/// Where the line begins to which the character at this place belongs.
fn line_start(text: &[u8], place: usize) -> usize {
    let feed = text[..place].iter().rposition(|&character| character == b'\n');
    feed.map_or(0, |feed| feed + 1)
}

/// Reads a text on all sides, which have to give this refusal and place.
fn gives(trial: &mut Trial, text: &[u8], array: usize, refusal: u64, place: usize) {
    let shown = || text[..text.len().min(600)].escape_ascii();
    match trial.read(text, array) {
        Ok(reply) => {
            let word = place as u64;
            assert_eq!(reply, Reply { refusal, word }, "an array of {array} bytes and {}", shown());
        }
        Err(difference) => panic!("{difference}\nan array of {array} bytes and {}", shown()),
    }
}

/// Writes on all sides, which have to give this refusal and so many characters.
fn writes(trial: &mut Trial, array: usize, room: usize, refusal: u64, characters: usize) {
    match trial.write(array, room) {
        Ok(reply) => {
            let word = characters as u64;
            assert_eq!(reply, Reply { refusal, word }, "an array of {array} bytes, room for {room}");
        }
        Err(difference) => panic!("{difference}\nan array of {array} bytes, room for {room}"),
    }
}

/// A line between a good record and the end record, with either ending and either size, has to be judged so; 0 is accepted.
fn judged(line: &[u8], refusal: u64) {
    judged_after(&record(DATA, 0x0100, &[0x5A]), line, refusal);
}

/// The same after any good record.
fn judged_after(first: &[u8], line: &[u8], refusal: u64) {
    for ending in ENDINGS {
        let place = if refusal == 0 { 0 } else { first.len() + ending.len() };
        on_both_sizes(&text(&[first, line, LAST], ending), refusal, place);
    }
}

/// A text that has to give this refusal and place with either size.
fn on_both_sizes(text: &[u8], refusal: u64, place: usize) {
    for size in sizes() {
        gives(&mut Trial::new(size), text, size, refusal, place);
    }
}

#[test]
fn texts_are_written_as_laid_out() {
    for size in sizes() {
        let mut trial = Trial::new(size);
        let needed = characters(size);
        for content in contents(size) {
            trial.put(&content);
            let expected = written(&content);
            for room in [needed, needed + 1, needed + 44, 2 * needed] {
                writes(&mut trial, size, room, 0, needed);
                assert!(trial.text()[..needed] == expected);
            }
            for room in [0, 1, 16, needed / 2, needed - 12, needed - 1] {
                writes(&mut trial, size, room, 17, 0);
            }
            assert!(oxterin::hex_text(&content).is_ok_and(|text| text == expected));
        }
    }
}

#[test]
fn arrays_of_another_size_are_refused_before_all_else() {
    let mut trial = Trial::new(ROOM);
    let fault = |kind: u8| text(&[&record(kind, 0xFFFF, &[1, 2]), LAST], b"\n");
    let texts = [
        b"".to_vec(),
        b"G".to_vec(),
        fault(END),
        checksum_off(LAST, 1),
        fault(0x02),
        fault(DATA),
        text(&[&record(DATA, 0, &[])], b"\n"),
        text(&[LAST, LAST], b"\n"),
        text(&[LAST], b"\n"),
    ];
    for length in LENGTHS.into_iter().filter(|length| !sizes().contains(length)) {
        for room in [0, 180_251, 180_252, 360_491, 360_492, 800_000] {
            writes(&mut trial, length, room, 18, 0);
        }
        for text in &texts {
            gives(&mut trial, text, length, 18, 0);
        }
        let error = oxterin::hex_text(&vec![0xFF; length]).expect_err("the array has another size");
        assert_eq!((error.refusal.number(), error.place), (18, 0));
    }
    for size in sizes() {
        writes(&mut trial, size, characters(size), 0, characters(size));
        for (text, refusal) in texts.iter().zip([16, 12, 12, 13, 14, 15, 16, 16, 0]) {
            let place = match refusal {
                16 => text.len().min(12),
                _ => 0,
            };
            gives(&mut trial, text, size, refusal, place);
        }
    }
}

#[test]
fn what_was_written_is_read_back() {
    for size in sizes() {
        let mut trial = Trial::new(ROOM);
        for content in contents(size) {
            let text = written(&content);
            let crlf: Vec<u8> = text.split(|&character| character == b'\n').collect::<Vec<_>>().join(&b"\r\n"[..]);
            for text in [
                &text,
                &text[..text.len() - 1],
                &text.to_ascii_lowercase(),
                &crlf,
                &crlf[..crlf.len() - 2],
            ] {
                for held in contents(size) {
                    trial.put(&held);
                    gives(&mut trial, text, size, 0, 0);
                    assert!(trial.array()[..size] == content);
                }
            }
        }
    }
}

#[test]
fn a_text_for_the_other_size() {
    let [small, whole] = sizes();
    let mut trial = Trial::new(ROOM);
    let [_, _, ramp, any] = contents(whole);
    trial.put(&any);
    gives(&mut trial, &written(&ramp), small, 15, 180_256);
    gives(&mut trial, &written(&ramp[..small]), whole, 0, 0);
    assert!(trial.array()[..small] == ramp[..small]);
    assert!(trial.array()[small..whole] == any[small..]);
}

#[test]
fn a_fault_in_a_long_text_leaves_the_array() {
    for size in sizes() {
        let mut trial = Trial::new(size);
        let [_, _, ramp, any] = contents(size);
        trial.put(&any);
        let good = written(&ramp);
        for place in [
            0,
            16,
            60,
            90_000,
            good.len() - 56,
            good.len() - 14,
            good.len() - 12,
            good.len() - 2,
            good.len() - 1,
        ] {
            let mut spoilt = good.clone();
            spoilt[place] = b'g';
            gives(&mut trial, &spoilt, size, 12, line_start(&good, place));
        }
        gives(&mut trial, &good[..good.len() - 12], size, 16, good.len() - 12);
        gives(&mut trial, &[&good[..], b"\0"].concat(), size, 16, good.len());
        assert!(trial.array() == any);
        gives(&mut trial, &good, size, 0, 0);
        assert!(trial.array() == ramp);
    }
}

#[test]
fn later_records_win_and_bytes_not_named_stay() {
    for size in sizes() {
        let mut trial = Trial::new(size);
        let mut expected = trial.array().to_vec();
        let records = [
            record(DATA, 0x1000, &[1, 2, 3, 4]),
            record(UPPER, 0x1234, &(size as u32 / 65_536 - 1).to_be_bytes()[2..]),
            record(DATA, 0xFFFE, &[5, 6]),
            record(DATA, 0xFFFD, &[7, 8]),
            record(UPPER, 0, &[0, 0]),
            record(DATA, 0x1001, &[9, 10]),
            record(END, 0xABCD, &[]),
        ];
        let lines: Vec<&[u8]> = records.iter().map(Vec::as_slice).collect();
        gives(&mut trial, &text(&lines, b"\n"), size, 0, 0);
        expected[0x1000..0x1004].copy_from_slice(&[1, 9, 10, 4]);
        expected[size - 3..].copy_from_slice(&[7, 8, 6]);
        assert!(trial.array() == expected);
    }
}

/// 12: lines that are not a colon and the digit pairs that their length asks for.
mod twelve {
    use super::*;

    #[test]
    fn the_length_rules_the_line() {
        let data = [0xA5; 255];
        for length in 0..=255 {
            let good = record(DATA, 0x2000, &data[..length]);
            judged(&good, 0);
            judged(&good[..good.len() - 1], 12);
            judged(&good[..good.len() - 2], 12);
            judged(&[&good[..], b"0"].concat(), 12);
            judged(&[&good[..], b"00"].concat(), 12);
        }
    }

    #[test]
    fn an_end_has_no_data_and_an_upper_part_has_two_bytes() {
        let data = [0; 255];
        for length in 0..=255 {
            judged(&record(UPPER, 0, &data[..length]), if length == 2 { 0 } else { 12 });
            if length > 0 {
                judged(&record(END, 0, &data[..length]), 12);
            }
        }
    }

    #[test]
    fn lines_of_other_characters() {
        let good = record(DATA, 0x2000, &[0xAB, 0xCD]);
        for stray in [&b" "[..], b"\t", b"\0", b"\r\r", b":", b"\xEF\xBB\xBF", b"\x0B", b"\x1A", b"\xA0"] {
            for place in 0..=good.len() {
                judged(&[&good[..place], stray, &good[place..]].concat(), 12);
            }
        }
        for line in [&b""[..], b":", b":0", b":00", b"00000001FF", b";00000001FF", b"#", b"::"] {
            judged(line, 12);
        }
    }

    #[test]
    fn one_carriage_return_belongs_to_the_line_feed_behind_it() {
        let good = record(DATA, 0x2000, &[0xAB, 0xCD]);
        for place in 0..good.len() {
            judged(&[&good[..place], b"\r", &good[place..]].concat(), 12);
        }
        let behind = good.len() + 1;
        for (ending, refusal, place) in [
            (&b"\n"[..], 0, 0),
            (b"\r\n", 0, 0),
            (b"\r\r\n", 12, 0),
            (b"\r", 12, 0),
            (b"\n\r", 12, behind),
            (b"\n\r\n", 12, behind),
            (b"\r\n\r", 12, behind + 1),
        ] {
            on_both_sizes(&[&good, ending, LAST].concat(), refusal, place);
        }
        for (ending, refusal, place) in [
            (&b""[..], 0, 0),
            (b"\n", 0, 0),
            (b"\r\n", 0, 0),
            (b"\r", 12, 0),
            (b"\r\r\n", 12, 0),
            (b"\n\r", 16, 12),
            (b"\r\n\n", 16, 13),
        ] {
            on_both_sizes(&[LAST, ending].concat(), refusal, place);
        }
    }

    #[test]
    fn the_neighbours_of_the_digits_are_none() {
        let good = record(DATA, 0x2000, &[0xAB, 0xCD]);
        for neighbour in *b"/:@G`g" {
            for place in 1..good.len() {
                let mut line = good.clone();
                line[place] = neighbour;
                judged(&line, 12);
            }
        }
    }

    #[test]
    fn empty_lines_anywhere() {
        let good = record(DATA, 0, &[1]);
        for ending in ENDINGS {
            for place in 0..2 {
                let mut lines = vec![&good[..], LAST];
                lines.insert(place, b"");
                on_both_sizes(&text(&lines, ending), 12, place * (good.len() + ending.len()));
            }
            on_both_sizes(ending, 12, 0);
        }
    }
}

/// 13 and 14: checksums and types.
mod thirteen_and_fourteen {
    use super::*;

    #[test]
    fn of_256_checksums_one_is_right() {
        for good in [
            record(DATA, 0x2000, &[]),
            record(DATA, 0x2000, &[0x5A; 16]),
            record(DATA, 0x0000, &[0xFF; 255]),
            record(UPPER, 0x8000, &[0, 0]),
        ] {
            judged(&good, 0);
            for by in 1..=255 {
                judged(&checksum_off(&good, by), 13);
            }
        }
        for by in 1..=255 {
            judged(&checksum_off(LAST, by), 13);
        }
    }

    #[test]
    fn of_256_types_three_are_taken() {
        for kind in 0..=255 {
            for length in [0, 1, 2, 4, 255] {
                let refusal = match (kind, length) {
                    (DATA, _) | (UPPER, 2) => 0,
                    (END, 0) => continue, // the end record behind it would be text after the end
                    (END | UPPER, _) => 12,
                    _ => 14,
                };
                let line = record(kind, 0, &[0; 255][..length]);
                judged(&line, refusal);
                judged(&checksum_off(&line, 1), if refusal == 12 { 12 } else { 13 });
            }
        }
    }
}

/// 15: data past their 64 KiB, or outside of the array.
mod fifteen {
    use super::*;

    #[test]
    fn data_end_with_their_64_kib() {
        for length in [1, 2, 16, 254, 255] {
            let data = vec![0x5A; length];
            let last = u16::try_from(65_536 - length).expect("a record has some data");
            judged(&record(DATA, last - 1, &data), 0);
            judged(&record(DATA, last, &data), 0);
            for over in 1..length as u16 {
                judged(&record(DATA, last + over, &data), 15);
            }
        }
    }

    #[test]
    fn data_lie_in_the_array() {
        for size in sizes() {
            let mut trial = Trial::new(size);
            for upper in [0, 1, 2, 3, 0x00FF, 0x0100, 0x0101, 0x7FFF, 0x8000, 0xFFFE, 0xFFFF] {
                let first = record(UPPER, 0, &u16::to_be_bytes(upper));
                for (offset, length) in [(0, 1), (0, 255), (0x7FFF, 2), (0xFFFF, 1), (0xFF01, 255)] {
                    let is_inside = usize::from(upper) < size / 65_536;
                    let (refusal, place) = if is_inside { (0, 0) } else { (15, 16) };
                    let line = record(DATA, offset, &vec![0x5A; length]);
                    gives(&mut trial, &text(&[&first, &line, LAST], b"\n"), size, refusal, place);
                }
                let line = record(DATA, 0xFF02, &[0x5A; 255]);
                gives(&mut trial, &text(&[&first, &line, LAST], b"\n"), size, 15, 16);
            }
        }
    }

    #[test]
    fn a_record_without_data_is_good_anywhere() {
        for upper in [0u16, 1, 2, 0x0100, 0xFFFF] {
            for offset in [0, 1, 0x7FFF, 0xFFFE, 0xFFFF] {
                judged_after(&record(UPPER, 0, &upper.to_be_bytes()), &record(DATA, offset, &[]), 0);
            }
        }
    }

    #[test]
    fn an_upper_part_alone_is_good() {
        for upper in [0u16, 1, 2, 0x0100, 0xFFFF] {
            judged(&record(UPPER, 0xFFFF, &upper.to_be_bytes()), 0);
        }
    }
}

/// 16: no end record, or text behind it.
mod sixteen {
    use super::*;

    #[test]
    fn no_end_record() {
        let data = record(DATA, 0x2000, &[0x5A; 3]);
        let upper = record(UPPER, 0, &[0, 0]);
        for size in sizes() {
            let mut trial = Trial::new(size);
            gives(&mut trial, b"", size, 16, 0);
            for ending in ENDINGS {
                for lines in [&[&data[..]][..], &[&upper], &[&upper, &data], &[&data, &data, &upper]] {
                    let whole = text(lines, ending);
                    let open = &whole[..whole.len() - ending.len()];
                    gives(&mut trial, &whole, size, 16, whole.len());
                    gives(&mut trial, open, size, 16, open.len());
                    gives(&mut trial, &[open, ending, LAST].concat(), size, 0, 0);
                }
            }
        }
    }

    #[test]
    fn any_character_behind_the_end_record() {
        for size in sizes() {
            let mut trial = Trial::new(size);
            for ending in ENDINGS {
                let end = text(&[LAST], ending);
                gives(&mut trial, &end, size, 0, 0);
                for character in 0..=255 {
                    gives(&mut trial, &[&end[..], &[character]].concat(), size, 16, end.len());
                    gives(&mut trial, &[&end[..], &[character], LAST].concat(), size, 16, end.len());
                    let joined = [LAST, &[character]].concat();
                    let refusal = if character == b'\n' { 0 } else { 12 };
                    gives(&mut trial, &joined, size, refusal, 0);
                }
                gives(&mut trial, &[&end[..], &end].concat(), size, 16, end.len());
                gives(&mut trial, &[&end[..], &[b' '; 70_000]].concat(), size, 16, end.len());
            }
        }
    }
}

/// Two faults in a text: the first record decides, and in it the lower number.
mod pairs {
    use super::*;

    /// A fault: its number, the lines that it needs before it, and its own.
    struct Fault {
        number: u64,
        before: Vec<Vec<u8>>,
        line: Vec<u8>,
    }

    /// Faults of a record, several for each number.
    fn faults() -> Vec<Fault> {
        let good = record(DATA, 0x2000, &[1, 2, 3]);
        let upper = |upper: u16| record(UPPER, 0, &upper.to_be_bytes());
        let fault = |number, line: Vec<u8>| Fault {
            number,
            before: Vec::new(),
            line,
        };
        let outside = |part: u16| Fault {
            number: 15,
            before: vec![upper(part)],
            line: good.clone(),
        };
        vec![
            fault(12, b"".to_vec()),
            fault(12, b"no record".to_vec()),
            fault(12, good[1..].to_vec()),
            fault(12, good[..good.len() - 1].to_vec()),
            fault(12, [&good[..], b"\r\r"].concat()),
            fault(12, [&good[..], b" "].concat()),
            fault(12, [&good[..], b"00"].concat()),
            fault(12, record(END, 0, &[0])),
            fault(12, record(UPPER, 0, &[0])),
            fault(12, record(UPPER, 0, &[0, 0, 0])),
            fault(13, checksum_off(&good, 1)),
            fault(13, checksum_off(LAST, 0xFF)),
            fault(13, checksum_off(&upper(0), 0x80)),
            fault(14, record(0x02, 0, &[0x10, 0x00])),
            fault(14, record(0x03, 0, &[0, 0, 0, 0])),
            fault(14, record(0x05, 0, &[0, 0, 0, 0])),
            fault(14, record(0xFF, 0, &[])),
            fault(15, record(DATA, 0xFFFF, &[1, 2])),
            outside(2),
            outside(0xFFFF),
        ]
    }

    /// A good record, and the lines of a fault behind it, its own the last.
    fn lines_of<'a>(good: &'a [u8], fault: &'a Fault) -> Vec<&'a [u8]> {
        let before = fault.before.iter().map(Vec::as_slice);
        [good].into_iter().chain(before).chain([&fault.line[..]]).collect()
    }

    #[test]
    fn in_two_records_the_first_decides() {
        let good = record(DATA, 0x0100, &[0x5A; 4]);
        let faults = faults();
        for size in sizes() {
            let mut trial = Trial::new(size);
            for ending in ENDINGS {
                for first in &faults {
                    let lines = lines_of(&good, first);
                    let place = text(&lines[..lines.len() - 1], ending).len();
                    for second in &faults {
                        let both = [lines.clone(), lines_of(&good, second), vec![LAST]].concat();
                        gives(&mut trial, &text(&both, ending), size, first.number, place);
                    }
                }
            }
        }
    }

    #[test]
    fn a_fault_and_a_missing_end_or_text_behind_it() {
        let good = record(DATA, 0x0100, &[0x5A; 4]);
        for size in sizes() {
            let mut trial = Trial::new(size);
            for ending in ENDINGS {
                for fault in faults() {
                    let lines = lines_of(&good, &fault);
                    let place = text(&lines[..lines.len() - 1], ending).len();
                    let faulty = text(&lines, ending);
                    gives(&mut trial, &faulty, size, fault.number, place);
                    gives(&mut trial, &[&faulty[..], LAST, b"\n\n"].concat(), size, fault.number, place);
                    let end = text(&[&good, LAST], ending);
                    gives(&mut trial, &[&end[..], &fault.line, ending, LAST].concat(), size, 16, end.len());
                }
            }
        }
    }

    #[test]
    fn in_one_record_the_lower_number_decides() {
        let outside = record(DATA, 0xFFFF, &[1, 2]);
        let other = record(0x02, 0xFFFF, &[1, 2]);
        for (kind, length) in [(END, 1), (END, 255), (UPPER, 0), (UPPER, 1), (UPPER, 3)] {
            judged(&checksum_off(&record(kind, 0, &[0; 255][..length]), 1), 12);
        }
        for record in [
            outside.clone(),
            other.clone(),
            record(DATA, 0x2000, &[7]),
            record(0x05, 0, &[]),
            checksum_off(&other, 1),
        ] {
            for line in malformed(&record) {
                judged(&line, 12);
            }
        }
        let far = record(UPPER, 0, &[0xFF, 0xFF]);
        let inside_elsewhere = record(DATA, 0x2000, &[7]);
        for line in malformed(&inside_elsewhere) {
            judged_after(&far, &line, 12);
        }
        judged_after(&far, &checksum_off(&inside_elsewhere, 1), 13);
        judged_after(&far, &inside_elsewhere, 15);
        judged_after(&far, &other, 14);
        judged(&checksum_off(&outside, 1), 13);
        judged(&outside, 15);
        for kind in (0..=255).filter(|kind| ![DATA, END, UPPER].contains(kind)) {
            let other = super::record(kind, 0xFFFF, &[1, 2]);
            judged(&other, 14);
            judged(&checksum_off(&other, 0xFF), 13);
        }
    }

    /// A record malformed in several ways, most of which also spoil its checksum.
    fn malformed(record: &[u8]) -> Vec<Vec<u8>> {
        let (middle, length) = (record.len() / 2, record.len());
        let mut bad_digit = record.to_vec();
        bad_digit[middle] = b'G';
        let mut last_digit = record.to_vec();
        last_digit[length - 1] = b'x';
        let mut longer = record.to_vec();
        longer[2] += 1;
        vec![
            bad_digit,
            last_digit,
            longer,
            record[1..].to_vec(),
            record[..length - 1].to_vec(),
            record[..length - 2].to_vec(),
            [record, b"00"].concat(),
            [record, b"\r\r"].concat(),
            [record, b" "].concat(),
            [b" ", record].concat(),
        ]
    }
}

/// A short file, cut or changed at every character.
mod spoilt {
    use super::*;

    /// A text with every kind of record that is taken.
    fn short_file(ending: &[u8]) -> Vec<u8> {
        let records = [
            record(DATA, 0x00FE, &[0x1A, 0xB2]),
            record(UPPER, 0, &[0, 0]),
            record(DATA, 0xFFFF, &[0xC3]),
            record(DATA, 0x8000, &[]),
            LAST.to_vec(),
        ];
        let lines: Vec<&[u8]> = records.iter().map(Vec::as_slice).collect();
        text(&lines, ending)
    }

    #[test]
    fn cut_at_every_character() {
        for size in sizes() {
            let mut trial = Trial::new(size);
            for ending in ENDINGS {
                let whole = short_file(ending);
                for cut in 0..=whole.len() {
                    let start = line_start(&whole, cut);
                    let end = start + whole[start..].iter().position(|character| ending[0] == *character).unwrap_or(0);
                    let is_last = whole[start..].starts_with(LAST);
                    let (refusal, place) = match cut {
                        cut if cut == whole.len() || cut == end && is_last => (0, 0),
                        cut if cut == start || cut == end => (16, cut),
                        _ => (12, start),
                    };
                    gives(&mut trial, &whole[..cut], size, refusal, place);
                }
            }
        }
    }

    #[test]
    fn every_character_changed_to_every_other() {
        for size in sizes() {
            let mut trial = Trial::new(size);
            for ending in ENDINGS {
                let whole = short_file(ending);
                for place in 0..whole.len() {
                    for character in 0..=255 {
                        let mut changed = whole.clone();
                        changed[place] = character;
                        let shown = changed.escape_ascii();
                        let reply = trial
                            .read(&changed, size)
                            .unwrap_or_else(|difference| panic!("{difference}\n{shown}"));
                        let is_same = changed.eq_ignore_ascii_case(&whole);
                        assert_eq!(reply.refusal == 0, is_same, "{}", changed.escape_ascii());
                    }
                }
            }
        }
    }
}

/// Words of another length are answered with 255, and nothing changes.
mod unread {
    use super::*;
    use oxterin::raw;

    #[test]
    fn a_place_in_words_of_another_length() {
        let text = text(&[&record(DATA, 0, &[0x5A; 16]), LAST], b"\n");
        for array in LENGTHS {
            for text in [&text[..], b"", b"G"] {
                for length in [0, 2, 3] {
                    let (mut bytes, mut words) = (vec![0xA5; array], vec![99; length]);
                    let before = text.to_vec();
                    assert_eq!(raw::hex_read(text, &mut bytes, &mut words), raw::UNREAD);
                    assert!(bytes.iter().all(|&byte| byte == 0xA5));
                    assert_eq!((words, text), (vec![99; length], &before[..]));
                }
            }
        }
    }

    #[test]
    fn a_count_in_words_of_another_length() {
        for array in LENGTHS {
            for room in [0, 180_252, 360_492] {
                for length in [0, 2, 3] {
                    let (bytes, mut text, mut words) = (vec![0xA5; array], vec![0x77; room], vec![99; length]);
                    assert_eq!(raw::hex_write(&bytes, &mut text, &mut words), raw::UNREAD);
                    assert!(bytes.iter().all(|&byte| byte == 0xA5));
                    assert!(text.iter().all(|&character| character == 0x77));
                    assert_eq!(words, vec![99; length]);
                }
            }
        }
    }
}
