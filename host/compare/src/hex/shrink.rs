//! Cutting a failing text down to what is needed for the failure.
use super::generator::Case;
use super::record::{bytes, characters, lines, sum};

/// The smallest text found that still fails: lines and characters dropped, records made plainer, characters made 0.
/// The one handed in has to fail.
#[must_use]
pub fn shrink(case: Case, fails: impl Fn(&Case) -> bool) -> Case {
    let mut case = case;
    loop {
        let before = case.clone();
        drop_runs(&mut case, &fails, |text| {
            text.split_inclusive(|&character| character == b'\n').collect()
        });
        plainer_dress(&mut case, &fails);
        for place in 0..lines(&case.text).len() {
            plainer_record(&mut case, place, &fails);
        }
        drop_runs(&mut case, &fails, |text| text.chunks(1).collect());
        zeroed(&mut case, &fails);
        if case == before {
            return case;
        }
    }
}

/// Takes over a text if it still fails, and says whether it does.
fn keep(case: &mut Case, fails: &impl Fn(&Case) -> bool, text: Vec<u8>) -> bool {
    let changed = Case { text, ..*case };
    let kept = changed != *case && fails(&changed);
    if kept {
        *case = changed;
    }
    kept
}

/// Drops runs of the parts that a text is cut into, long ones first.
fn drop_runs(case: &mut Case, fails: &impl Fn(&Case) -> bool, parts: impl Fn(&[u8]) -> Vec<&[u8]>) {
    let mut run = parts(&case.text).len();
    while run > 0 {
        let mut end = parts(&case.text).len();
        while end > 0 {
            let start = end.saturating_sub(run);
            let now = parts(&case.text);
            let shorter = [&now[..start], &now[end..]].concat().concat();
            keep(case, fails, shorter);
            end = start;
        }
        run /= 2;
    }
}

/// Has all letters in upper case, and all line endings plain.
fn plainer_dress(case: &mut Case, fails: &impl Fn(&Case) -> bool) {
    keep(case, fails, case.text.to_ascii_uppercase());
    let mut plain = Vec::new();
    for &character in &case.text {
        if character == b'\n' {
            plain.pop_if(|last| *last == b'\r');
        }
        plain.push(character);
    }
    keep(case, fails, plain);
}

/// Has a record carry fewer data, and address and data of 0. Its sum stays what it was, so a right checksum stays right.
fn plainer_record(case: &mut Case, place: usize, fails: &impl Fn(&Case) -> bool) {
    let mut cut = 255;
    while cut > 0 {
        while change_record(case, place, fails, |bytes| shorten(bytes, cut)) {}
        cut /= 2;
    }
    change_record(case, place, fails, |bytes| bytes[1..3].fill(0));
    for at in (4..260).rev() {
        change_record(case, place, fails, |bytes| {
            if at + 1 < bytes.len() {
                bytes[at] = 0;
            }
        });
    }
}

/// Takes so many bytes of data off a record that has them and counts them rightly.
fn shorten(bytes: &mut Vec<u8>, cut: usize) {
    let length = usize::from(bytes[0]);
    if length >= cut && bytes.len() == length + 5 {
        bytes.drain(bytes.len() - 1 - cut..bytes.len() - 1);
        bytes[0] = (length - cut) as u8;
    }
}

/// Keeps a change of the bytes of a line, if it is a record and the text still fails with it.
fn change_record(case: &mut Case, place: usize, fails: &impl Fn(&Case) -> bool, change: impl Fn(&mut Vec<u8>)) -> bool {
    let mut lines = lines(&case.text);
    let Some(line) = lines.get_mut(place) else {
        return false;
    };
    let end = line.iter().position(|character| b"\r\n".contains(character)).unwrap_or(line.len());
    let Some(mut record) = bytes(&line[..end]).filter(|bytes| bytes.len() >= 5) else {
        return false;
    };
    let before = sum(&record);
    change(&mut record);
    let difference = before.wrapping_sub(sum(&record));
    if let Some(checksum) = record.last_mut() {
        *checksum = checksum.wrapping_add(difference);
    }
    line.splice(..end, characters(&record));
    keep(case, fails, lines.concat())
}

/// Makes characters 0 one by one.
fn zeroed(case: &mut Case, fails: &impl Fn(&Case) -> bool) {
    for place in 0..case.text.len() {
        let mut text = case.text.clone();
        text[place] = b'0';
        keep(case, fails, text);
    }
}

#[cfg(test)]
mod tests {
    use super::super::generator::Generator;
    use super::super::record::{record, DATA};
    use super::*;
    use crate::random::Random;

    /// A long text, in which this one stands in the middle.
    fn surrounded(text: &[u8]) -> Case {
        let mut generator = Generator::new(Random::seeded(5), 131_072);
        let [before, behind] = [0; 2].map(|_| (0..20).flat_map(|_| generator.case().text).collect::<Vec<u8>>());
        Case {
            text: [&before[..], b"\n", text, b"\n", &behind].concat(),
            array: 131_072,
        }
    }

    /// Whether a line is a record of this type with the right checksum and some data in the upper half of the 64 KiB.
    fn is_high(line: &[u8], kind: u8) -> bool {
        bytes(line).is_some_and(|bytes| bytes.len() > 5 && bytes[3] == kind && bytes[1] >= 0x80 && sum(&bytes) == 0)
    }

    #[test]
    fn of_records_only_the_needed_ones_remain_made_plain() {
        let needed = [record(0x77, 0x9234, &[1, 2, 3, 4, 5]), record(DATA, 0xA234, &[9; 16])].join(&b"\r\n"[..]);
        let shrunk = shrink(surrounded(&needed), |case| {
            let mut lines = case.text.split(|&character| character == b'\n');
            let is_there = lines.any(|line| is_high(line.strip_suffix(b"\r").unwrap_or(line), 0x77));
            is_there && lines.any(|line| is_high(line, DATA))
        });
        let lines: Vec<&[u8]> = shrunk.text.split(|&character| character == b'\n').collect();
        assert!(matches!(lines[..], [first, second] if is_high(first, 0x77) && is_high(second, DATA)));
        assert_eq!(shrunk.text.len(), 2 * 13 + 1);
    }

    #[test]
    fn of_characters_only_the_needed_ones_remain() {
        let shrunk = shrink(surrounded(b":00\x00x"), |case| case.text.contains(&0) && case.text.contains(&b'x'));
        assert_eq!(shrunk.text, b"\x00x");
    }
}
