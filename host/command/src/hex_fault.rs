//! Where in a refused HEX text the fault is, and what to do about it. The library has refused the text and named the record; this looks at
//! that record once more, for the column and for words. It never decides whether a text is accepted.
use crate::source::{fresh, Source};
use oxterin::{HexError, HexRefusal, Size};
use std::fmt;

/// A fault of a text: line and column, the first being 1, and in words the refusal, what was found there and the remedy.
#[derive(Clone, Debug, PartialEq, Eq)]
pub struct Fault<'a> {
    source: Source<'a>,
    line: usize,
    column: usize,
    words: String,
}

impl fmt::Display for Fault<'_> {
    fn fmt(&self, f: &mut fmt::Formatter<'_>) -> fmt::Result {
        write!(f, "{}:{}:{}: {}", self.source.name(), self.line, self.column, self.words)
    }
}

/// The fault of a text that was refused with this error by an array of this size. If it cannot be found, line and refusal are named all the
/// same.
pub fn find<'a>(source: Source<'a>, text: &[u8], size: Size, error: HexError) -> Fault<'a> {
    let (before, rest) = text.split_at(error.place.min(text.len()));
    let line = 1 + before.iter().filter(|byte| **byte == LF).count();
    let first = before.iter().rposition(|byte| *byte == LF).map_or(0, |at| at + 1);
    let look = Look {
        source,
        before,
        rest,
        line,
        size,
    };
    let found = match error.refusal {
        HexRefusal::Malformed => look.malformed(),
        HexRefusal::Checksum => look.checksum(),
        HexRefusal::Kind => look.kind(),
        HexRefusal::Outside => look.outside(),
        HexRefusal::End => Some(look.end()),
        HexRefusal::Room | HexRefusal::ArrayLength => None,
    };
    let (column, words) = match found {
        Some((column, words)) => (column, format!("refusal {}: {words}", error.refusal.number())),
        None => (1, format!("{}; {ANEW}", error.refusal)),
    };
    Fault {
        source,
        line,
        column: before.len() - first + column,
        words,
    }
}

/// What ends a line.
const LF: u8 = b'\n';
/// What is to be done about a file that cannot be put right.
const ANEW: &str = "the file was damaged or edited by hand: make it anew";
/// The end record.
const END: &str = ":00000001FF";
/// The column of a record's length byte.
const LENGTH: usize = 2;
/// The column of its address.
const ADDRESS: usize = 4;
/// The column of its type.
const TYPE: usize = 8;
/// The characters of a record without data.
const LEAST: usize = 11;

/// A column, counted from the record's first character as 1, and what is wrong there.
type Finding = (usize, String);

/// A text and the record at which it was refused.
struct Look<'a> {
    source: Source<'a>,
    /// What stands before the record, all of it good.
    before: &'a [u8],
    /// The record and all behind it.
    rest: &'a [u8],
    /// The record's line.
    line: usize,
    /// The size of the array.
    size: Size,
}

impl Look<'_> {
    /// The record's line without its ending.
    fn record(&self) -> &[u8] {
        let mut lines = self.rest.splitn(2, |byte| *byte == LF);
        let line = lines.next().unwrap_or_default();
        match lines.next() {
            Some(_) => unended(line),
            None => line,
        }
    }

    /// A command that makes a better text of this one.
    fn filtered(&self, command: &str) -> String {
        self.source.filtered(command, "hex")
    }

    /// 12: what makes the line no record.
    fn malformed(&self) -> Option<Finding> {
        let line = self.record();
        match line.first() {
            None => {
                let remedy = self.filtered(r"sed '/^\r*$/d'");
                return Some((1, format!("an empty line, and each line is a record; delete it: {remedy}")));
            }
            Some(b':') => {}
            Some(_) => return Some((1, self.no_colon(line))),
        }
        let asked = length_byte(line).map(|length| LEAST + 2 * usize::from(length));
        let digits = &line[1..asked.unwrap_or(line.len()).min(line.len())];
        if let Some(at) = digits.iter().position(|byte| !byte.is_ascii_hexdigit()) {
            return Some((LENGTH + at, self.no_digit(&line[1 + at..])));
        }
        match asked {
            None => {
                let words = format!("the line ends before its length byte does, and a record has at least {LEAST} characters");
                Some((line.len() + 1, format!("{words}; {}", self.short())))
            }
            Some(asked) if line.len() < asked => Some((line.len() + 1, format!("{}; {}", lengths(line, asked), self.short()))),
            Some(asked) if line.len() > asked => Some((asked + 1, self.surplus(line, asked))),
            Some(_) => self.wrong_length(line),
        }
    }

    /// What is to be done about a line that is too short.
    fn short(&self) -> &'static str {
        match self.rest.contains(&LF) {
            true => ANEW,
            false => "the file may be cut off: fetch it again",
        }
    }

    /// What stands at the beginning of a line instead of a colon.
    fn no_colon(&self, line: &[u8]) -> String {
        let whole = match self.before.is_empty() {
            true => self.no_hex(),
            false => None,
        };
        whole.unwrap_or_else(|| {
            let remedy = self.stray(line).unwrap_or_else(|| {
                format!(
                    "delete the line if it is no record ({}), or make the file anew",
                    self.without_line()
                )
            });
            format!("{} stands where the colon of a record belongs; {remedy}", shown(line))
        })
    }

    /// What a whole file is that does not begin with a colon, if that can be told.
    fn no_hex(&self) -> Option<String> {
        match self.rest {
            rest if Size::of_bytes(rest.len()).is_some() => Some(format!(
                "no colon, and as many bytes as an image has; if it is one, make HEX of it first: {}",
                self.source.turned("oxterin hex to", "hex")
            )),
            [0xEF, 0xBB, 0xBF, ..] => Some(format!("a byte order mark; delete it: {}", self.filtered("tail -c +4"))),
            [0xFF, 0xFE, ..] | [0xFE, 0xFF, ..] => Some(format!(
                "a text in UTF-16, and HEX is ASCII; convert it first: {}",
                self.filtered("iconv -f UTF-16 -t ASCII")
            )),
            [b'S', b'0'..=b'9', ..] => Some(format!(
                "a Motorola S-record; convert the file first: {}",
                self.source.converted("-motorola", "-intel", "hex")
            )),
            _ => None,
        }
    }

    /// What stands inside a record instead of a digit.
    fn no_digit(&self, found: &[u8]) -> String {
        let fault = match found[0] {
            b'\r' | b':' => "stands inside a record",
            _ => "is no hexadecimal digit",
        };
        let remedy = self.stray(found).unwrap_or_else(|| ANEW.to_string());
        format!("{} {fault}; {remedy}", shown(found))
    }

    /// What stands behind a record.
    fn surplus(&self, line: &[u8], asked: usize) -> String {
        let found = &line[asked..];
        let remedy = self.stray(found).unwrap_or_else(|| ANEW.to_string());
        match found[0] {
            b'\r' => format!("{}; {remedy}", shown(found)),
            digit if digit.is_ascii_hexdigit() => format!("{}; {remedy}", lengths(line, asked)),
            _ => format!("{}: {} stands behind the record; {remedy}", lengths(line, asked), shown(found)),
        }
    }

    /// The remedy against characters that are often among good records.
    fn stray(&self, found: &[u8]) -> Option<String> {
        match found {
            [b' ' | b'\t', ..] => Some(format!("delete the blanks: {}", self.filtered(r"tr -d ' \t'"))),
            [b'\r', ..] => Some(format!("end each line with LF or CR LF: {}", self.filtered(r"tr -s '\r' '\n'"))),
            [0, ..] => Some(format!(
                "save the file as plain ASCII, such as by {}",
                self.filtered(r"tr -d '\000'")
            )),
            [b':', ..] => Some("if a record begins there, give it a line of its own".to_string()),
            _ => None,
        }
    }

    /// A record of type 01 or 04 whose length byte is not theirs.
    fn wrong_length(&self, line: &[u8]) -> Option<Finding> {
        let bytes = bytes(line)?;
        match (bytes[3], bytes[0]) {
            (0x01, 1..) => Some((
                LENGTH,
                format!(
                    "type 01 (end of file) has no data, and here its length is {:02X}; if the text ends there, write {END}: {}",
                    bytes[0],
                    self.filtered(&format!("sed '{}s/.*/{END}/'", self.line))
                ),
            )),
            (0x04, length) if length != 2 => Some((
                LENGTH,
                format!("type 04 (extended linear address) has two bytes of data, and here its length is {length:02X}; {ANEW}"),
            )),
            _ => None,
        }
    }

    /// 13: which checksum there is, and which the other bytes give.
    fn checksum(&self) -> Option<Finding> {
        let line = self.record();
        let bytes = bytes(line)?;
        let (is, others) = bytes.split_last()?;
        let right = others.iter().fold(0u8, |sum, byte| sum.wrapping_sub(*byte));
        (*is != right).then(|| {
            let words = format!("the checksum is {is:02X}, and the bytes before it give {right:02X}");
            (line.len() - 1, format!("{words}; {ANEW}, or write {right:02X} if they are right"))
        })
    }

    /// 14: which type it is.
    fn kind(&self) -> Option<Finding> {
        let kind = bytes(self.record())?[3];
        let words = match kind {
            0x00 | 0x01 | 0x04 => return None,
            0x02 => {
                let command = self.source.converted("-intel", "-intel", "hex");
                self.advised("type 02 (extended segment address) is not read", "", "convert the file", &command)
            }
            0x03 => self.start("03 (start segment address)"),
            0x05 => self.start("05 (start linear address)"),
            _ => format!("type {kind:02X} is not of Intel HEX, which has 00 to 05; have the file made with types 00, 01 and 04 alone"),
        };
        Some((TYPE, words))
    }

    /// A record that says where a program starts.
    fn start(&self, kind: &str) -> String {
        format!(
            "type {kind} is not read; it has no data, so delete the line: {}",
            self.without_line()
        )
    }

    /// A command that deletes the record's line.
    fn without_line(&self) -> String {
        self.filtered(&format!("sed {}d", self.line))
    }

    /// 15: which addresses, and past what.
    fn outside(&self) -> Option<Finding> {
        let bytes = bytes(self.record())?;
        let block = 65_536 * self.upper();
        let first = block + 256 * u64::from(bytes[1]) + u64::from(bytes[2]);
        let end = first + u64::from(bytes[0]);
        let data = match bytes[0] {
            1 => format!("data at {}", address(first)),
            _ => format!("data at {} to {}", address(first), address(end.checked_sub(1)?)),
        };
        if end > block + 65_536 {
            let fault = format!("{data} goes past the 64 KiB that begin at {}", address(block));
            let command = self.source.converted("-intel", "-intel -Output_Block_Alignment", "hex");
            return Some((ADDRESS, self.advised(&fault, "", "split the record", &command)));
        }
        let fault = format!("{data} is outside the array, which has {} bytes", self.size.bytes());
        let words = match Size::ALL.into_iter().find(|size| end <= size.bytes() as u64) {
            Some(size) if size.bytes() <= self.size.bytes() => return None,
            Some(size) => format!("{fault}; give --size {}", size.bytes()),
            None => self.too_far(&fault, block),
        };
        Some((ADDRESS, words))
    }

    /// The fault of addresses that no array has, with its remedy: the data moves down by this block if none lies below it, and what is
    /// outside can be dropped if something is inside.
    fn too_far(&self, fault: &str, block: u64) -> String {
        let instead = "take a file for this part";
        let lowest = self.data().into_iter().min().unwrap_or(block);
        let (deed, filter) = match lowest {
            _ if lowest >= block => ("move its data down", format!("-intel -offset -0x{block:X}")),
            _ if lowest < self.size.bytes() as u64 => ("drop what is outside", format!("-intel -crop 0 {}", self.size.bytes())),
            _ => return format!("{fault}; {instead}"),
        };
        let command = self.source.converted(&filter, "-intel", "hex");
        self.advised(fault, &format!("{instead}, or "), deed, &command)
    }

    /// A fault with a deed of srec_cat against it, and what might be done instead. srec_cat writes an end record in any case and leaves out
    /// what it does not know, so a text that is not whole is said to be so first.
    fn advised(&self, fault: &str, instead: &str, deed: &str, command: &str) -> String {
        match self.doubt() {
            None => format!("{fault}; {instead}{deed} first: {command}"),
            Some((doubt, care)) => format!("{fault}, and {doubt}: {instead}{care} before you {deed}: {command}"),
        }
    }

    /// Why the text may not be whole, and what is to be done about that, unless it ends with its end record and nothing else is in between.
    fn doubt(&self) -> Option<(String, &'static str)> {
        const CARE: &str = "see what that is";
        let mut numbered = lines(self.rest).zip(self.line..);
        while let Some((line, number)) = numbered.next() {
            if let Some([0, _, _, 1, _]) = bytes(line).as_deref() {
                let behind = numbered.next()?.1;
                return Some((
                    format!("line {behind} stands behind the end record, where srec_cat does not read"),
                    CARE,
                ));
            }
            if !line.is_empty() && !line.starts_with(b":") {
                return Some((
                    format!("line {number}, which does not begin with a colon, is left out by srec_cat"),
                    CARE,
                ));
            }
        }
        Some(("the text has no end record, so it may be cut off".to_string(), "fetch it again"))
    }

    /// The upper part of the addresses, as the last record of type 04 has set it.
    fn upper(&self) -> u64 {
        let set = self
            .before
            .rsplit(|byte| *byte == LF)
            .find_map(|line| match bytes(unended(line))?[..] {
                [2, _, _, 4, high, low, _] => Some(256 * u64::from(high) + u64::from(low)),
                _ => None,
            });
        set.unwrap_or(0)
    }

    /// The first address of each data record up to the end record, as srec_cat reads them: below an upper part by type 04, or by type 02.
    fn data(&self) -> Vec<u64> {
        let mut block = 0;
        let mut found = Vec::new();
        for record in lines(self.before).chain(lines(self.rest)).filter_map(bytes) {
            match record[..] {
                [1..=255, high, low, 0, ..] => found.push(block + 256 * u64::from(high) + u64::from(low)),
                [2, _, _, 2, high, low, _] => block = 16 * (256 * u64::from(high) + u64::from(low)),
                [2, _, _, 4, high, low, _] => block = 65_536 * (256 * u64::from(high) + u64::from(low)),
                [0, _, _, 1, _] => break,
                _ => {}
            }
        }
        found
    }

    /// 16: no end record, or what follows it.
    fn end(&self) -> Finding {
        let cut = self.filtered(&format!("head -n {}", self.line.saturating_sub(1)));
        let words = match self.rest {
            [] if self.before.is_empty() => "the text is empty; name a file that has records".to_string(),
            [] => format!(
                "the text ends without an end record, so the file may be cut off; fetch it again, or add the line {END} if it is whole"
            ),
            [b':', ..] => {
                let join = format!("srec_cat one.hex -intel two.hex -intel -o {} -intel", fresh("hex"));
                format!("a record stands behind the end record; if two texts were joined, join them by {join}; else delete it: {cut}")
            }
            _ => format!("{} stands behind the end record; delete it: {cut}", shown(self.record())),
        };
        (1, words)
    }
}

/// A line that ended with LF, without the CR that belongs to its ending.
fn unended(line: &[u8]) -> &[u8] {
    line.strip_suffix(b"\r").unwrap_or(line)
}

/// The lines of a text, without their endings.
fn lines(text: &[u8]) -> impl Iterator<Item = &[u8]> {
    let lines = text.split_inclusive(|byte| *byte == LF);
    lines.map(|line| line.strip_suffix(&[LF]).map_or(line, unended))
}

/// The byte of two hexadecimal digits.
fn byte(pair: &[u8]) -> Option<u8> {
    let [high, low] = pair else { return None };
    let digit = |c: u8| (c as char).to_digit(16);
    u8::try_from(16 * digit(*high)? + digit(*low)?).ok()
}

/// The length byte of a line that begins with a colon.
fn length_byte(line: &[u8]) -> Option<u8> {
    byte(line.get(1..3)?)
}

/// The bytes of a line that has a colon and as many digit pairs as its length byte asks for.
fn bytes(line: &[u8]) -> Option<Vec<u8>> {
    let digits = line.strip_prefix(b":")?;
    let bytes: Vec<u8> = digits.chunks(2).map(byte).collect::<Option<_>>()?;
    let length = usize::from(*bytes.first()?);
    (bytes.len() == length + 5).then_some(bytes)
}

/// An address, of 24 bits where those are enough.
fn address(number: u64) -> String {
    match number {
        0..=0xFF_FFFF => format!("{number:06X}h"),
        _ => format!("{number:08X}h"),
    }
}

/// How long a line is, and how long its length byte says that it is.
fn lengths(line: &[u8], asked: usize) -> String {
    let length = length_byte(line).unwrap_or_default();
    format!(
        "the line has {} characters, and its length byte {length:02X} asks for {asked}",
        line.len()
    )
}

/// The first character of what was found, in words that can be read.
fn shown(found: &[u8]) -> String {
    match found {
        [] => "an empty line".to_string(),
        [0, ..] => "NUL".to_string(),
        [b'\t', ..] => "a tab".to_string(),
        [b'\r', ..] => "CR without LF".to_string(),
        [b' ', ..] => "a blank".to_string(),
        [c @ b'!'..=b'~', ..] => format!("the character {}", *c as char),
        [byte, ..] => match character(found) {
            Some(c) if !c.is_ascii() => format!("the character U+{:04X}", u32::from(c)),
            _ => format!("the byte {byte:02X}h"),
        },
    }
}

/// The first character, if the bytes begin with one in UTF-8.
fn character(bytes: &[u8]) -> Option<char> {
    let most = bytes.get(..4).unwrap_or(bytes);
    let text = match std::str::from_utf8(most) {
        Ok(text) => text,
        Err(error) => std::str::from_utf8(&most[..error.valid_up_to()]).ok()?,
    };
    text.chars().next()
}

#[cfg(test)]
mod tests {
    use super::*;
    use oxterin::hex_read;

    /// A text with each kind of record, that is accepted.
    const GOOD: &[u8] = b":0400100001020304E2\r\n:020000040001F9\n:02FFFE00CAFE39\n:00123400BA\n:020000040000FA\r\n:00000001FF\n";

    /// The fault of a text, if it is refused.
    fn fault(text: &[u8], size: Size) -> Option<Fault<'static>> {
        let error = hex_read(text, &mut vec![0xFF; size.bytes()]).err()?;
        Some(find(Source::File("fw.hex"), text, size, error))
    }

    /// Whether nothing but the refusal is known.
    fn is_bare(fault: &Fault<'_>) -> bool {
        HexRefusal::ALL.iter().any(|refusal| fault.words.starts_with(&refusal.to_string()))
    }

    #[test]
    fn the_fault_of_every_refused_text_is_found() {
        let other = b"0189aFgGS:;\r\n\t \0\x1A\x7F\xC3\xA9\xFF";
        let mut refused = 0;
        for place in 0..=GOOD.len() {
            let (before, behind) = GOOD.split_at(place);
            let mut texts = vec![
                before.to_vec(),
                behind.to_vec(),
                [GOOD, before].concat(),
                [before, &behind[behind.len().min(2)..]].concat(),
            ];
            for byte in other {
                texts.push([before, &[*byte], behind].concat());
                texts.push([before, &[*byte], &behind[behind.len().min(1)..]].concat());
            }
            for text in texts {
                for size in Size::ALL {
                    if let Some(fault) = fault(&text, size) {
                        assert!(!is_bare(&fault), "{}: {fault}", text.escape_ascii());
                        refused += 1;
                    }
                }
            }
        }
        assert!(refused > 5_000, "{refused}");
        assert_eq!(fault(GOOD, Size::Whole), None);
    }

    #[test]
    fn a_fault_that_is_not_found_has_its_line_and_refusal() {
        let found = |refusal, place| find(Source::Input, GOOD, Size::Whole, HexError { refusal, place }).to_string();
        for refusal in HexRefusal::ALL.into_iter().filter(|refusal| *refusal != HexRefusal::End) {
            assert_eq!(found(refusal, 37), format!("standard input:3:1: {refusal}; {ANEW}"));
        }
        let beyond = found(HexRefusal::Checksum, usize::MAX);
        assert_eq!(
            beyond,
            format!("standard input:7:1: refusal 13: a record has a wrong checksum; {ANEW}")
        );
    }

    #[test]
    fn characters_are_shown_readably() {
        for (found, words) in [
            (&b""[..], "an empty line"),
            (b"\0", "NUL"),
            (b" :", "a blank"),
            (b"\t", "a tab"),
            (b"\r", "CR without LF"),
            (b"G1", "the character G"),
            (b"~", "the character ~"),
            (b"\x1A", "the byte 1Ah"),
            (b"\x7F", "the byte 7Fh"),
            (b"\xFFab", "the byte FFh"),
            ("é".as_bytes(), "the character U+00E9"),
            ("\u{feff}:1000".as_bytes(), "the character U+FEFF"),
            ("\u{1F600}".as_bytes(), "the character U+1F600"),
            (b"\xC3", "the byte C3h"),
        ] {
            assert_eq!(shown(found), words);
        }
    }
}
