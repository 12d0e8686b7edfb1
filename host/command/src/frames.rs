//! Frames as lines of text ask for them, for every subcommand that sends frames from a file.
use crate::begin::{At, Begin};
use crate::complaint::{complain, complaint, Complaint};
use crate::lines::thousands;
use crate::options::{account, account_of, byte_ticks, level_of, number, ticks_per_byte, wp_high, Given};
use crate::paths::Use;
use crate::source::DASH;
use oxterin::Signals;
use std::fs::File;
use std::io::{self, BufRead, BufReader, IsTerminal, Read};

/// How a line looks.
pub const LINE_HELP: &str = "  02 00 10 FE 11 22      the bytes of the frame, as pairs of hexadecimal digits
  05 00 /11              so many bits of it are clocked, here 11 of 16; without it all of them
  05 00 +2000            so many ticks elapse before it; without it none
  05 00 00 00 @8         so many ticks pass with each of its bytes, a partial last one too, so that a status read
                         sees busy fall; at most 1,000, and without it those of --ticks-per-byte
  01 84 wp=low           WP's level during it; without it that of --wp
  05 00 account=7        whose frame it is, an account from 0 to 255; without it that of --account
  /0                     a frame of no bits at all; so is +2000, @8, wp=low or account=7 with nothing beside it
";

/// The options for what a line does not say, each with a value.
pub const UNSAID_VALUED: [&str; 3] = ["--wp", "--ticks-per-byte", "--account"];
/// What they mean.
pub const UNSAID_HELP: &str = "  --wp low|high       WP's level where a line does not say (default high)
  --ticks-per-byte N  ticks that pass with each byte of a frame where a line does not say, 0 (default) to 1000
  --account N         whose frame it is where a line does not say, 0 (default) to 255
";

/// No line has more bytes, its end left out. The longest frame takes some 25,000 of them; the rest is for blanks and a comment.
const LONGEST_LINE: u64 = 1 << 16;

/// One frame as a line asks for it.
#[derive(Clone, Debug, PartialEq, Eq)]
pub struct Frame {
    /// Its bytes.
    pub input: Vec<u8>,
    /// What goes with them.
    pub signals: Signals,
    /// The account that its line names, or else `--account`.
    pub named: Option<u8>,
}

impl Frame {
    /// Whose frame it is: account 0's if none is named.
    pub fn account(&self) -> u8 {
        self.named.unwrap_or(0)
    }
}

/// What holds for a frame where its line does not say.
#[derive(Clone, Copy)]
struct Unsaid {
    wp_high: bool,
    ticks_per_byte: u64,
    account: Option<u8>,
}

/// The frames of a file or of standard input, in turn, each with the number of its line. A bad line is a complaint that names its place.
pub struct Frames {
    name: String,
    source: Box<dyn BufRead>,
    unsaid: Unsaid,
    /// How many lines have been read.
    pub line: usize,
    /// How many bytes these have.
    pub read: u64,
    /// How many bytes there are, if that is known.
    pub whole: Option<u64>,
    /// How far the frames have come, by the lines alone.
    at: At,
}

impl Frames {
    /// The frames that a subcommand of this name is given: those of one file, or of standard input if there is none or it is a dash.
    pub fn open(command: &str, given: &Given) -> Result<Frames, Complaint> {
        let unsaid = Unsaid {
            wp_high: wp_high(given)?,
            ticks_per_byte: ticks_per_byte(given)?,
            account: account(given)?,
        };
        let text = Text::open(command, &given.words)?;
        Ok(Frames {
            name: text.name,
            source: text.source,
            unsaid,
            line: 0,
            read: 0,
            whole: text.whole,
            at: At::default(),
        })
    }

    /// What complaints call the place where the frames come from.
    pub fn name(&self) -> &str {
        &self.name
    }

    /// What complaints call the line read last.
    pub fn place(&self) -> String {
        format!("{}, line {}", self.name, self.line)
    }

    /// The next line, its end too; none at the end of the text. A line that is too long is not read to its end.
    fn next_line(&mut self) -> Result<Option<Vec<u8>>, Complaint> {
        let mut line = Vec::new();
        let read = self.source.by_ref().take(LONGEST_LINE + 1).read_until(b'\n', &mut line);
        self.line += usize::from(!matches!(read, Ok(0)));
        let read = read.map_err(|error| complaint(format!("{}: {error}", self.place())))? as u64;
        self.read += read;
        match line.last() {
            None => Ok(None),
            Some(last) if read > LONGEST_LINE && *last != b'\n' => Err(complaint(format!(
                "{}: longer than {} bytes, and a frame of 8,192 bytes takes some 25,000; is this a text of frames, with a line for each?",
                self.place(),
                thousands(LONGEST_LINE)
            ))),
            _ => Ok(Some(line)),
        }
    }

    /// The frame of a line, if it has one. A line with which a server begins has to fit those before it.
    fn frame(&mut self, line: &[u8]) -> Result<Option<Frame>, Complaint> {
        let line = line.strip_suffix(b"\n").unwrap_or(line);
        if let Some(begin) = Begin::read(line) {
            self.at = begin
                .follows(self.at)
                .map_err(|words| complaint(format!("{}: {words}", self.place())))?;
        }
        let frame = read(line, self.unsaid).map_err(|(column, words)| complaint(format!("{}, column {column}: {words}", self.place())))?;
        if let Some(Frame { signals, .. }) = &frame {
            self.at.tick += u128::from(signals.elapsed) + u128::from(signals.frame_ticks());
            self.at.frames += 1;
        }
        Ok(frame)
    }

    /// The next frame with the number of its line; none at the end of the text.
    fn next_frame(&mut self) -> Result<Option<(usize, Frame)>, Complaint> {
        while let Some(line) = self.next_line()? {
            if let Some(frame) = self.frame(&line)? {
                return Ok(Some((self.line, frame)));
            }
        }
        Ok(None)
    }
}

impl Iterator for Frames {
    type Item = Result<(usize, Frame), Complaint>;

    fn next(&mut self) -> Option<Self::Item> {
        self.next_frame().transpose()
    }
}

/// The file that the frames come from, for the list of a call's files.
pub fn source(given: &Given) -> (&'static str, &str, Use) {
    ("the frames", given.words.first().map_or(DASH, String::as_str), Use::Read)
}

/// Where the lines come from, what to call that, and how many bytes there are, if that is known.
struct Text {
    name: String,
    source: Box<dyn BufRead>,
    whole: Option<u64>,
}

impl Text {
    /// What the words after a subcommand name.
    fn open(command: &str, words: &[String]) -> Result<Text, Complaint> {
        match words {
            [] => {
                if io::stdin().is_terminal() {
                    complain("frames are read from here, one a line, up to the end of input; --help says how a line looks");
                }
                Ok(Text::of_input())
            }
            [path] if path == DASH => Ok(Text::of_input()),
            [path] => Text::of_file(path).map_err(|error| complaint(format!("{path}: {error}"))),
            [_, second, ..] => Err(complaint(format!("{command} takes one file, and {second} is a second one"))),
        }
    }

    /// Standard input.
    fn of_input() -> Text {
        Text {
            name: "standard input".into(),
            source: Box::new(io::stdin().lock()),
            whole: None,
        }
    }

    /// A file, whose length is known if it is a plain one.
    fn of_file(path: &str) -> io::Result<Text> {
        let file = File::open(path)?;
        let there = file.metadata()?;
        Ok(Text {
            name: path.into(),
            source: Box::new(BufReader::new(file)),
            whole: there.is_file().then_some(there.len()),
        })
    }
}

/// What is wrong with a line: the column, the first being 1, and what to do about it.
type Fault = (usize, String);

/// A word of a line and the column where it begins.
struct Word<'a> {
    text: &'a str,
    column: usize,
}

impl Word<'_> {
    /// A fault of this word.
    fn fault(&self, remedy: &str) -> Fault {
        (self.column, format!("{}: {remedy}", self.text))
    }
}

/// The text of a line: its end, comment and byte order mark left out.
fn text_of(line: &[u8]) -> Result<&str, Fault> {
    let line = line.strip_suffix(b"\r").unwrap_or(line);
    let line = line.strip_prefix("\u{feff}".as_bytes()).unwrap_or(line);
    let line = line.split(|byte| *byte == b'#').next().unwrap_or_default();
    let column = |end: usize| String::from_utf8_lossy(&line[..end]).chars().count() + 1;
    let text =
        std::str::from_utf8(line).map_err(|error| (column(error.valid_up_to()), "no text in UTF-8; save the file as such".into()))?;
    match text.find('\r') {
        Some(at) => Err((column(at), "a carriage return inside a line; end each line with LF or CR LF".into())),
        None => Ok(text),
    }
}

/// The words of a text.
fn words_of(text: &str) -> Vec<Word<'_>> {
    let mut words = Vec::new();
    let mut from = None;
    for (at, c) in text.char_indices().chain([(text.len(), ' ')]) {
        match (from, c.is_whitespace()) {
            (None, false) => from = Some(at),
            (Some(start), true) => {
                let column = text[..start].chars().count() + 1;
                words.push(Word {
                    text: &text[start..at],
                    column,
                });
                from = None;
            }
            _ => {}
        }
    }
    words
}

/// What the words of a line say.
#[derive(Default)]
struct Said {
    input: Vec<u8>,
    bits: Option<u64>,
    elapsed: Option<u64>,
    ticks_per_byte: Option<u64>,
    wp_high: Option<bool>,
    account: Option<u8>,
}

impl Said {
    /// One word more.
    fn read(&mut self, word: &Word<'_>) -> Result<(), Fault> {
        if let Some(count) = word.text.strip_prefix('/') {
            let remedy = "after / comes the number of bits clocked, such as /11";
            set_once(&mut self.bits, number(count), word, remedy)
        } else if let Some(ticks) = word.text.strip_prefix('+') {
            let remedy = "after + comes the number of ticks elapsed, up to 2^64 - 1, such as +2000";
            set_once(&mut self.elapsed, number(ticks), word, remedy)
        } else if let Some(ticks) = word.text.strip_prefix('@') {
            let remedy =
                "after @ comes, with no blank between, the number of ticks that each byte takes, at most 1,000 (refusal 8), such as @8";
            set_once(&mut self.ticks_per_byte, byte_ticks(ticks), word, remedy)
        } else if let Some(name) = word.text.strip_prefix("wp=") {
            set_once(&mut self.wp_high, level_of(name), word, "write wp=low or wp=high")
        } else if let Some(account) = word.text.strip_prefix("account=") {
            let remedy = "after account= comes, with no blank between, whose frame it is, from 0 to 255 (refusal 9), such as account=7";
            set_once(&mut self.account, account_of(account), word, remedy)
        } else if word.text.contains('=') {
            Err(word.fault("of words with = there are wp=low, wp=high and account=, after which comes a number, such as account=7"))
        } else {
            self.input.extend(bytes(word)?);
            Ok(())
        }
    }

    /// The frame, with what holds where the words do not say.
    fn frame(self, unsaid: Unsaid) -> Frame {
        let signals = Signals {
            bits: self.bits.unwrap_or(8 * self.input.len() as u64),
            wp_high: self.wp_high.unwrap_or(unsaid.wp_high),
            elapsed: self.elapsed.unwrap_or(0),
            ticks_per_byte: self.ticks_per_byte.unwrap_or(unsaid.ticks_per_byte),
        };
        Frame {
            input: self.input,
            signals,
            named: self.account.or(unsaid.account),
        }
    }
}

/// The frame of a line, or none if the line has no words.
fn read(line: &[u8], unsaid: Unsaid) -> Result<Option<Frame>, Fault> {
    let words = words_of(text_of(line)?);
    let mut said = Said::default();
    for word in &words {
        said.read(word)?;
    }
    Ok((!words.is_empty()).then(|| said.frame(unsaid)))
}

/// Sets what a line may say once, to the value that the word has; the remedy is for a word that has none.
fn set_once<T>(place: &mut Option<T>, value: Option<T>, word: &Word<'_>, remedy: &str) -> Result<(), Fault> {
    let value = value.ok_or_else(|| word.fault(remedy))?;
    match place.replace(value) {
        None => Ok(()),
        Some(_) => Err(word.fault("said twice; leave one out")),
    }
}

/// The bytes of a word of hexadecimal digits, two to a byte.
fn bytes(word: &Word<'_>) -> Result<Vec<u8>, Fault> {
    if let Some(at) = word.text.chars().position(|c| !c.is_ascii_hexdigit()) {
        return Err((
            word.column + at,
            format!(
                "{}: bytes are pairs of hexadecimal digits; /BITS, +TICKS, @TICKS, wp=low or wp=high and account=N may come with them",
                word.text
            ),
        ));
    }
    if word.text.len() % 2 == 1 {
        return Err((
            word.column,
            format!("{}: an odd number of digits; a byte has two, such as 06", word.text),
        ));
    }
    let digit = |c: u8| (c as char).to_digit(16).unwrap_or_default() as u8;
    Ok(word
        .text
        .as_bytes()
        .chunks(2)
        .map(|pair| 16 * digit(pair[0]) + digit(pair[1]))
        .collect())
}

#[cfg(test)]
mod tests {
    use super::*;

    /// WP high, frames that take no time, and no account named.
    const PLAIN: Unsaid = Unsaid {
        wp_high: true,
        ticks_per_byte: 0,
        account: None,
    };

    fn frame(input: &[u8], bits: u64, wp_high: bool, elapsed: u64) -> Option<Frame> {
        slow_frame(input, bits, wp_high, elapsed, 0)
    }

    fn slow_frame(input: &[u8], bits: u64, wp_high: bool, elapsed: u64, ticks_per_byte: u64) -> Option<Frame> {
        let signals = Signals {
            bits,
            wp_high,
            elapsed,
            ticks_per_byte,
        };
        Some(Frame {
            input: input.to_vec(),
            signals,
            named: None,
        })
    }

    #[test]
    fn a_line_is_a_frame() {
        assert_eq!(read(b"06", PLAIN), Ok(frame(&[6], 8, true, 0)));
        assert_eq!(read(b" 0500 +2,000 # poll", PLAIN), Ok(frame(&[5, 0], 16, true, 2_000)));
        assert_eq!(read(b"05 00 /11 wp=low", PLAIN), Ok(frame(&[5, 0], 11, false, 0)));
        let low = Unsaid { wp_high: false, ..PLAIN };
        assert_eq!(read(b"/0", low), Ok(frame(&[], 0, false, 0)));
        assert_eq!(
            read(b"ab /18446744073709551615 +18446744073709551615", PLAIN),
            Ok(frame(&[0xAB], u64::MAX, true, u64::MAX))
        );
    }

    #[test]
    fn a_line_says_the_ticks_of_each_byte_or_the_option_does() {
        let slow = Unsaid {
            ticks_per_byte: 8,
            ..PLAIN
        };
        assert_eq!(read(b"05 00 @1,000 +3", PLAIN), Ok(slow_frame(&[5, 0], 16, true, 3, 1_000)));
        assert_eq!(read(b"05 00", slow), Ok(slow_frame(&[5, 0], 16, true, 0, 8)));
        assert_eq!(read(b"05 00 @0", slow), Ok(frame(&[5, 0], 16, true, 0)));
        assert_eq!(read(b"@7", slow), Ok(slow_frame(&[], 0, true, 0, 7)));
    }

    #[test]
    fn a_line_says_whose_frame_it_is_or_the_option_does() {
        let named = |line: &[u8], unsaid| {
            let frame = read(line, unsaid).expect("a good line").expect("a frame");
            (frame.named, frame.account())
        };
        let twelve = Unsaid {
            account: Some(12),
            ..PLAIN
        };
        assert_eq!(named(b"06", PLAIN), (None, 0));
        assert_eq!(named(b"06 account=0", PLAIN), (Some(0), 0));
        assert_eq!(named(b"account=255 06", PLAIN), (Some(255), 255));
        assert_eq!(named(b"06", twelve), (Some(12), 12));
        assert_eq!(named(b"account=7", twelve), (Some(7), 7));
    }

    #[test]
    fn nothing_and_comments_are_no_frame() {
        assert_eq!(read(b"", PLAIN), Ok(None));
        assert_eq!(read(b"  \t# 06", PLAIN), Ok(None));
        assert_eq!(read(b"\r", PLAIN), Ok(None));
        assert_eq!(read(b"# pr\xFCfen", PLAIN), Ok(None));
        assert_eq!(read("\u{feff}06\r".as_bytes(), PLAIN), Ok(frame(&[6], 8, true, 0)));
    }

    #[test]
    fn a_fault_names_its_column() {
        let column = |line: &str| read(line.as_bytes(), PLAIN).unwrap_err().0;
        assert_eq!(column("06 0x05"), 5);
        assert_eq!(column("06 123"), 4);
        assert_eq!(column("06 /x"), 4);
        assert_eq!(column("06 +"), 4);
        assert_eq!(column("06 +18446744073709551616"), 4);
        assert_eq!(column("06 wp=up"), 4);
        assert_eq!(column("é6"), 1);
        assert_eq!(column("06 é"), 4);
        assert_eq!(column("06 ++5"), 4);
        assert_eq!(column("06 /8 /8"), 7);
        assert_eq!(column("06 +1 wp=low +2"), 14);
        assert_eq!(column("06 @"), 4);
        assert_eq!(column("06 @x"), 4);
        assert_eq!(column("06 @1001"), 4);
        assert_eq!(column("06 @2,5"), 4);
        assert_eq!(column("06 @8,"), 4);
        assert_eq!(column("06 @8 @8"), 7);
        assert_eq!(column("06 account="), 4);
        assert_eq!(column("06 account=256"), 4);
        assert_eq!(column("06 account=-1"), 4);
        assert_eq!(column("06 account=7 account=7"), 14);
        assert_eq!(column("06 acount=7"), 4);
        assert_eq!(column("06 account = 7"), 4 + "acc".len());
        assert_eq!(column("06\r05"), 3);
        assert_eq!(read(b"06 \xFF", PLAIN).unwrap_err().0, 4);
    }
}
