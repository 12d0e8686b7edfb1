//! What a server writes down of its frames: lines that `oxterin run` and `oxterin bill` read, and JSON.
use crate::complaint::{complain, complaint, Complaint};
use crate::desk::{Billed, Sent};
use oxterin::{Answer, Refusal, Signals};
use std::fs::{self, File, OpenOptions, TryLockError};
use std::io::{self, BufReader, ErrorKind, Read, Seek, SeekFrom, Write};
use std::sync::Arc;

/// A file that grows by lines, written in blocks. No other oxterin writes it meanwhile.
pub struct Log {
    /// The option by which it was asked for, and its path.
    name: String,
    file: Arc<File>,
    /// How many bytes of whole lines it has.
    length: u64,
    block: Vec<u8>,
    /// Whether it could not be written, so that it has ended.
    ended: bool,
}

/// A block is written when it has so many bytes.
const BLOCK: usize = 1 << 16;

impl Log {
    /// Goes on with the file at a path, or begins one; first come these lines. What is there stays.
    pub fn open(option: &str, path: &str, first: &str) -> Result<Log, Complaint> {
        let name = format!("{option} {path}");
        let wrong = |error: io::Error| complaint(format!("{name}: {error}; name a file that can be written"));
        let file = OpenOptions::new().append(true).create(true).open(path).map_err(wrong)?;
        if let Err(TryLockError::WouldBlock) = file.try_lock() {
            return Err(complaint(format!(
                "{name}: another oxterin is writing this file; end that one first, or name another file"
            )));
        }
        let length = file.metadata().map_err(wrong)?.len();
        let mut log = Log {
            name: name.clone(),
            file: Arc::new(file),
            length,
            block: first.as_bytes().to_vec(),
            ended: false,
        };
        log.write().map_err(wrong)?;
        Ok(log)
    }

    /// Adds a line.
    pub fn tell(&mut self, line: impl FnOnce(&mut Vec<u8>)) {
        if !self.ended {
            line(&mut self.block);
            self.block.push(b'\n');
            if self.block.len() >= BLOCK {
                self.flush();
            }
        }
    }

    /// Writes what is not written yet. If that fails the log ends with its last whole line, and the part is served on.
    pub fn flush(&mut self) {
        if let Err(error) = self.write() {
            self.ended = true;
            complain(format!("{}: {error}; the log ends here, the part is served on", self.name));
        }
    }

    /// Writes the block. A part of it is taken back.
    fn write(&mut self) -> io::Result<()> {
        let written = (&*self.file).write_all(&self.block);
        match written {
            Ok(()) => self.length += self.block.len() as u64,
            Err(_) => self.file.set_len(self.length).unwrap_or(()), // then a line is cut off, which the next server says
        }
        self.block.clear();
        written
    }

    /// The file, so that it can be synced by whoever does not hold the log.
    pub fn file(&self) -> Arc<File> {
        Arc::clone(&self.file)
    }

    /// It is an error if the log has ended early.
    pub fn is_whole(&self) -> Result<(), Complaint> {
        match self.ended {
            true => Err(complaint(format!("{}: the log ended before the server did", self.name))),
            false => Ok(()),
        }
    }
}

/// Whether a log could go on with the file at a path, if there is one. `fresh` says that the part is: then the file has to be without frames.
pub fn check(option: &str, path: &str, fresh: bool) -> Result<(), Complaint> {
    let wrong = |words: &str| complaint(format!("{option} {path}: {words}"));
    match fs::metadata(path) {
        Err(error) if error.kind() == ErrorKind::NotFound => return Ok(()),
        Ok(there) if !there.is_file() => return Err(wrong("not a plain file, so no log is written there; name a file")),
        Ok(there) if there.len() == 0 => return Ok(()),
        _ => {}
    }
    let unread = |error: io::Error| wrong(&format!("{error}; name a file that can be read and written"));
    let file = File::open(path).map_err(unread)?;
    if !ends_whole(&file).map_err(unread)? {
        return Err(wrong("its last line was cut off; remove that line, or name another file"));
    }
    match fresh && has_frames(file).map_err(unread)? {
        true => Err(wrong("it has frames already, and this part is fresh; name another file")),
        false => Ok(()),
    }
}

/// Whether a file ends with the end of a line.
fn ends_whole(mut file: &File) -> io::Result<bool> {
    let mut last = [0];
    file.seek(SeekFrom::End(-1))?;
    file.read_exact(&mut last)?;
    file.rewind()?;
    Ok(last == *b"\n")
}

/// Whether a line of a file is neither empty nor a comment.
fn has_frames(file: File) -> io::Result<bool> {
    let mut begins = true;
    for byte in BufReader::new(file).bytes() {
        match (begins, byte?) {
            (_, b'\n') => begins = true,
            (true, byte) if byte != b'#' => return Ok(true),
            _ => begins = false,
        }
    }
    Ok(false)
}

/// A frame that the part accepted, as it is written down.
pub struct Told<'a> {
    /// The tick at its end.
    pub tick: u128,
    /// Whose it is.
    pub account: u8,
    /// Its bytes.
    pub input: &'a [u8],
    /// What went with them.
    pub signals: Signals,
    /// What came of it.
    pub sent: &'a Sent,
    /// Status byte 1 afterwards.
    pub status: u8,
}

impl Told<'_> {
    /// Its line for `run` and `bill`; the answer is a comment.
    pub fn line(&self, line: &mut Vec<u8>) {
        let Signals {
            elapsed,
            ticks_per_byte,
            wp_high,
            ..
        } = self.signals;
        match self.input {
            [] => line.extend(b"/0"),
            bytes => spaced(line, bytes),
        }
        if elapsed > 0 {
            line.extend(b" +");
            number(line, elapsed.into());
        }
        if ticks_per_byte > 0 {
            line.extend(b" @");
            number(line, ticks_per_byte.into());
        }
        if !wp_high {
            line.extend(b" wp=low");
        }
        line.extend(b" account=");
        number(line, self.account.into());
        line.extend(b" # ST ");
        pair(line, self.status);
        line.push(b' ');
        let Answer { outcome, cause, .. } = self.sent.exchange.answer;
        line.extend(outcome.word().as_bytes());
        if let Some(cause) = cause {
            line.extend(b": ");
            line.extend(cause.words().as_bytes());
        }
    }

    /// Its JSON object.
    pub fn json(&self, line: &mut Vec<u8>) {
        let exchange = &self.sent.exchange;
        begin(line, self.tick, self.account);
        line.extend(b",\"bytes\":\"");
        joined(line, self.input);
        line.extend(b"\",\"output\":\"");
        joined(line, &exchange.output);
        line.extend(b"\",\"outcome\":\"");
        line.extend(exchange.answer.outcome.word().as_bytes());
        line.extend(b"\",\"cause\":");
        match exchange.answer.cause {
            Some(cause) => {
                line.push(b'"');
                line.extend(cause.words().as_bytes());
                line.push(b'"');
            }
            None => line.extend(b"null"),
        }
        line.extend(b",\"billed\":");
        match self.sent.billed {
            Some(Billed { account, ticks }) => {
                number(line, ticks.into());
                line.extend(b",\"billed_to\":");
                number(line, account.into());
            }
            None => line.extend(b"0,\"billed_to\":null"),
        }
        line.push(b'}');
    }
}

/// A frame that was refused, so the part is as it was.
pub struct Refused {
    /// The tick of the last frame's end.
    pub tick: u128,
    /// Whose it is.
    pub account: u8,
    /// How many bytes were sent.
    pub sent: usize,
    /// How many were to be read.
    pub read: usize,
    /// Why.
    pub refusal: Refusal,
}

impl Refused {
    /// Its line for `run` and `bill`, which is a comment.
    pub fn line(&self, line: &mut Vec<u8>) {
        let Refused {
            account,
            sent,
            read,
            refusal,
            ..
        } = self;
        line.extend(format!("# refused: {sent} bytes sent, {read} to be read: {refusal}; account={account}").as_bytes());
    }

    /// Its JSON object.
    pub fn json(&self, line: &mut Vec<u8>) {
        begin(line, self.tick, self.account);
        let words = format!(
            ",\"sent\":{},\"read\":{},\"refusal\":{}}}",
            self.sent,
            self.read,
            self.refusal.number()
        );
        line.extend(words.as_bytes());
    }
}

/// How a JSON object begins.
fn begin(line: &mut Vec<u8>, tick: u128, account: u8) {
    line.extend(b"{\"tick\":");
    number(line, tick);
    line.extend(b",\"account\":");
    number(line, account.into());
}

/// A number in decimal.
fn number(line: &mut Vec<u8>, number: u128) {
    let _ = write!(line, "{number}"); // a vector takes all that is written
}

/// A byte as two hexadecimal digits.
fn pair(line: &mut Vec<u8>, byte: u8) {
    const DIGITS: &[u8; 16] = b"0123456789ABCDEF";
    line.extend([DIGITS[usize::from(byte >> 4)], DIGITS[usize::from(byte & 15)]]);
}

/// Bytes as pairs of hexadecimal digits.
fn joined(line: &mut Vec<u8>, bytes: &[u8]) {
    line.reserve(2 * bytes.len());
    bytes.iter().for_each(|byte| pair(line, *byte));
}

/// The same with a blank between two.
fn spaced(line: &mut Vec<u8>, bytes: &[u8]) {
    line.reserve(3 * bytes.len());
    for (place, byte) in bytes.iter().enumerate() {
        if place > 0 {
            line.push(b' ');
        }
        pair(line, *byte);
    }
}

#[cfg(test)]
mod tests {
    use super::*;
    use crate::desk::Desk;
    use oxterin::{Part, Size};

    /// The two lines of a frame for account 7 that a part with 20 busy ticks of account 3 takes.
    fn told(input: &[u8], signals: Signals) -> [String; 2] {
        let mut desk = Desk::new(Part::blank(Size::Whole));
        desk.part.record.busy = 20;
        desk.ledger.running.account = 3;
        let sent = desk.exchange(7, input, signals).expect("the part takes it");
        let told = Told {
            tick: desk.tick,
            account: 7,
            input,
            signals,
            sent: &sent,
            status: desk.part.status(signals.wp_high)[0],
        };
        let (mut line, mut json) = (Vec::new(), Vec::new());
        told.line(&mut line);
        told.json(&mut json);
        [line, json].map(|text| String::from_utf8(text).expect("text"))
    }

    #[test]
    fn a_frame_is_a_line_and_an_object() {
        let poll = [0x05, 0x00, 0x00];
        let plain = Signals::whole(&poll);
        assert_eq!(
            told(&poll, plain),
            [
                "05 00 00 account=7 # ST 11 read",
                r#"{"tick":0,"account":7,"bytes":"050000","output":"FF1101","outcome":"read","cause":null,"billed":0,"billed_to":null}"#
            ]
        );
        let slow = Signals {
            elapsed: 10,
            wp_high: false,
            ..plain.with_ticks_per_byte(8)
        };
        assert_eq!(
            told(&poll, slow),
            [
                "05 00 00 +10 @8 wp=low account=7 # ST 00 read",
                r#"{"tick":34,"account":7,"bytes":"050000","output":"FF0100","outcome":"read","cause":null,"billed":20,"billed_to":3}"#
            ]
        );
    }

    /// 20 ticks are left: the erase finds the part busy, or the latch clear when they are over.
    #[test]
    fn a_frame_that_was_not_carried_out_says_why() {
        let erase = Signals::whole(&[0xC7]);
        assert_eq!(
            told(&[0xC7], erase),
            [
                "C7 account=7 # ST 11 nothing: busy",
                r#"{"tick":0,"account":7,"bytes":"C7","output":"FF","outcome":"nothing","cause":"busy","billed":0,"billed_to":null}"#
            ]
        );
        let late = Signals { elapsed: 20, ..erase };
        assert_eq!(
            told(&[0xC7], late),
            [
                "C7 +20 account=7 # ST 10 nothing: latch clear",
                r#"{"tick":20,"account":7,"bytes":"C7","output":"FF","outcome":"nothing","cause":"latch clear","billed":20,"billed_to":3}"#
            ]
        );
        assert_eq!(told(&[], Signals::whole(&[]))[0], "/0 account=7 # ST 11 nothing: too few bits");
    }

    #[test]
    fn a_refused_frame_is_a_comment_and_an_object() {
        let refused = Refused {
            tick: 5,
            account: 7,
            sent: 0,
            read: 8_193,
            refusal: Refusal::InputLength,
        };
        let (mut line, mut json) = (Vec::new(), Vec::new());
        refused.line(&mut line);
        refused.json(&mut json);
        assert_eq!(
            line,
            b"# refused: 0 bytes sent, 8193 to be read: refusal 3: a frame has at most 8,192 bytes; account=7"
        );
        assert_eq!(json, br#"{"tick":5,"account":7,"sent":0,"read":8193,"refusal":3}"#);
    }
}
