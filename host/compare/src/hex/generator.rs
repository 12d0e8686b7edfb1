//! Random texts: mostly good records in any case and with either line ending, some of them damaged, and noise.
use super::record::{checksum_off, lines, record, DATA, END, UPPER};
use crate::random::Random;

/// A text to be read, and how many bytes of the array are lent for it.
#[derive(Clone, Debug, PartialEq, Eq)]
pub struct Case {
    /// The text.
    pub text: Vec<u8>,
    /// The length of the array.
    pub array: usize,
}

/// Lengths of data by how often they are wanted.
const LENGTHS: [u64; 12] = [0, 1, 1, 1, 2, 3, 4, 8, 16, 16, 32, 255];

/// Offsets where records begin often, so that they meet: edges of the 64 KiB, and places in between.
const BUSY_OFFSETS: [u16; 6] = [0x0000, 0x0001, 0x7FF0, 0xFF00, 0xFFF0, 0xFFFF];

/// What a character is often changed into.
const LIKELY: &[u8] = b"0123456789ABCDEFabcdef:\r\n \0";

/// Alphabets of noise.
const NOISE: [&[u8]; 4] = [b":0\n", b":01F\r\n", LIKELY, b":0/9@AFG`afg\r\n\t \x00\x7F\xFF"];

/// Makes texts for an array of one size.
#[derive(Clone, Debug)]
pub struct Generator {
    /// Where its choices come from.
    random: Random,
    /// The length of the array.
    array: usize,
}

impl Generator {
    /// A generator of texts for an array of this size.
    #[must_use]
    pub fn new(random: Random, array: usize) -> Generator {
        Generator { random, array }
    }

    /// Any text, and at times an array of a size that is refused, at most one byte longer than the allowed one.
    pub fn case(&mut self) -> Case {
        let text = match self.random.below(100) {
            0..6 => self.noise(),
            6..30 => self.good(),
            _ => self.doubtful(),
        };
        let refused = [0, 1, self.array - 1, self.array + 1];
        let array = if self.random.chance(25) {
            self.random.pick(&refused)
        } else {
            self.array
        };
        Case { text, array }
    }

    /// A text that is accepted.
    pub fn good(&mut self) -> Vec<u8> {
        let mut records = self.records(0);
        records.push(self.end());
        self.dressed(&records)
    }

    /// The same records in other cases and with other line endings.
    pub fn redressed(&mut self, text: &[u8]) -> Vec<u8> {
        let text = text.strip_suffix(b"\n").unwrap_or(text);
        let lines = text.split(|&character| character == b'\n');
        let records: Vec<Vec<u8>> = lines.map(|line| line.strip_suffix(b"\r").unwrap_or(line).to_vec()).collect();
        self.dressed(&records)
    }

    /// Records with slips, mostly with an end, at times damaged afterwards.
    fn doubtful(&mut self) -> Vec<u8> {
        let slips = self.random.pick(&[0, 100, 250]);
        let mut records = self.records(slips);
        if !self.random.chance(80) {
            records.push(self.end());
        }
        let mut text = self.dressed(&records);
        if self.random.chance(400) {
            for _ in 0..self.random.pick(&[1, 1, 1, 2, 3]) {
                self.damage(&mut text);
            }
        }
        text
    }

    /// Characters that follow no order.
    fn noise(&mut self) -> Vec<u8> {
        let alphabet = self.random.pick(&NOISE);
        let length = self.random.below(60);
        (0..length).map(|_| self.random.pick(alphabet)).collect()
    }

    /// Records before the end, so many in a thousand of which are faulty.
    fn records(&mut self, slips: u64) -> Vec<Vec<u8>> {
        let count = self.random.pick(&[0, 1, 1, 2, 2, 3, 3, 4, 6, 9]);
        let mut upper = 0;
        (0..count).map(|_| self.record(&mut upper, slips)).collect()
    }

    /// A record of data, or one that sets the upper part; perhaps a faulty one. Where no slip may be, no data lie outside of the array.
    fn record(&mut self, upper: &mut u16, slips: u64) -> Vec<u8> {
        if self.random.chance(slips) {
            return self.slip(upper);
        }
        if self.random.chance(200) {
            *upper = match self.random.below(12) {
                0 => self.far_upper(),
                _ => self.random.below(self.parts().into()) as u16,
            };
            return self.upper(*upper);
        }
        let room = if slips == 0 && *upper >= self.parts() { 0 } else { 65_536 };
        self.data(room)
    }

    /// A record that is faulty, or has those behind it be so.
    fn slip(&mut self, upper: &mut u16) -> Vec<u8> {
        match self.random.below(6) {
            0 => self.other_kind(),
            1 => self.other_length(),
            2 => checksum_off(&self.data(65_536), self.random.pick(&[1, 0xFF])),
            3 => checksum_off(&self.other_kind(), 1 + self.random.below(255) as u8),
            4 => self.data(u64::MAX),
            _ => {
                *upper = self.far_upper();
                self.upper(*upper)
            }
        }
    }

    /// How many times 64 KiB the array has.
    fn parts(&self) -> u16 {
        (self.array / 65_536) as u16
    }

    /// An upper part behind the array.
    fn far_upper(&mut self) -> u16 {
        let parts = self.parts();
        self.random.pick(&[parts, 0x00FF, 0x0100, 0xFFFF])
    }

    /// A record of data that does not go past so many bytes of its 64 KiB; one without any data may stand anywhere.
    fn data(&mut self, room: u64) -> Vec<u8> {
        let near = u16::from(self.random.byte() % 20);
        let offset = match self.random.below(3) {
            0 => self.random.word() as u16,
            _ => self.random.pick(&BUSY_OFFSETS).saturating_add(near),
        };
        let length = match self.random.below(4) {
            0 => self.random.below(256),
            _ => self.random.pick(&LENGTHS),
        };
        let length = length.min(room.saturating_sub(offset.into()));
        let data: Vec<u8> = (0..length).map(|_| self.random.byte()).collect();
        record(DATA, offset, &data)
    }

    /// A record with the upper part; its address does not count.
    fn upper(&mut self, upper: u16) -> Vec<u8> {
        record(UPPER, self.idle_address(), &upper.to_be_bytes())
    }

    /// An end record; its address does not count.
    fn end(&mut self) -> Vec<u8> {
        record(END, self.idle_address(), &[])
    }

    /// Mostly 0.
    fn idle_address(&mut self) -> u16 {
        if self.random.chance(100) {
            self.random.word() as u16
        } else {
            0
        }
    }

    /// A record of a type that is not taken.
    fn other_kind(&mut self) -> Vec<u8> {
        let any = self.random.byte();
        let kind = self.random.pick(&[0x02, 0x03, 0x05, 0x06, 0x10, 0x40, any | 0x08]);
        let length = self.random.pick(&[0, 2, 2, 4, 4, 9]);
        let data: Vec<u8> = (0..length).map(|_| self.random.byte()).collect();
        record(kind, self.idle_address(), &data)
    }

    /// An end record with data, or an upper part that has not two bytes.
    fn other_length(&mut self) -> Vec<u8> {
        let data = self.random.word().to_be_bytes();
        let (kind, length) = self
            .random
            .pick(&[(END, 1), (END, 2), (UPPER, 0), (UPPER, 1), (UPPER, 3), (UPPER, 8)]);
        record(kind, 0, &data[..length])
    }

    /// Records in any case, with either line ending, the last of which may be missing.
    fn dressed(&mut self, records: &[Vec<u8>]) -> Vec<u8> {
        let (lower, crlf) = (self.random.pick(&[0, 500, 1_000]), self.random.pick(&[0, 500, 1_000]));
        let mut text = Vec::new();
        for record in records {
            let cased = record.iter().map(|character| match self.random.chance(lower) {
                true => character.to_ascii_lowercase(),
                false => character.to_ascii_uppercase(),
            });
            text.extend(cased);
            text.extend_from_slice(if self.random.chance(crlf) { b"\r\n" } else { b"\n" });
        }
        if text.ends_with(b"\n") && self.random.chance(250) {
            text.pop();
            text.pop_if(|last| *last == b'\r');
        }
        text
    }

    /// Changes a text in one of many ways, if there is anything to change.
    fn damage(&mut self, text: &mut Vec<u8>) {
        let place = self.random.below(text.len() as u64 + 1) as usize;
        let likely = self.random.pick(LIKELY);
        match self.random.below(14) {
            0 => text.insert(place, likely),
            1 => text.insert(place, b'\r'),
            2 => text.insert(place, 0),
            3 => text.truncate(place),
            4 => text.push(likely),
            5 => text.extend_from_slice(b"\n:00000001FF\n"),
            6 if !text.is_empty() => self.double_line(text),
            7 if !text.is_empty() => self.swap_lines(text),
            8 => join_lines(text, place),
            _ if place == text.len() => {}
            9 => text[place] = likely,
            10 => text[place] = self.random.byte(),
            11 => text[place] = text[place].wrapping_add(1),
            12 => text[place] = text[place].wrapping_sub(1),
            _ => drop(text.remove(place)),
        }
    }

    /// Has a line stand twice.
    fn double_line(&mut self, text: &mut Vec<u8>) {
        let mut lines = lines(text);
        let place = self.random.below(lines.len() as u64) as usize;
        lines.insert(place, lines[place].clone());
        *text = lines.concat();
    }

    /// Has two lines change places.
    fn swap_lines(&mut self, text: &mut Vec<u8>) {
        let mut lines = lines(text);
        let [one, other] = [0; 2].map(|_| self.random.below(lines.len() as u64) as usize);
        lines.swap(one, other);
        *text = lines.concat();
    }
}

/// Takes off the first line feed from this place on.
fn join_lines(text: &mut Vec<u8>, place: usize) {
    if let Some(distance) = text[place..].iter().position(|&character| character == b'\n') {
        text.remove(place + distance);
    }
}
