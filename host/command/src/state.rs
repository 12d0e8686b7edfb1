//! The state of a desk in a file: array, register, record, settings, ledger and time, with a checksum.
//!
//! docs/STATE.md gives the layout.
use crate::complaint::{complaint, Complaint};
use crate::desk::Desk;
use crate::fresh::{self, PART_FLAGS, PART_VALUED};
use crate::lines::{counted, thousands};
use crate::options::Given;
use crate::source::quoted;
use crate::whole::{Held, Kind};
use oxterin::{Ledger, Part, Record, Refusal, Running, Settings};
use std::fs::{self, File};
use std::io::{self, Read};

/// What `--state` means, for every subcommand that has it.
pub const STATE_HELP: &str =
    "  --state FILE        goes on from FILE, which oxterin state has made, and saves it afterwards: array, security
                      register, record, durations, ledger and time. It goes with none of --size, --image, --set,
                      --bpl, --bp0 and --otp-used
";

/// What is saved here.
const STATE: Kind = Kind {
    word: "state",
    such_as: "bench.state",
};

/// The first bytes of every state.
const MAGIC: &[u8; 8] = b"OXTSTATE";
/// The layout's version.
const VERSION: u64 = 1;
/// The bytes of a number.
const WORD: usize = 8;
/// The bytes before the array: the first ones, the words, and the register.
const HEAD: usize = WORD * (1 + 27 + 3 * Ledger::ACCOUNTS) + Part::REGISTER;
/// The bytes beside the array: those before it, and the checksum.
const BESIDE: usize = HEAD + WORD;
/// No state has more bytes.
const MOST: usize = BESIDE + 131_072;

/// `--state FILE`, if it is given: the file's path. The options that describe a fresh part do not go with it.
pub fn path(given: &Given) -> Result<Option<&str>, Complaint> {
    let Some(path) = given.value("--state") else { return Ok(None) };
    let mut options = PART_VALUED.iter().chain(&PART_FLAGS);
    match options.find(|option| given.has(option) || given.value(option).is_some()) {
        Some(option) => Err(complaint(format!(
            "{option} describes a fresh part, and --state {path} has its own; leave {option} out, or make another state: \
             oxterin state FILE --new {option} .."
        ))),
        None => Ok(Some(path)),
    }
}

/// The desk that the options describe: one that goes on from `--state`, with the file to save it in, or a fresh one.
pub fn desk(given: &Given) -> Result<(Desk, Option<Held>), Complaint> {
    match path(given)? {
        Some(path) => open(path).map(|(desk, held)| (desk, Some(held))),
        None => Ok((Desk::new(fresh::part(given)?), None)),
    }
}

/// The same, where a state is only read.
pub fn seen(given: &Given) -> Result<Desk, Complaint> {
    match path(given)? {
        Some(path) => load(path),
        None => Ok(Desk::new(fresh::part(given)?)),
    }
}

/// Takes hold of a state, and what it says.
pub fn open(path: &str) -> Result<(Desk, Held), Complaint> {
    let held = STATE.hold(path)?;
    match held.exists() {
        true => Ok((load(path)?, held)),
        false => Err(none_there(path)),
    }
}

/// Takes hold of the place of a state that is to be made.
pub fn make(path: &str) -> Result<Held, Complaint> {
    let held = STATE.hold(path)?;
    match held.exists() {
        true => Err(complaint(format!(
            "{path}: there is a file already; name another, or remove it first"
        ))),
        false => Ok(held),
    }
}

/// Keeps a desk beside its state as it is before its books are emptied: as FILE.closed-TICK, at a name at which nothing is. Books with nothing
/// in them are not kept.
pub fn keep_closed(path: &str, desk: &Desk) -> Result<(), Complaint> {
    if desk.accounts().is_empty() {
        return Ok(());
    }
    let first = format!("{path}.closed-{}", desk.tick);
    let mut names = std::iter::once(first.clone()).chain((2..).map(|number| format!("{first}-{number}")));
    let name = names.find(|name| fs::symlink_metadata(name).is_err()).expect("a name is free");
    make(&name)?.save(&encode(desk))
}

/// What a state says. Whoever uses it meanwhile is not disturbed: it is always whole.
pub fn load(path: &str) -> Result<Desk, Complaint> {
    let bytes = read(path).map_err(|error| match error.kind() {
        io::ErrorKind::NotFound => none_there(path),
        _ => complaint(format!("{path}: {error}; name a file that can be read")),
    })?;
    decode(&bytes).map_err(|wrong| complaint(format!("{path}: {wrong}")))
}

/// The complaint of a state that is not there.
fn none_there(path: &str) -> Complaint {
    complaint(format!(
        "{path}: there is no such state; make one first: oxterin state {} --new",
        quoted(path)
    ))
}

/// The bytes of a file, one more than a state can have if there are so many.
fn read(path: &str) -> io::Result<Vec<u8>> {
    let mut bytes = Vec::new();
    File::open(path)?.take(MOST as u64 + 1).read_to_end(&mut bytes)?;
    Ok(bytes)
}

/// A desk as the bytes of a state.
pub fn encode(desk: &Desk) -> Vec<u8> {
    let Desk {
        part,
        ledger,
        tick,
        sent,
        waiting,
        opened,
        frames,
    } = desk;
    let length = BESIDE + part.array().len();
    let mut bytes = Vec::with_capacity(length);
    bytes.extend(MAGIC);
    let mut put = |words: &[u64]| bytes.extend(words.iter().flat_map(|word| word.to_le_bytes()));
    put(&[VERSION, length as u64, part.array().len() as u64]);
    put(&part.record.words());
    put(&part.settings.words());
    put(&halves(*tick));
    put(&[*sent, *waiting]);
    put(&halves(*opened));
    put(&[*frames, ledger.running.account, ledger.running.billed]);
    for table in [&ledger.totals, &ledger.most, &ledger.numbers] {
        put(table);
    }
    bytes.extend(part.register());
    bytes.extend(part.array());
    let sum = u64::from(checksum(&bytes));
    bytes.extend(sum.to_le_bytes());
    bytes
}

/// The desk of a state; if it is none, the words say what is wrong and what to do.
pub fn decode(bytes: &[u8]) -> Result<Desk, String> {
    let Some(rest) = bytes.strip_prefix(MAGIC) else {
        return Err("not a state of oxterin, which begins with OXTSTATE; name another file, or make one: oxterin state FILE --new".into());
    };
    let version = Words(rest).next().unwrap_or(VERSION);
    if version != VERSION {
        return Err(format!(
            "a state of version {version}, and this oxterin reads version {VERSION}; use the oxterin that wrote it"
        ));
    }
    whole(bytes)?;
    let mut words = Words(&rest[WORD..]);
    let _length = words.next();
    let array = words.next().unwrap_or(0) as usize;
    let record =
        Record::from_words(&words.take()).ok_or_else(|| damaged("a flag of its record is neither 0 nor 1, or its mode is above 2"))?;
    let settings = Settings::of_words(&words.take());
    let tick = words.double();
    let [sent, waiting] = words.take();
    let opened = words.double();
    let [frames, account, billed] = words.take();
    let ledger = Ledger {
        totals: words.take(),
        most: words.take(),
        numbers: words.take(),
        running: Running { account, billed },
    };
    let (register, rest) = words.0.split_at(Part::REGISTER);
    let part =
        Part::resumed(rest[..array].to_vec(), register.to_vec(), record, settings).map_err(|refusal| damaged(&refusal.to_string()))?;
    acceptable(&part)?;
    match opened <= tick {
        true => Ok(Desk {
            part,
            ledger,
            tick,
            sent,
            waiting,
            opened,
            frames,
        }),
        false => Err(damaged("its books were opened after its last tick")),
    }
}

/// Whether these are all bytes of a state, as they were written.
fn whole(bytes: &[u8]) -> Result<(), String> {
    let mut words = Words(bytes.get(2 * WORD..).unwrap_or_default());
    let (length, array) = (words.next(), words.next());
    let wanted = array
        .and_then(|array| array.checked_add(BESIDE as u64))
        .filter(|wanted| length == Some(*wanted));
    let found = bytes.len() as u64;
    match (length, wanted) {
        (Some(length), _) if length != found && length <= MOST as u64 => {
            return Err(damaged(&format!(
                "it says {}, and has {}",
                counted(length, "byte"),
                thousands(found)
            )));
        }
        (Some(length), Some(_)) if length == found => {}
        _ => return Err(damaged("its lengths are not those of a state")),
    }
    let (content, sum) = bytes.split_at(bytes.len() - WORD);
    let (said, found) = (Words(sum).one(), u64::from(checksum(content)));
    match said == found {
        true => Ok(()),
        false => Err(damaged(&format!(
            "its checksum is {said:08X}h, and that of its content {found:08X}h"
        ))),
    }
}

/// Whether the part takes frames: a record or durations that it refuses (6, 7) were never saved.
fn acceptable(part: &Part) -> Result<(), String> {
    match part.clone().send(&[]) {
        Ok(_) => Ok(()),
        Err(refusal @ (Refusal::Record | Refusal::Duration)) => Err(damaged(&refusal.to_string())),
        Err(refusal) => Err(refusal.to_string()),
    }
}

/// What is said of a damaged state.
fn damaged(how: &str) -> String {
    format!("a damaged state: {how}; nothing was changed; use an undamaged copy")
}

/// A number of 128 bits as two words, the lower one first.
fn halves(number: u128) -> [u64; 2] {
    [number as u64, (number >> 64) as u64]
}

/// Words that are read from bytes, lowest byte first.
struct Words<'a>(&'a [u8]);

impl Words<'_> {
    /// The next word, if there is one.
    fn next(&mut self) -> Option<u64> {
        let (word, rest) = self.0.split_first_chunk::<WORD>()?;
        self.0 = rest;
        Some(u64::from_le_bytes(*word))
    }

    /// The next word of a state whose length was found right.
    fn one(&mut self) -> u64 {
        self.next().expect("the length was found right")
    }

    /// So many of them.
    fn take<const COUNT: usize>(&mut self) -> [u64; COUNT] {
        std::array::from_fn(|_| self.one())
    }

    /// A number of 128 bits.
    fn double(&mut self) -> u128 {
        let [low, high] = self.take().map(u128::from);
        (high << 64) | low
    }
}

/// The checksum of bytes: CRC-32 as in Ethernet, gzip and PNG.
fn checksum(bytes: &[u8]) -> u32 {
    !bytes.iter().fold(!0, |sum, byte| (sum >> 8) ^ TABLE[(sum as u8 ^ byte) as usize])
}

/// What each byte does to the checksum.
const TABLE: [u32; 256] = table();

/// The remainder of each byte by the polynomial EDB88320h, lowest bit first.
const fn table() -> [u32; 256] {
    let mut table = [0; 256];
    let mut byte = 0;
    while byte < table.len() {
        let (mut sum, mut bit) = (byte as u32, 0);
        while bit < 8 {
            sum = (sum >> 1) ^ (0xEDB8_8320 * (sum & 1));
            bit += 1;
        }
        table[byte] = sum;
        byte += 1;
    }
    table
}

#[cfg(test)]
mod tests {
    use super::*;
    use oxterin::{Mode, Size};

    /// A desk in which every number is another one.
    fn desk() -> Desk {
        let numbered = |first: u64| std::array::from_fn(|place| first + place as u64);
        let array = (0..Size::Small.bytes()).map(|place| ((place * 7) >> 3) as u8).collect();
        let record = Record {
            bpl: true,
            bp0: false,
            wel: true,
            rste: false,
            otp_used: true,
            mode: Mode::Awake,
            busy: 600_000,
        };
        let settings = Settings::of_words(&[11, 12, 13, 14, 15, 16, 17, 18]);
        let part = Part::resumed(array, (0..128).collect(), record, settings).expect("a part");
        Desk {
            part,
            ledger: Ledger {
                totals: numbered(1_000),
                most: numbered(2_000),
                numbers: numbered(3_000),
                running: Running { account: 7, billed: 44 },
            },
            tick: (5 << 64) + 6,
            sent: 99,
            waiting: 77,
            opened: (3 << 64) + 9,
            frames: 88,
        }
    }

    /// The check value that the catalogue of such sums gives for CRC-32.
    #[test]
    fn the_checksum_is_the_usual_one() {
        assert_eq!(checksum(b"123456789"), 0xCBF4_3926);
        assert_eq!(checksum(b""), 0);
    }

    /// The places that docs/STATE.md gives.
    #[test]
    fn every_number_has_its_place() {
        let bytes = encode(&desk());
        let word = |place: usize| u64::from_le_bytes(bytes[place..place + 8].try_into().expect("eight bytes"));
        assert_eq!(&bytes[..8], b"OXTSTATE");
        assert_eq!([8, 16, 24].map(word), [1, 72_040, 65_536]);
        assert_eq!([32, 40, 48, 56, 64, 72, 80].map(word), [1, 0, 1, 0, 1, 0, 600_000]);
        assert_eq!([88, 144].map(word), [11, 18]);
        assert_eq!([152, 160, 168, 176, 184, 192, 200].map(word), [6, 5, 99, 77, 9, 3, 88]);
        assert_eq!([208, 216].map(word), [7, 44]);
        assert_eq!(
            [224, 2_264, 2_272, 4_312, 4_320, 6_360].map(word),
            [1_000, 1_255, 2_000, 2_255, 3_000, 3_255]
        );
        assert_eq!(
            [bytes[6_368], bytes[6_495], bytes[6_496 + 0x1234]],
            [0, 127, ((0x1234 * 7) >> 3) as u8]
        );
        assert_eq!(bytes.len(), 72_040);
    }

    #[test]
    fn a_desk_comes_back_as_it_was() {
        let fresh = Desk::new(Part::blank(Size::Whole));
        for desk in [desk(), fresh] {
            assert_eq!(decode(&encode(&desk)), Ok(desk));
        }
    }

    #[test]
    fn no_changed_byte_passes() {
        let bytes = encode(&desk());
        for place in (0..bytes.len()).step_by(61).chain(0..240).chain(bytes.len() - 8..bytes.len()) {
            for change in [0x01, 0x80, 0xFF] {
                let mut bytes = bytes.clone();
                bytes[place] ^= change;
                assert!(decode(&bytes).is_err(), "byte {place}, changed by {change:02X}h");
            }
        }
        for length in (0..bytes.len()).step_by(173).chain(0..240) {
            assert!(decode(&bytes[..length]).is_err(), "the first {length} bytes");
        }
        assert!(decode(&[&bytes[..], &[0]].concat()).is_err());
    }

    /// A state whose checksum is right but that no oxterin writes.
    #[test]
    fn what_is_wrong_is_said() {
        let changed = |place: usize, word: u64| {
            let mut bytes = encode(&desk());
            bytes[place..place + 8].copy_from_slice(&word.to_le_bytes());
            let end = bytes.len() - 8;
            let sum = u64::from(checksum(&bytes[..end]));
            bytes[end..].copy_from_slice(&sum.to_le_bytes());
            decode(&bytes).expect_err("no state")
        };
        assert!(changed(0, 0).contains("OXTSTATE"));
        assert!(changed(8, 2).contains("version 2"));
        assert!(changed(16, 72_039).contains("it says 72,039 bytes, and has 72,040"));
        assert!(changed(16, u64::MAX).contains("lengths"));
        assert!(changed(24, u64::MAX).contains("lengths"));
        assert!(changed(24, 65_535).contains("lengths"));
        assert!(changed(32, 2).contains("record"));
        assert!(changed(72, 3).contains("record"));
        assert!(changed(80, 60_000_001).contains("refusal 6"));
        assert!(changed(72, 1).contains("refusal 6"));
        assert!(changed(88, 0).contains("refusal 7"));
        assert!(changed(192, 6).contains("opened"));
    }

    #[test]
    fn a_ledger_that_is_full_can_be_loaded_and_closed() {
        let mut full = desk();
        full.ledger.totals[3] = u64::MAX;
        let mut again = decode(&encode(&full)).expect("a state");
        again.close();
        assert_eq!(again.ledger.totals, [0; 256]);
        assert_eq!(
            (again.ledger.running.account, again.ledger.running.billed),
            (full.ledger.running.account, 0)
        );
        assert_eq!((again.opened, again.frames), (full.tick, 0));
    }
}
