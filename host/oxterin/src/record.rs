//! The device record and the settings.
use crate::raw;

/// Awake, or in one of the two sleep modes.
#[derive(Clone, Copy, Debug, PartialEq, Eq, Hash)]
pub enum Mode {
    /// Takes commands.
    Awake,
    /// Deep power-down: only ABh wakes the part.
    Deep,
    /// Ultra-deep power-down: any frame wakes the part.
    UltraDeep,
}

/// The device record: all that the part remembers beside its memories.
///
/// It is plain data. Every value may be handed to a frame; more than 60,000,000 busy ticks, or any while asleep, are refused
/// ([`crate::Refusal::Record`]).
#[derive(Clone, Copy, Debug, PartialEq, Eq, Hash)]
pub struct Record {
    /// BPL, the lock of the protection bit.
    pub bpl: bool,
    /// BP0, the protection of the whole array.
    pub bp0: bool,
    /// WEL, the write enable latch.
    pub wel: bool,
    /// RSTE, whether the reset command is heard.
    pub rste: bool,
    /// Whether the one-time-programmable bytes have been programmed.
    pub otp_used: bool,
    /// Awake or asleep.
    pub mode: Mode,
    /// Ticks left until the running operation ends.
    pub busy: u64,
}

impl Record {
    /// A fresh record: awake, idle, WEL and RSTE clear.
    ///
    /// ```
    /// let record = oxterin::Record::fresh(false, true, false);
    /// assert!(record.bp0 && !record.wel && record.busy == 0);
    /// ```
    #[must_use]
    pub fn fresh(bpl: bool, bp0: bool, otp_used: bool) -> Record {
        let mut words = [0; raw::RECORD];
        let number = raw::fresh(bpl.into(), bp0.into(), otp_used.into(), &mut words);
        debug_assert_eq!(number, 0);
        Record::of_words(&words)
    }

    /// Status bytes 1 and 2, with the level of WP.
    ///
    /// ```
    /// assert_eq!(oxterin::Record::fresh(true, true, false).status(true), [0x94, 0x00]);
    /// ```
    #[must_use]
    pub fn status(&self, wp_high: bool) -> [u8; 2] {
        let mut status = [0; raw::STATUS];
        let number = raw::status(&self.words(), wp_high.into(), &mut status);
        debug_assert_eq!(number, 0);
        status.map(|byte| byte as u8)
    }

    /// The record as the face's words.
    #[must_use]
    #[inline]
    pub fn words(&self) -> [u64; raw::RECORD] {
        let mode = match self.mode {
            Mode::Awake => 0,
            Mode::Deep => 1,
            Mode::UltraDeep => 2,
        };
        [
            self.bpl.into(),
            self.bp0.into(),
            self.wel.into(),
            self.rste.into(),
            self.otp_used.into(),
            mode,
            self.busy,
        ]
    }

    /// The record of these words; none if a flag is neither 0 nor 1, or there is no such mode.
    ///
    /// ```
    /// use oxterin::Record;
    ///
    /// let record = Record::fresh(true, false, true);
    /// assert_eq!(Record::from_words(&record.words()), Some(record));
    /// assert_eq!(Record::from_words(&[0, 0, 2, 0, 0, 0, 0]), None);
    /// assert_eq!(Record::from_words(&[0, 0, 0, 0, 0, 3, 0]), None);
    /// ```
    #[must_use]
    pub fn from_words(words: &[u64; raw::RECORD]) -> Option<Record> {
        let record = Record::of_words(words);
        (record.words() == *words).then_some(record)
    }

    #[inline]
    pub(crate) fn of_words(words: &[u64; raw::RECORD]) -> Record {
        Record {
            bpl: words[0] == 1,
            bp0: words[1] == 1,
            wel: words[2] == 1,
            rste: words[3] == 1,
            otp_used: words[4] == 1,
            mode: match words[5] {
                0 => Mode::Awake,
                1 => Mode::Deep,
                _ => Mode::UltraDeep,
            },
            busy: words[6],
        }
    }
}

/// How long each kind of operation takes, in ticks; a tick is a microsecond by convention.
#[derive(Clone, Copy, Debug, PartialEq, Eq, Hash)]
pub struct Settings {
    /// A program of one byte.
    pub byte_program: u64,
    /// A program of more than one byte.
    pub longer_program: u64,
    /// A 256-byte page erase.
    pub page_erase: u64,
    /// A 4-KiB erase.
    pub erase_4k: u64,
    /// A 32-KiB erase.
    pub erase_32k: u64,
    /// A chip erase.
    pub chip_erase: u64,
    /// A program of the one-time-programmable bytes.
    pub otp_program: u64,
    /// A write of status byte 1.
    pub status_write: u64,
}

impl Settings {
    /// The names of the eight durations, in the order of their words.
    pub const NAMES: [&'static str; raw::SETTINGS] = [
        "byte-program",
        "longer-program",
        "page-erase",
        "erase-4k",
        "erase-32k",
        "chip-erase",
        "otp-program",
        "status-write",
    ];

    /// The data sheet's typical durations.
    ///
    /// ```
    /// assert_eq!(oxterin::Settings::typical().chip_erase, 1_600_000);
    /// ```
    #[must_use]
    pub fn typical() -> Settings {
        let mut words = [0; raw::SETTINGS];
        let number = raw::typical(&mut words);
        debug_assert_eq!(number, 0);
        Settings::of_words(&words)
    }

    /// The durations as the face's words.
    #[must_use]
    #[inline]
    pub fn words(&self) -> [u64; raw::SETTINGS] {
        [
            self.byte_program,
            self.longer_program,
            self.page_erase,
            self.erase_4k,
            self.erase_32k,
            self.chip_erase,
            self.otp_program,
            self.status_write,
        ]
    }

    /// The durations of these words.
    #[must_use]
    #[inline]
    pub fn of_words(words: &[u64; raw::SETTINGS]) -> Settings {
        let [byte_program, longer_program, page_erase, erase_4k, erase_32k, chip_erase, otp_program, status_write] = *words;
        Settings {
            byte_program,
            longer_program,
            page_erase,
            erase_4k,
            erase_32k,
            chip_erase,
            otp_program,
            status_write,
        }
    }
}
