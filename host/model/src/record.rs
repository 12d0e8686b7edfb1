//! The device record and the settings record.

/// How deeply the part sleeps.
#[derive(Clone, Copy, Debug, PartialEq, Eq)]
pub enum Mode {
    /// Not asleep: every command is decoded.
    Awake,
    /// Deep power-down: only the wake command is decoded.
    Deep,
    /// Ultra-deep power-down: any chip-select frame wakes the part.
    UltraDeep,
}

/// All the part remembers from frame to frame besides its memories.
#[derive(Clone, Copy, Debug, PartialEq, Eq)]
pub struct Record {
    /// Protection is locked as long as the write-protect pin is low.
    pub bpl: bool,
    /// The main array is protected from program and erase.
    pub bp0: bool,
    /// Write latch: the next changing command is admitted.
    pub wel: bool,
    /// The reset command is enabled.
    pub rste: bool,
    /// The one-time programming of the register has been used up.
    pub otp_used: bool,
    /// How deeply the part sleeps.
    pub mode: Mode,
    /// Ticks until the running operation is over, 0 if none runs.
    pub busy: u64,
}

impl Record {
    /// The record of a part just put on the bench.
    pub fn fresh(bpl: bool, bp0: bool, otp_used: bool) -> Record {
        Record {
            bpl,
            bp0,
            wel: false,
            rste: false,
            otp_used,
            mode: Mode::Awake,
            busy: 0,
        }
    }

    /// Status bytes 1 and 2 under the given write-protect level.
    pub fn status(&self, wp_high: bool) -> [u8; 2] {
        let busy = u8::from(self.busy > 0);
        let first = (u8::from(self.bpl) << 7) | (u8::from(wp_high) << 4) | (u8::from(self.bp0) << 2) | (u8::from(self.wel) << 1) | busy;
        let second = (u8::from(self.rste) << 4) | busy;
        [first, second]
    }

    /// The record after some ticks have gone by.
    pub(crate) fn rested(self, ticks: u64) -> Record {
        Record {
            busy: self.busy.saturating_sub(ticks),
            ..self
        }
    }

    /// The record with the write latch at the given level.
    pub(crate) fn latched(self, wel: bool) -> Record {
        Record { wel, ..self }
    }

    /// The record with another depth of sleep.
    pub(crate) fn in_mode(self, mode: Mode) -> Record {
        Record { mode, ..self }
    }

    /// The record with an operation of that many ticks started.
    pub(crate) fn occupied(self, busy: u64) -> Record {
        Record { busy, ..self }
    }
}

/// Names the places of the settings' durations.
#[derive(Clone, Copy, Debug, PartialEq, Eq)]
pub(crate) enum Operation {
    /// Program of the array with one data byte sent.
    OneByteProgram,
    /// Program of the array with more data bytes sent.
    LongerProgram,
    /// Erase of 256 bytes.
    PageErase,
    /// Erase of 4 KiB.
    SmallBlockErase,
    /// Erase of 32 KiB.
    LargeBlockErase,
    /// Erase of the whole array.
    ChipErase,
    /// Program of the security register.
    OtpProgram,
    /// Write of status byte 1.
    StatusWrite,
}

/// How long the part's operations take.
#[derive(Clone, Copy, Debug, PartialEq, Eq)]
pub struct Settings {
    /// Ticks for one-byte program, longer program, page erase, 4-KiB erase,
    /// 32-KiB erase, chip erase, OTP program and status write.
    pub durations: [u64; 8],
}

impl Settings {
    /// The typical times, a tick being a microsecond.
    pub fn typical() -> Settings {
        Settings {
            durations: [12, 2_000, 7_000, 50_000, 400_000, 1_600_000, 400, 20_000],
        }
    }

    /// Ticks that one operation takes.
    pub(crate) fn ticks(&self, operation: Operation) -> u64 {
        self.durations[operation as usize]
    }
}
