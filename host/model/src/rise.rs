//! What the rise of chip select does with what the machine gathered.

use crate::cause::Cause;
use crate::decoder::{Change, Command, Control, Region};
use crate::machine::Gathered;
use crate::page::{OTP_PLACES, PAGE};
use crate::record::{Mode, Operation, Record, Settings};
use crate::view::wired;
use crate::Outcome;

/// The operand that confirms a reset.
const RESET_KEY: u8 = 0xD0;

/// The place of BPL in the operand of a write of status byte 1.
const BPL_BIT: u8 = 1 << 7;

/// The place of BP0 in the operand of a write of status byte 1.
const BP0_BIT: u8 = 1 << 2;

/// The place of RSTE in the operand of a write of status byte 2.
const RSTE_BIT: u8 = 1 << 4;

/// Ends a frame: the record afterwards, the outcome, the cause if there was no
/// effect, and the memory changes.
pub(crate) fn settle(
    gathered: Gathered,
    settings: &Settings,
    wp_high: bool,
    array: &mut [u8],
    register: &mut [u8],
) -> (Record, Outcome, Option<Cause>) {
    let record = gathered.record;
    if record.mode == Mode::UltraDeep {
        return (roused(record), Outcome::Control, None);
    }
    match gathered.command {
        Err(cause) => (record, Outcome::Nothing, Some(cause)),
        Ok(Command::Read(..)) => (record, Outcome::Read, None),
        Ok(Command::Control(control)) => match obey(control, &gathered, record) {
            Ok(after) => (after, Outcome::Control, None),
            Err(cause) => (record, Outcome::Nothing, Some(cause)),
        },
        Ok(Command::Change(change)) => {
            let spent = record.latched(false);
            let mut bench = Bench {
                settings,
                wp_high,
                array,
                register,
            };
            match bench.attempt(change, &gathered, spent) {
                Ok((after, outcome)) => (after, outcome, None),
                Err(cause) => (spent, Outcome::Aborted, Some(cause)),
            }
        }
    }
}

/// The record after waking from ultra-deep power-down.
fn roused(record: Record) -> Record {
    Record {
        rste: false,
        ..record.in_mode(Mode::Awake).latched(false)
    }
}

/// The record after a control command, or why it is not carried out.
fn obey(control: Control, gathered: &Gathered, record: Record) -> Result<Record, Cause> {
    match control {
        Control::Wake if !gathered.on_boundary => Err(Cause::Asleep),
        Control::Reset if gathered.operand != RESET_KEY => Err(Cause::ResetNotReady),
        _ if !gathered.on_boundary => Err(Cause::OffBoundary),
        Control::Latch(level) => Ok(record.latched(level)),
        Control::Sleep(mode) => Ok(record.in_mode(mode)),
        Control::Wake => Ok(record.in_mode(Mode::Awake)),
        Control::Reset => Ok(record.occupied(0).latched(false)),
    }
}

/// What a changing command works on and is timed by.
struct Bench<'a> {
    /// The durations.
    settings: &'a Settings,
    /// Level of the write-protect pin.
    wp_high: bool,
    /// The main array.
    array: &'a mut [u8],
    /// The security register.
    register: &'a mut [u8],
}

impl Bench<'_> {
    /// Carries out a changing command on a record whose latch is already
    /// spent, or says why it has to be aborted.
    fn attempt(&mut self, change: Change, gathered: &Gathered, record: Record) -> Result<(Record, Outcome), Cause> {
        if !gathered.on_boundary {
            return Err(Cause::OffBoundary);
        }
        if !gathered.supplied {
            return Err(Cause::Incomplete);
        }
        match change {
            Change::Program => self.program(gathered, record),
            Change::Erase(region, operation) => self.erase(region, operation, gathered.address, record),
            Change::OtpProgram => self.program_otp(gathered, record),
            Change::Protection => self.write_protection(gathered.operand, record),
            Change::ResetEnable => Ok(enable_reset(gathered.operand, record)),
        }
    }

    /// Burns the page buffer into the page of the address, unless protected.
    fn program(&mut self, gathered: &Gathered, record: Record) -> Result<(Record, Outcome), Cause> {
        if record.bp0 {
            return Err(Cause::Protected);
        }
        let operation = match gathered.page.sent() {
            1 => Operation::OneByteProgram,
            _ => Operation::LongerProgram,
        };
        gathered.page.burn(self.block(gathered.address, PAGE));
        Ok(self.begun(record, operation))
    }

    /// Sets a region to all 1s, unless protected.
    fn erase(&mut self, region: Region, operation: Operation, address: usize, record: Record) -> Result<(Record, Outcome), Cause> {
        if record.bp0 {
            return Err(Cause::Protected);
        }
        match region {
            Region::Block(size) => self.block(address, size).fill(0xFF),
            Region::Chip => self.array.fill(0xFF),
        }
        Ok(self.begun(record, operation))
    }

    /// Burns the page buffer into the user half of the register, one time.
    fn program_otp(&mut self, gathered: &Gathered, record: Record) -> Result<(Record, Outcome), Cause> {
        if record.otp_used {
            return Err(Cause::AlreadyProgrammed);
        }
        gathered.page.burn(&mut self.register[..OTP_PLACES]);
        let used = Record { otp_used: true, ..record };
        Ok(self.begun(used, Operation::OtpProgram))
    }

    /// Writes status byte 1: a set BPL shields BP0, and with the pin low
    /// itself as well.
    fn write_protection(&self, operand: u8, record: Record) -> Result<(Record, Outcome), Cause> {
        if record.bpl && !self.wp_high {
            return Err(Cause::Locked);
        }
        let bp0 = if record.bpl { record.bp0 } else { operand & BP0_BIT != 0 };
        let bpl = operand & BPL_BIT != 0;
        Ok(self.begun(Record { bpl, bp0, ..record }, Operation::StatusWrite))
    }

    /// The aligned block of that many array bytes around the address.
    fn block(&mut self, address: usize, size: usize) -> &mut [u8] {
        let inside = wired(address, self.array.len());
        let start = inside - wired(inside, size);
        &mut self.array[start..start + size]
    }

    /// The record made busy with an operation that took effect.
    fn begun(&self, record: Record, operation: Operation) -> (Record, Outcome) {
        let busy = self.settings.ticks(operation);
        (record.occupied(busy), Outcome::Begun)
    }
}

/// Writes status byte 2, which takes no time.
fn enable_reset(operand: u8, record: Record) -> (Record, Outcome) {
    let rste = operand & RSTE_BIT != 0;
    (Record { rste, ..record }, Outcome::Control)
}
