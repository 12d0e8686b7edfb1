//! The opcode decoder: what each opcode asks for, and whether the part is in
//! a state to hear it.

use crate::cause::Cause;
use crate::record::{Mode, Operation, Record};

/// Manufacturer and device identification, as 9Fh shifts it out.
const IDENTITY: &[u8] = &[0x1F, 0x42, 0x00, 0x00];

/// The older, shorter identification, as 15h shifts it out.
const SHORT_IDENTITY: &[u8] = &[0x1F, 0x65];

/// What feeds the output shift register during a reading command.
#[derive(Clone, Copy, Debug, PartialEq, Eq)]
pub(crate) enum Source {
    /// Main array bytes, round and round.
    Array,
    /// Security register bytes, round and round.
    Register,
    /// The two status bytes in turn.
    Status,
    /// Fixed bytes, once.
    Fixed(&'static [u8]),
}

/// What part of the main array an erase covers.
#[derive(Clone, Copy, Debug, PartialEq, Eq)]
pub(crate) enum Region {
    /// The aligned block of that many bytes around the address.
    Block(usize),
    /// The whole array; no address is sent.
    Chip,
}

/// Commands that act on the record only and do not use the write latch.
#[derive(Clone, Copy, Debug, PartialEq, Eq)]
pub(crate) enum Control {
    /// Put the write latch to this level.
    Latch(bool),
    /// Go to sleep this deeply.
    Sleep(Mode),
    /// Leave deep power-down.
    Wake,
    /// Stop the running operation, if the operand confirms it.
    Reset,
}

/// Commands that the write latch admits and that use it up.
#[derive(Clone, Copy, Debug, PartialEq, Eq)]
pub(crate) enum Change {
    /// Program a page of the main array.
    Program,
    /// Erase a region of the main array, which is timed as this operation.
    Erase(Region, Operation),
    /// Program the user half of the security register, once.
    OtpProgram,
    /// Write status byte 1.
    Protection,
    /// Write status byte 2.
    ResetEnable,
}

/// A decoded opcode.
#[derive(Clone, Copy, Debug, PartialEq, Eq)]
pub(crate) enum Command {
    /// Shift out bytes of the source after that many filler bytes.
    Read(Source, u8),
    /// Act on the record.
    Control(Control),
    /// Change a memory or a status byte.
    Change(Change),
}

impl Command {
    /// Whether three address bytes follow the opcode.
    pub(crate) fn is_addressed(self) -> bool {
        matches!(
            self,
            Command::Read(Source::Array | Source::Register, _)
                | Command::Change(Change::Program | Change::Erase(Region::Block(_), _) | Change::OtpProgram)
        )
    }

    /// How many bytes without meaning come before the data.
    pub(crate) fn fillers(self) -> u8 {
        match self {
            Command::Read(_, fillers) => fillers,
            Command::Control(_) | Command::Change(_) => 0,
        }
    }
}

/// The command a part in this state hears in an opcode, or why it hears none.
/// One in ultra-deep power-down hears none, but the frame will wake it.
pub(crate) fn decode(opcode: u8, record: &Record) -> Result<Command, Cause> {
    let command = listed(opcode);
    match record.mode {
        Mode::UltraDeep => Err(Cause::Asleep),
        Mode::Deep => command.filter(|&command| is_heard_asleep(command)).ok_or(Cause::Asleep),
        Mode::Awake if record.busy > 0 && !command.is_some_and(is_heard_busy) => Err(Cause::Busy),
        Mode::Awake => admitted(command.ok_or(Cause::UnknownOpcode)?, record),
    }
}

/// The command an opcode stands for, whatever the part's state.
fn listed(opcode: u8) -> Option<Command> {
    let command = match opcode {
        0x03 => Command::Read(Source::Array, 0),
        0x0B => Command::Read(Source::Array, 1),
        0x77 => Command::Read(Source::Register, 2),
        0x05 => Command::Read(Source::Status, 0),
        0x9F => Command::Read(Source::Fixed(IDENTITY), 0),
        0x15 => Command::Read(Source::Fixed(SHORT_IDENTITY), 0),
        0x06 => Command::Control(Control::Latch(true)),
        0x04 => Command::Control(Control::Latch(false)),
        0xB9 => Command::Control(Control::Sleep(Mode::Deep)),
        0x79 => Command::Control(Control::Sleep(Mode::UltraDeep)),
        0xAB => Command::Control(Control::Wake),
        0xF0 => Command::Control(Control::Reset),
        0x02 => Command::Change(Change::Program),
        0x81 => erase(Region::Block(256), Operation::PageErase),
        0x20 => erase(Region::Block(4_096), Operation::SmallBlockErase),
        0x52 | 0xD8 => erase(Region::Block(32_768), Operation::LargeBlockErase),
        0x60 | 0x62 | 0xC7 => erase(Region::Chip, Operation::ChipErase),
        0x9B => Command::Change(Change::OtpProgram),
        0x01 => Command::Change(Change::Protection),
        0x31 => Command::Change(Change::ResetEnable),
        _ => return None,
    };
    Some(command)
}

/// Shorthand for an erasing command.
fn erase(region: Region, operation: Operation) -> Command {
    Command::Change(Change::Erase(region, operation))
}

/// Whether a command is heard in deep power-down.
fn is_heard_asleep(command: Command) -> bool {
    command == Command::Control(Control::Wake)
}

/// Whether a command is heard while an operation runs.
fn is_heard_busy(command: Command) -> bool {
    matches!(command, Command::Read(Source::Status, _) | Command::Control(Control::Reset))
}

/// The command, if an awake part's latch and reset enable admit it, or why not.
fn admitted(command: Command, record: &Record) -> Result<Command, Cause> {
    match command {
        Command::Change(_) if !record.wel => Err(Cause::LatchClear),
        Command::Control(Control::Reset) if !record.rste => Err(Cause::ResetNotReady),
        Command::Control(Control::Wake) => Err(Cause::AlreadyAwake),
        _ => Ok(command),
    }
}
