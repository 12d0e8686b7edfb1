//! The clocked machine: two shift registers, an address counter and a phase
//! that moves on at byte boundaries. It only gathers; nothing changes here but
//! the busy ticks, which run down as each byte position ends.

use crate::cause::Cause;
use crate::decoder::{decode, Change, Command, Control, Source};
use crate::page::{PageBuffer, OTP_PLACES, PAGE};
use crate::record::Record;
use crate::view::wired;
use crate::Pins;

/// What the next whole byte means to the machine.
#[derive(Clone, Copy, Debug, PartialEq, Eq)]
enum Phase {
    /// The opcode is still being clocked in.
    Opcode,
    /// That many address bytes are still to come.
    Address(u8),
    /// That many filler bytes are still to come.
    Filler(u8),
    /// Input is ignored; the source feeds the output.
    Drive(Source),
    /// Bytes go to the page buffer.
    Collect,
    /// One byte goes to the operand.
    Operand,
    /// All the command needs has come, or the opcode was not heard.
    Rest,
}

/// The part's interface logic while chip select is low.
pub(crate) struct Machine<'a> {
    /// The record at the fall of chip select, by which the opcode is heard.
    record_at_fall: Record,
    /// The record now, its busy ticks running down.
    record: Record,
    /// Level of the write-protect pin.
    wp_high: bool,
    /// Ticks that each position takes.
    ticks_per_byte: u64,
    /// The main array, to read from.
    array: &'a [u8],
    /// The security register, to read from.
    register: &'a [u8],
    /// What the next whole byte means.
    phase: Phase,
    /// The byte being clocked in, from the low end.
    shift_in: u8,
    /// The byte being clocked out, from the high end; 1s where undriven.
    shift_out: u8,
    /// Bits clocked since the last byte boundary.
    bits: u8,
    /// Whole bytes clocked.
    position: usize,
    /// The command heard in the opcode, or why none is.
    command: Result<Command, Cause>,
    /// Address sent, or 0, then counting up with each byte driven.
    address: usize,
    /// The program data so far.
    page: PageBuffer,
    /// The byte after the opcode, if the command takes one.
    operand: u8,
    /// First position driven, 0 if none so far.
    first: usize,
    /// Positions driven so far.
    driven: usize,
}

/// What the machine knows when chip select rises.
pub(crate) struct Gathered {
    /// The record, the ticks of the whole frame gone by.
    pub(crate) record: Record,
    /// The command heard, or why none was.
    pub(crate) command: Result<Command, Cause>,
    /// Chip select rose on a byte boundary.
    pub(crate) on_boundary: bool,
    /// All bytes that a control or changing command needs came in.
    pub(crate) supplied: bool,
    /// The address of a changing command, all sent bits of it.
    pub(crate) address: usize,
    /// The program data.
    pub(crate) page: PageBuffer,
    /// The byte after the opcode of a status write or reset, 0 if none came.
    pub(crate) operand: u8,
    /// First position driven, 0 if none.
    pub(crate) first: usize,
    /// How many positions were driven.
    pub(crate) driven: usize,
}

impl<'a> Machine<'a> {
    /// Chip select falls; what the part can hear is fixed as it stands now.
    pub(crate) fn fall(record: Record, pins: &Pins, array: &'a [u8], register: &'a [u8]) -> Machine<'a> {
        Machine {
            record_at_fall: record,
            record,
            wp_high: pins.wp_high,
            ticks_per_byte: pins.ticks_per_byte,
            array,
            register,
            phase: Phase::Opcode,
            shift_in: 0,
            shift_out: 0xFF,
            bits: 0,
            position: 0,
            command: Err(Cause::TooFewBits),
            address: 0,
            page: PageBuffer::aimed_at(0, PAGE),
            operand: 0,
            first: 0,
            driven: 0,
        }
    }

    /// One clock pulse: takes the level on the input line, gives that on the
    /// output line.
    pub(crate) fn clock(&mut self, level: bool) -> bool {
        if self.bits == 0 {
            self.load_output();
        }
        let answer = self.shift_out & 0x80 != 0;
        self.shift_out = (self.shift_out << 1) | 1;
        self.shift_in = (self.shift_in << 1) | u8::from(level);
        self.bits += 1;
        if self.bits == 8 {
            self.bits = 0;
            self.position += 1;
            self.phase = self.follow(self.shift_in);
            self.pass_position();
        }
        answer
    }

    /// Chip select rises; a position begun ends here.
    pub(crate) fn rise(mut self) -> Gathered {
        if self.bits > 0 {
            self.pass_position();
        }
        Gathered {
            record: self.record,
            command: self.command,
            on_boundary: self.bits == 0,
            supplied: self.is_supplied(),
            address: self.address,
            page: self.page,
            operand: self.operand,
            first: self.first,
            driven: self.driven,
        }
    }

    /// The ticks of one position go by.
    fn pass_position(&mut self) {
        self.record = self.record.rested(self.ticks_per_byte);
    }

    /// Whether all bytes that a control or changing command needs came in.
    fn is_supplied(&self) -> bool {
        match self.phase {
            Phase::Rest => true,
            Phase::Collect => self.page.sent() > 0,
            _ => false,
        }
    }

    /// At the first bit of a byte, loads the output register if the part
    /// drives this position, and counts the position.
    fn load_output(&mut self) {
        let Some(byte) = self.next_output() else {
            self.shift_out = 0xFF;
            return;
        };
        if self.driven == 0 {
            self.first = self.position;
        }
        self.driven += 1;
        self.address += 1;
        self.shift_out = byte;
    }

    /// The byte the source has now at the address counter, if it has one.
    fn next_output(&self) -> Option<u8> {
        let Phase::Drive(source) = self.phase else {
            return None;
        };
        match source {
            Source::Array => Some(round(self.array, self.address)),
            Source::Register => Some(round(self.register, self.address)),
            Source::Status => Some(round(&self.record.status(self.wp_high), self.address)),
            Source::Fixed(bytes) => bytes.get(self.address).copied(),
        }
    }

    /// Takes in a whole byte and gives the phase for the next one.
    fn follow(&mut self, byte: u8) -> Phase {
        match self.phase {
            Phase::Opcode => self.begin(byte),
            Phase::Address(left) => self.extend_address(byte, left),
            Phase::Filler(1) => self.data_phase(),
            Phase::Filler(left) => Phase::Filler(left - 1),
            Phase::Collect => {
                self.page.take(byte);
                Phase::Collect
            }
            Phase::Operand => {
                self.operand = byte;
                Phase::Rest
            }
            Phase::Drive(_) | Phase::Rest => self.phase,
        }
    }

    /// The opcode is in: decodes it and gives the phase after it.
    fn begin(&mut self, opcode: u8) -> Phase {
        self.command = decode(opcode, &self.record_at_fall);
        match self.command {
            Ok(command) if command.is_addressed() => Phase::Address(3),
            _ => self.filler_phase(),
        }
    }

    /// Shifts an address byte into the address counter, the high one first.
    fn extend_address(&mut self, byte: u8, left: u8) -> Phase {
        self.address = (self.address << 8) | usize::from(byte);
        if left > 1 {
            Phase::Address(left - 1)
        } else {
            self.filler_phase()
        }
    }

    /// The phase once the address, if any, is in.
    fn filler_phase(&mut self) -> Phase {
        match self.command.map_or(0, Command::fillers) {
            0 => self.data_phase(),
            fillers => Phase::Filler(fillers),
        }
    }

    /// The phase once opcode, address and fillers are in.
    fn data_phase(&mut self) -> Phase {
        match self.command {
            Ok(Command::Read(source, _)) => Phase::Drive(source),
            Ok(Command::Change(Change::Program)) => self.collect(PAGE),
            Ok(Command::Change(Change::OtpProgram)) => self.collect(OTP_PLACES),
            Ok(Command::Change(Change::Protection | Change::ResetEnable) | Command::Control(Control::Reset)) => Phase::Operand,
            Ok(Command::Change(Change::Erase(..)) | Command::Control(_)) | Err(_) => Phase::Rest,
        }
    }

    /// Readies the page buffer for data from the address on.
    fn collect(&mut self, places: usize) -> Phase {
        self.page = PageBuffer::aimed_at(self.address, places);
        Phase::Collect
    }
}

/// The byte at an address counter that runs on from the last byte to byte 0,
/// in a memory of a power-of-two length.
fn round(bytes: &[u8], address: usize) -> u8 {
    bytes[wired(address, bytes.len())]
}
