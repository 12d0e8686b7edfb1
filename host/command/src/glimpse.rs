//! What is kept of a frame: its first bytes, by which people know it.
use crate::frames::Frame;
use crate::lines::{counted, hex, thousands};

/// The beginning of a frame.
#[derive(Clone, Debug, PartialEq, Eq)]
pub struct Glimpse {
    /// Its first bytes, at most [`Glimpse::KEPT`].
    pub first: Vec<u8>,
    /// How many bytes it has.
    pub length: usize,
    /// Whether its opcode was clocked whole.
    has_opcode: bool,
}

impl Glimpse {
    /// Of a frame so many bytes are kept.
    const KEPT: usize = 8;

    /// What is kept of a frame.
    pub fn of(frame: &Frame) -> Glimpse {
        let length = frame.input.len();
        Glimpse {
            first: frame.input[..length.min(Glimpse::KEPT)].to_vec(),
            length,
            has_opcode: frame.signals.bits >= 8,
        }
    }

    /// Its opcode, if that was clocked whole.
    fn opcode(&self) -> Option<u8> {
        self.first.first().copied().filter(|_| self.has_opcode)
    }

    /// What it asks for, in words.
    pub fn name(&self) -> String {
        let Some(opcode) = self.opcode() else { return "no opcode".into() };
        let name = match opcode {
            0x02 => return format!("program of {}", counted(self.length.saturating_sub(4) as u64, "byte")),
            0x81 => "page erase",
            0x20 => "4-KiB erase",
            0x52 | 0xD8 => "32-KiB erase",
            0x60 | 0x62 | 0xC7 => "chip erase",
            0x9B => "OTP program",
            0x01 => "status write",
            0x31 => "write of status byte 2",
            0x03 | 0x0B => "array read",
            0x77 => "OTP read",
            0x05 => "status read",
            0x9F | 0x15 => "identification",
            0x06 => "write enable",
            0x04 => "write disable",
            0xB9 => "deep power-down",
            0x79 => "ultra-deep power-down",
            0xAB => "resume",
            0xF0 => "reset",
            other => return format!("opcode {other:02X}h"),
        };
        name.into()
    }

    /// Its bytes, the first ones if there are many.
    pub fn bytes(&self) -> String {
        let first = hex(&self.first);
        match self.length > self.first.len() {
            true => format!("{first} .. ({} bytes)", thousands(self.length as u64)),
            false => first,
        }
    }
}

#[cfg(test)]
mod tests {
    use super::*;
    use oxterin::Signals;

    /// What is kept of so many bits of a frame.
    fn glimpse(input: &[u8], bits: u64) -> Glimpse {
        let signals = Signals {
            bits,
            ..Signals::whole(input)
        };
        Glimpse::of(&Frame {
            input: input.to_vec(),
            signals,
            named: None,
        })
    }

    #[test]
    fn every_opcode_has_its_name() {
        for (opcodes, name) in [
            (&[0x81][..], "page erase"),
            (&[0x20], "4-KiB erase"),
            (&[0x52, 0xD8], "32-KiB erase"),
            (&[0x60, 0x62, 0xC7], "chip erase"),
            (&[0x9B], "OTP program"),
            (&[0x01], "status write"),
            (&[0x31], "write of status byte 2"),
            (&[0x03, 0x0B], "array read"),
            (&[0x77], "OTP read"),
            (&[0x05], "status read"),
            (&[0x9F, 0x15], "identification"),
            (&[0x06], "write enable"),
            (&[0x04], "write disable"),
            (&[0xB9], "deep power-down"),
            (&[0x79], "ultra-deep power-down"),
            (&[0xAB], "resume"),
            (&[0xF0], "reset"),
            (&[0x3B], "opcode 3Bh"),
            (&[0x00], "opcode 00h"),
        ] {
            for opcode in opcodes {
                assert_eq!(glimpse(&[*opcode, 0x00], 16).name(), name, "{opcode:02X}h");
            }
        }
        assert_eq!([0, 7].map(|bits| glimpse(&[0xC7], bits).name()), ["no opcode"; 2]);
    }

    /// After the opcode come three bytes of address; what is left is data.
    #[test]
    fn a_program_says_how_long_it_is() {
        for (length, name) in [
            (2, "program of 0 bytes"),
            (4, "program of 0 bytes"),
            (5, "program of 1 byte"),
            (260, "program of 256 bytes"),
        ] {
            assert_eq!(glimpse(&vec![0x02; length], 8 * length as u64).name(), name);
        }
    }

    #[test]
    fn a_long_frame_is_cut_off() {
        let bytes: Vec<u8> = (0..=255).cycle().take(1_004).collect();
        assert_eq!(glimpse(&bytes[..8], 64).bytes(), "00 01 02 03 04 05 06 07");
        assert_eq!(glimpse(&bytes[..9], 72).bytes(), "00 01 02 03 04 05 06 07 .. (9 bytes)");
        assert_eq!(glimpse(&bytes, 8_032).bytes(), "00 01 02 03 04 05 06 07 .. (1,004 bytes)");
    }
}
