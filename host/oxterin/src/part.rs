//! A part that owns its memories.
use crate::frame::{frame, look, Answer, Memory, Refusal, Signals};
use crate::ledger::{frame_for, Ledger};
use crate::record::{Record, Settings};
use std::error::Error;
use std::fmt;

/// The size of the main array.
#[derive(Clone, Copy, Debug, PartialEq, Eq, Hash)]
pub enum Size {
    /// 65,536 bytes, for small programs on a bench.
    Small,
    /// 131,072 bytes, the AT25XE011's own.
    Whole,
}

impl Size {
    /// All sizes.
    pub const ALL: [Size; 2] = [Size::Small, Size::Whole];

    /// How many bytes.
    #[must_use]
    pub fn bytes(self) -> usize {
        match self {
            Size::Small => 65_536,
            Size::Whole => 131_072,
        }
    }

    /// The size with so many bytes, if there is one.
    #[must_use]
    pub fn of_bytes(bytes: usize) -> Option<Size> {
        Size::ALL.into_iter().find(|size| size.bytes() == bytes)
    }
}

/// An image whose length is not that of an array.
#[derive(Clone, Copy, Debug, PartialEq, Eq, Hash)]
pub struct ImageLength(
    /// The length it has.
    pub usize,
);

impl fmt::Display for ImageLength {
    fn fmt(&self, f: &mut fmt::Formatter<'_>) -> fmt::Result {
        write!(f, "an image has 65,536 or 131,072 bytes, and this one has {}", self.0)
    }
}

impl Error for ImageLength {}

/// What came of a frame: the output bytes, one for each input byte, and the answer.
#[derive(Clone, Debug, PartialEq, Eq)]
pub struct Exchange {
    /// What each position read.
    pub output: Vec<u8>,
    /// Outcome and driven positions.
    pub answer: Answer,
}

/// A part with its own array, security register, record and settings.
///
/// ```
/// use oxterin::{Memory, Outcome, Part, Size};
///
/// let mut part = Part::blank(Size::Whole);
/// part.send(&[0x06])?;
/// let program = part.send(&[0x02, 0x00, 0x00, 0xFE, 0x11, 0x22, 0x33])?;
/// assert_eq!(program.answer.outcome, Outcome::Begun);
/// assert_eq!(part.look(Memory::Array, 0xFE, 2), [0x11, 0x22]);
/// assert_eq!(part.look(Memory::Array, 0, 1), [0x33]); // a program stays in its page
/// # Ok::<(), oxterin::Refusal>(())
/// ```
#[derive(Clone, Debug, PartialEq, Eq)]
pub struct Part {
    array: Vec<u8>,
    register: Vec<u8>,
    /// What the part remembers.
    pub record: Record,
    /// How long its operations take.
    pub settings: Settings,
}

impl Part {
    /// How many bytes the security register has.
    pub const REGISTER: usize = 128;

    /// A blank part: every byte FFh, the register's too, nothing protected, typical durations.
    #[must_use]
    pub fn blank(size: Size) -> Part {
        Part::holding(vec![0xFF; size.bytes()])
    }

    /// A part whose array holds this image.
    ///
    /// # Errors
    ///
    /// The image has the length of no array.
    pub fn with_image(image: Vec<u8>) -> Result<Part, ImageLength> {
        match Size::of_bytes(image.len()) {
            Some(_) => Ok(Part::holding(image)),
            None => Err(ImageLength(image.len())),
        }
    }

    /// A part that goes on where another stopped: with its array, its security register, its record and its settings.
    ///
    /// ```
    /// use oxterin::{Part, Size};
    ///
    /// let mut part = Part::blank(Size::Small);
    /// part.send(&[0x06])?;
    /// part.send(&[0x9B, 0x00, 0x00, 0x00, 0x5A])?; // the register's first byte, once and for all
    /// let again = Part::resumed(part.array().to_vec(), part.register().to_vec(), part.record, part.settings)?;
    /// assert_eq!(again, part);
    /// assert!(again.record.otp_used && again.record.busy == 400);
    /// # Ok::<(), oxterin::Refusal>(())
    /// ```
    ///
    /// # Errors
    ///
    /// The array or the register has a wrong length: refusal 1 or 2. A record or settings out of range are refused with each frame.
    pub fn resumed(array: Vec<u8>, register: Vec<u8>, record: Record, settings: Settings) -> Result<Part, Refusal> {
        if Size::of_bytes(array.len()).is_none() {
            return Err(Refusal::ArrayLength);
        }
        if register.len() != Part::REGISTER {
            return Err(Refusal::RegisterLength);
        }
        Ok(Part {
            array,
            register,
            record,
            settings,
        })
    }

    fn holding(array: Vec<u8>) -> Part {
        Part {
            array,
            register: vec![0xFF; Part::REGISTER],
            record: Record::fresh(false, false, false),
            settings: Settings::typical(),
        }
    }

    /// A frame of whole bytes with WP high, no time having elapsed, that takes none itself.
    ///
    /// # Errors
    ///
    /// A refused call changes nothing.
    pub fn send(&mut self, input: &[u8]) -> Result<Exchange, Refusal> {
        self.frame(input, Signals::whole(input))
    }

    /// Any frame.
    ///
    /// # Errors
    ///
    /// A refused call changes nothing.
    pub fn frame(&mut self, input: &[u8], signals: Signals) -> Result<Exchange, Refusal> {
        self.exchange(input, |part, output| {
            frame(
                &mut part.record,
                &part.settings,
                &mut part.array,
                &mut part.register,
                input,
                signals,
                output,
            )
        })
    }

    /// A frame of whole bytes as [`Part::send`] sends it, for an account, billed in a ledger.
    ///
    /// # Errors
    ///
    /// A refused call changes nothing.
    pub fn send_for(&mut self, account: u64, ledger: &mut Ledger, input: &[u8]) -> Result<Exchange, Refusal> {
        self.frame_for(account, ledger, input, Signals::whole(input))
    }

    /// Any frame for an account, billed in a ledger.
    ///
    /// # Errors
    ///
    /// A refused call changes nothing, the ledger neither.
    pub fn frame_for(&mut self, account: u64, ledger: &mut Ledger, input: &[u8], signals: Signals) -> Result<Exchange, Refusal> {
        self.exchange(input, |part, output| {
            frame_for(
                account,
                ledger,
                &mut part.record,
                &part.settings,
                &mut part.array,
                &mut part.register,
                input,
                signals,
                output,
            )
        })
    }

    /// What a call answers, with the output that it writes.
    fn exchange(&mut self, input: &[u8], call: impl FnOnce(&mut Part, &mut [u8]) -> Result<Answer, Refusal>) -> Result<Exchange, Refusal> {
        let mut output = vec![0; input.len()];
        let answer = call(self, &mut output)?;
        Ok(Exchange { output, answer })
    }

    /// A look without a frame, up to `count` bytes from the address on, never past the memory's end.
    #[must_use]
    pub fn look(&self, memory: Memory, address: u64, count: u64) -> &[u8] {
        look(&self.array, &self.register, memory, address, count)
    }

    /// The whole array.
    #[must_use]
    pub fn array(&self) -> &[u8] {
        &self.array
    }

    /// The security register.
    #[must_use]
    pub fn register(&self) -> &[u8] {
        &self.register
    }

    /// Status bytes 1 and 2, with the level of WP.
    #[must_use]
    pub fn status(&self, wp_high: bool) -> [u8; 2] {
        self.record.status(wp_high)
    }
}
