//! One call, one chip-select frame, on memories that the caller lends; and a look at them without a frame.
use crate::cause::Cause;
use crate::raw;
use crate::record::{Record, Settings};
use std::error::Error;
use std::fmt;

/// What goes with the input bytes of a frame.
#[derive(Clone, Copy, Debug, PartialEq, Eq, Hash)]
pub struct Signals {
    /// Bits clocked while chip select was low.
    pub bits: u64,
    /// The level of WP during the whole frame.
    pub wp_high: bool,
    /// Ticks elapsed since the previous call, up to the frame's first bit.
    pub elapsed: u64,
    /// Ticks that each byte position takes, a partial last one too; at most [`Signals::MOST_TICKS_PER_BYTE`].
    pub ticks_per_byte: u64,
}

impl Signals {
    /// A byte position takes no more ticks.
    pub const MOST_TICKS_PER_BYTE: u64 = 1_000;

    /// All bits of these bytes, WP high, no time elapsed, and none taken by the frame.
    #[must_use]
    pub fn whole(input: &[u8]) -> Signals {
        Signals {
            bits: 8 * input.len() as u64,
            wp_high: true,
            elapsed: 0,
            ticks_per_byte: 0,
        }
    }

    /// These signals with each byte position taking so many ticks. Position k, counted from 0, begins k times as many after the frame's
    /// first bit, and a status byte says what busy is at that moment. So a poll with chip select held low sees it fall:
    ///
    /// ```
    /// use oxterin::{Part, Signals, Size};
    ///
    /// let mut part = Part::blank(Size::Whole);
    /// part.send(&[0x06])?;
    /// part.send(&[0x20, 0x00, 0x10, 0x00])?; // a 4-KiB erase: 50,000 ticks
    ///
    /// let mut poll = [0x00; 6_300];
    /// poll[0] = 0x05;
    /// let status = part.frame(&poll, Signals::whole(&poll).with_ticks_per_byte(8))?.output;
    /// let idle = |byte: &u8| byte & 0x01 == 0;
    /// assert_eq!(status.iter().position(idle), Some(6_250)); // 50,000 / 8
    /// assert_eq!(status[6_248..6_252], [0x01, 0x11, 0x00, 0x10]);
    /// assert_eq!(part.record.busy, 0);
    /// # Ok::<(), oxterin::Refusal>(())
    /// ```
    #[must_use]
    pub fn with_ticks_per_byte(self, ticks_per_byte: u64) -> Signals {
        Signals { ticks_per_byte, ..self }
    }

    /// Ticks from the frame's first bit to the rise of chip select; the largest number if there are more, which no accepted frame has.
    ///
    /// ```
    /// use oxterin::Signals;
    ///
    /// let cut = Signals { bits: 11, ..Signals::whole(&[0x05, 0x00]) };
    /// assert_eq!(cut.with_ticks_per_byte(8).frame_ticks(), 16); // the partial byte is a position
    /// ```
    #[must_use]
    pub fn frame_ticks(&self) -> u64 {
        self.bits.div_ceil(8).saturating_mul(self.ticks_per_byte)
    }

    /// The signals as the face's words.
    #[inline]
    pub(crate) fn words(&self) -> [u64; raw::SIGNALS] {
        [self.bits, self.wp_high.into(), self.elapsed, self.ticks_per_byte]
    }
}

/// Why a call was refused. Then nothing has changed, and neither its elapsed nor its frame's ticks count.
#[derive(Clone, Copy, Debug, PartialEq, Eq, Hash)]
#[repr(u8)]
pub enum Refusal {
    /// 1: the array has neither 131,072 nor 65,536 bytes.
    ArrayLength = 1,
    /// 2: the register has not 128 bytes.
    RegisterLength = 2,
    /// 3: more than 8,192 input bytes.
    InputLength = 3,
    /// 4: the bit count does not need exactly as many bytes.
    BitCount = 4,
    /// 5: the output buffer is shorter than the input.
    OutputLength = 5,
    /// 6: more than 60,000,000 busy ticks left, or any in a part that is asleep.
    Record = 6,
    /// 7: a duration is 0 or over 60,000,000.
    Duration = 7,
    /// 8: more than 1,000 ticks per byte position.
    TicksPerByte = 8,
    /// 9: through a ledger, the account is over 255, or an account's total or number of operations is above 9,000,000,000,000,000,000.
    Account = 9,
}

impl Refusal {
    /// All refusals, in the order of their numbers.
    pub const ALL: [Refusal; 9] = [
        Refusal::ArrayLength,
        Refusal::RegisterLength,
        Refusal::InputLength,
        Refusal::BitCount,
        Refusal::OutputLength,
        Refusal::Record,
        Refusal::Duration,
        Refusal::TicksPerByte,
        Refusal::Account,
    ];

    /// Its number.
    #[must_use]
    pub fn number(self) -> u8 {
        self as u8
    }

    /// The refusal of this number; 0 is none, and no well-formed call gives another.
    pub(crate) fn of_number(number: u64) -> Option<Refusal> {
        let place = usize::try_from(number).ok()?.checked_sub(1)?;
        Some(Refusal::ALL[place])
    }
}

impl fmt::Display for Refusal {
    fn fmt(&self, f: &mut fmt::Formatter<'_>) -> fmt::Result {
        let why = match self {
            Refusal::ArrayLength => "the array has neither 131,072 nor 65,536 bytes",
            Refusal::RegisterLength => "the security register has not 128 bytes",
            Refusal::InputLength => "a frame has at most 8,192 bytes",
            Refusal::BitCount => "the bit count does not need exactly that many bytes",
            Refusal::OutputLength => "the output buffer is shorter than the input",
            Refusal::Record => "the record has more than 60,000,000 busy ticks left, or any while asleep",
            Refusal::Duration => "a duration is 0 or over 60,000,000 ticks",
            Refusal::TicksPerByte => "more than 1,000 ticks per byte position",
            Refusal::Account => "the account is over 255, or an account's total or number of operations is above 9,000,000,000,000,000,000",
        };
        write!(f, "refusal {}: {why}", self.number())
    }
}

impl Error for Refusal {}

/// What became of an accepted frame.
#[derive(Clone, Copy, Debug, PartialEq, Eq, Hash)]
#[repr(u8)]
pub enum Outcome {
    /// The frame had no effect.
    Nothing = 0,
    /// A read.
    Read = 1,
    /// A control command was carried out.
    Control = 2,
    /// WEL was dropped, and no operation began.
    Aborted = 3,
    /// An operation took effect.
    Begun = 4,
}

impl Outcome {
    /// All outcomes, in document 01's order.
    pub const ALL: [Outcome; 5] = [Outcome::Nothing, Outcome::Read, Outcome::Control, Outcome::Aborted, Outcome::Begun];

    /// Document 01's word for it.
    #[must_use]
    pub fn word(self) -> &'static str {
        match self {
            Outcome::Nothing => "nothing",
            Outcome::Read => "read",
            Outcome::Control => "control",
            Outcome::Aborted => "aborted",
            Outcome::Begun => "begun",
        }
    }
}

impl fmt::Display for Outcome {
    fn fmt(&self, f: &mut fmt::Formatter<'_>) -> fmt::Result {
        f.write_str(self.word())
    }
}

/// What an accepted frame answers, beside the output bytes and the record.
#[derive(Clone, Copy, Debug, PartialEq, Eq, Hash)]
pub struct Answer {
    /// What became of the frame.
    pub outcome: Outcome,
    /// Why nothing came of it, or why it was aborted. With any other outcome there is none.
    pub cause: Option<Cause>,
    /// The first driven position; 0 if none is driven.
    pub first: usize,
    /// How many positions are driven.
    pub driven: usize,
}

/// One chip-select frame on lent memories. The record becomes what the part then remembers; of `output` the first `input.len()` bytes are
/// written.
///
/// # Errors
///
/// A refused call changes none of its arguments.
///
/// ```
/// use oxterin::{frame, Outcome, Record, Settings, Signals};
///
/// let (mut array, mut register) = (vec![0xFF; 131_072], vec![0xFF; 128]);
/// let mut record = Record::fresh(false, false, false);
/// let settings = Settings::typical();
/// let mut output = [0; 4];
/// for input in [&[0x06][..], &[0x05, 0, 0, 0]] {
///     frame(&mut record, &settings, &mut array, &mut register, input, Signals::whole(input), &mut output)?;
/// }
/// assert_eq!(output, [0xFF, 0x12, 0x00, 0x12]);
/// # Ok::<(), oxterin::Refusal>(())
/// ```
pub fn frame(
    record: &mut Record,
    settings: &Settings,
    array: &mut [u8],
    register: &mut [u8],
    input: &[u8],
    signals: Signals,
    output: &mut [u8],
) -> Result<Answer, Refusal> {
    on_words(record, |words, answer| {
        raw::frame(words, &settings.words(), &signals.words(), array, register, input, output, answer)
    })
}

/// Makes a call on a record's words and those of an answer. If it is accepted, the record becomes what its words then stand for.
#[inline]
pub(crate) fn on_words(record: &mut Record, call: impl FnOnce(&mut [u64], &mut [u64]) -> u64) -> Result<Answer, Refusal> {
    let mut words = record.words();
    let mut answer = [0; raw::ANSWER];
    let number = call(&mut words, &mut answer);
    if let Some(refusal) = Refusal::of_number(number) {
        return Err(refusal);
    }
    *record = Record::of_words(&words);
    Ok(Answer {
        outcome: Outcome::ALL[answer[0] as usize],
        cause: Cause::of_number(answer[3]),
        first: answer[1] as usize,
        driven: answer[2] as usize,
    })
}

/// Which of the two memories.
#[derive(Clone, Copy, Debug, PartialEq, Eq, Hash)]
pub enum Memory {
    /// The main array.
    Array,
    /// The security register.
    Register,
}

/// A look without a frame: the part of the chosen memory that begins at the address, reduced to the memory's size, and has `count` bytes
/// unless the memory ends before. Empty if that memory's length is wrong.
///
/// ```
/// use oxterin::{look, Memory};
/// let array: Vec<u8> = (0..131_072u32).map(|k| k as u8).collect();
/// assert_eq!(look(&array, &[], Memory::Array, 0x01_FFFE, 9), [0xFE, 0xFF]);
/// assert_eq!(look(&array, &[], Memory::Register, 0, 9), []);
/// ```
#[must_use]
pub fn look<'a>(array: &'a [u8], register: &'a [u8], memory: Memory, address: u64, count: u64) -> &'a [u8] {
    let mut place = [0; raw::PLACE];
    let (number, chosen) = match memory {
        Memory::Array => (0, array),
        Memory::Register => (1, register),
    };
    let told = raw::look(array, register, number, address, count, &mut place);
    debug_assert_eq!(told, 0);
    let start = place[0] as usize;
    &chosen[start..start + place[1] as usize]
}

#[cfg(test)]
mod tests {
    use super::*;
    use crate::{Mode, Part, Size};

    /// A part with so many busy ticks left.
    fn busy(ticks: u64) -> Part {
        let mut part = Part::blank(Size::Small);
        part.record.busy = ticks;
        part
    }

    /// A part's output and the busy ticks left after a frame of whole bytes.
    fn seen(mut part: Part, input: &[u8], ticks_per_byte: u64) -> (Vec<u8>, u64) {
        let signals = Signals::whole(input).with_ticks_per_byte(ticks_per_byte);
        let output = part.frame(input, signals).expect("it is accepted").output;
        (output, part.record.busy)
    }

    #[test]
    fn a_status_byte_shows_busy_as_at_its_first_bit() {
        let poll = [0x05, 0, 0, 0, 0];
        assert_eq!(seen(busy(20), &poll, 8), (vec![0xFF, 0x11, 0x01, 0x10, 0x00], 0));
        assert_eq!(seen(busy(17), &poll, 8), (vec![0xFF, 0x11, 0x01, 0x10, 0x00], 0));
        assert_eq!(seen(busy(16), &poll, 8), (vec![0xFF, 0x11, 0x00, 0x10, 0x00], 0));
        assert_eq!(seen(busy(41), &poll, 8), (vec![0xFF, 0x11, 0x01, 0x11, 0x01], 1));
        assert_eq!(seen(busy(20), &poll, 0), (vec![0xFF, 0x11, 0x01, 0x11, 0x01], 20));
    }

    #[test]
    fn a_frame_is_heard_or_not_by_its_first_bit() {
        let read = [0x03, 0, 0, 0, 0];
        let mut part = busy(1);
        let signals = Signals::whole(&read).with_ticks_per_byte(1_000);
        let ignored = part.frame(&read, signals).expect("it is accepted");
        assert_eq!((ignored.answer.outcome, ignored.answer.driven), (Outcome::Nothing, 0));
        assert_eq!(ignored.answer.cause, Some(Cause::Busy));
        assert_eq!(part.record.busy, 0);
        let heard = part.frame(&read, signals).expect("it is accepted");
        assert_eq!((heard.answer.outcome, heard.answer.driven), (Outcome::Read, 1));
    }

    #[test]
    fn an_operation_starts_at_the_rise_with_its_full_duration() {
        let mut part = Part::blank(Size::Small);
        part.send(&[0x06]).expect("it is accepted");
        let program = [0x02, 0x00, 0x00, 0x00, 0x5A];
        let begun = part
            .frame(&program, Signals::whole(&program).with_ticks_per_byte(1_000))
            .expect("it is accepted");
        assert_eq!(begun.answer.outcome, Outcome::Begun);
        assert_eq!(part.record.busy, part.settings.byte_program);
    }

    #[test]
    fn elapsed_ticks_pass_before_those_of_the_frame_and_no_sum_overflows() {
        let poll = [0x05, 0x00];
        let signals = Signals {
            elapsed: 30,
            ..Signals::whole(&poll).with_ticks_per_byte(1_000)
        };
        let mut part = busy(3_000);
        assert_eq!(part.frame(&poll, signals).expect("it is accepted").output, [0xFF, 0x11]);
        assert_eq!(part.record.busy, 970);
        let long = Signals {
            elapsed: u64::MAX,
            ..signals
        };
        assert_eq!(part.frame(&poll, long).expect("it is accepted").output, [0xFF, 0x10]);
        assert_eq!(part.record.busy, 0);
    }

    #[test]
    fn a_byte_position_takes_at_most_1000_ticks() {
        let poll = [0x05, 0x00];
        let mut part = busy(60_000_000);
        let before = part.clone();
        for ticks in [1_001, u64::MAX] {
            let signals = Signals {
                elapsed: 9,
                ..Signals::whole(&poll).with_ticks_per_byte(ticks)
            };
            assert_eq!(part.frame(&poll, signals), Err(Refusal::TicksPerByte));
            assert_eq!(part, before);
        }
        let most = Signals::whole(&poll).with_ticks_per_byte(Signals::MOST_TICKS_PER_BYTE);
        assert!(part.frame(&poll, most).is_ok());
        assert_eq!(part.record.busy, 60_000_000 - 2_000);
        part.settings.status_write = 0;
        assert_eq!(part.frame(&poll, most.with_ticks_per_byte(1_001)), Err(Refusal::Duration));
    }

    /// The number that a poll is answered with when it is handed the first words of these signals, with the record's words, the output and
    /// the answer afterwards. 20 busy ticks are left, of which 4 elapse.
    fn polled(words: usize) -> (u64, [u64; raw::RECORD], [u8; 3], [u64; raw::ANSWER]) {
        let mut record = busy(20).record.words();
        let (mut output, mut answer) = ([0xEE; 3], [77; raw::ANSWER]);
        let number = raw::frame(
            &mut record,
            &Settings::typical().words(),
            &[24, 1, 4, 8, 0][..words],
            &mut [0xFF; 65_536],
            &mut [0xFF; 128],
            &[0x05, 0, 0],
            &mut output,
            &mut answer,
        );
        (number, record, output, answer)
    }

    #[test]
    fn signals_have_four_words_or_the_three_of_1_1_0() {
        let left = |ticks| busy(ticks).record.words();
        assert_eq!(polled(4), (0, left(0), [0xFF, 0x11, 0x00], [1, 1, 2, 0]));
        assert_eq!(polled(3), (0, left(16), [0xFF, 0x11, 0x01], [1, 1, 2, 0]));
        for words in [0, 1, 2, 5] {
            assert_eq!(polled(words), (raw::UNREAD, left(20), [0xEE; 3], [77; 4]), "{words} words");
        }
    }

    /// The number that an erase of a busy part is answered with when so many words of an answer are lent, and those words afterwards.
    fn erased(words: usize) -> (u64, [u64; raw::ANSWER + 1]) {
        let mut answer = [77; raw::ANSWER + 1];
        let number = raw::frame(
            &mut busy(20).record.words(),
            &Settings::typical().words(),
            &[32, 1, 0, 0],
            &mut [0xFF; 65_536],
            &mut [0xFF; 128],
            &[0x20, 0, 0, 0],
            &mut [0; 4],
            &mut answer[..words],
        );
        (number, answer)
    }

    #[test]
    fn answers_have_four_words_or_the_three_of_1_4_0() {
        assert_eq!(erased(4), (0, [0, 0, 0, 3, 77]));
        assert_eq!(erased(3), (0, [0, 0, 0, 77, 77]));
        for words in [0, 1, 2, 5] {
            assert_eq!(erased(words), (raw::UNREAD, [77; 5]), "{words} words");
        }
    }

    /// What a frame of so many bits answers on a part with this record, WP low; a part of its own answers the same.
    fn answered(mut record: Record, input: &[u8], bits: u64) -> Answer {
        let mut part = Part::blank(Size::Small);
        part.record = record;
        let signals = Signals {
            bits,
            wp_high: false,
            ..Signals::whole(input)
        };
        let (mut array, mut register, mut output) = ([0xFF; 65_536], [0xFF; 128], [0; 5]);
        let settings = Settings::typical();
        let answer = frame(&mut record, &settings, &mut array, &mut register, input, signals, &mut output).expect("it is accepted");
        assert_eq!(part.frame(input, signals).map(|exchange| exchange.answer), Ok(answer));
        answer
    }

    /// A part on which 06h was sent, that is protected, locked and programmed once and for all.
    const BARRED: Record = Record {
        bpl: true,
        bp0: true,
        wel: true,
        rste: false,
        otp_used: true,
        mode: Mode::Awake,
        busy: 0,
    };

    #[test]
    fn what_came_to_nothing_or_was_aborted_says_why() {
        let deep = Record {
            mode: Mode::Deep,
            ..BARRED
        };
        let busy = Record { busy: 1, ..BARRED };
        let unlatched = Record { wel: false, ..BARRED };
        let frames: [(Cause, Outcome, Record, &[u8], u64); 12] = [
            (Cause::TooFewBits, Outcome::Nothing, BARRED, &[0x60], 7),
            (Cause::Asleep, Outcome::Nothing, deep, &[0x60], 8),
            (Cause::Busy, Outcome::Nothing, busy, &[0x60], 8),
            (Cause::UnknownOpcode, Outcome::Nothing, BARRED, &[0xFF], 8),
            (Cause::LatchClear, Outcome::Nothing, unlatched, &[0x60], 8),
            (Cause::ResetUnconfirmed, Outcome::Nothing, BARRED, &[0xF0, 0xD0], 16),
            (Cause::OffBoundary, Outcome::Aborted, BARRED, &[0x60, 0x00], 9),
            (Cause::Incomplete, Outcome::Aborted, BARRED, &[0x02, 0, 0, 0], 32),
            (Cause::Protected, Outcome::Aborted, BARRED, &[0x60], 8),
            (Cause::Locked, Outcome::Aborted, BARRED, &[0x01, 0x00], 16),
            (Cause::AlreadyProgrammed, Outcome::Aborted, BARRED, &[0x9B, 0, 0, 0, 0], 40),
            (Cause::AlreadyAwake, Outcome::Nothing, BARRED, &[0xAB], 8),
        ];
        assert_eq!(frames.map(|(cause, ..)| cause), Cause::ALL);
        for (cause, outcome, record, input, bits) in frames {
            let answer = answered(record, input, bits);
            assert_eq!((answer.outcome, answer.cause), (outcome, Some(cause)), "{input:02X?}");
        }
    }

    #[test]
    fn what_was_carried_out_has_no_cause() {
        let open = Record { bp0: false, ..BARRED };
        let ultra_deep = Record {
            mode: Mode::UltraDeep,
            ..BARRED
        };
        for (outcome, record, input, bits) in [
            (Outcome::Read, BARRED, &[0x03, 0x00][..], 9),
            (Outcome::Control, BARRED, &[0x04], 8),
            (Outcome::Control, ultra_deep, &[0x60], 7),
            (Outcome::Begun, open, &[0x60], 8),
        ] {
            let answer = answered(record, input, bits);
            assert_eq!((answer.outcome, answer.cause), (outcome, None), "{input:02X?}");
        }
    }

    #[test]
    fn refusals_are_numbered_from_1_to_9() {
        assert_eq!(Refusal::ALL.map(Refusal::number), [1, 2, 3, 4, 5, 6, 7, 8, 9]);
        assert_eq!(Refusal::of_number(0), None);
        for refusal in Refusal::ALL {
            assert_eq!(Refusal::of_number(refusal.number().into()), Some(refusal));
        }
        assert_eq!(
            Refusal::TicksPerByte.to_string(),
            "refusal 8: more than 1,000 ticks per byte position"
        );
        assert_eq!(
            Refusal::Account.to_string(),
            "refusal 9: the account is over 255, or an account's total or number of operations is above 9,000,000,000,000,000,000"
        );
    }

    #[test]
    fn a_frame_takes_its_byte_positions_ticks() {
        let whole = Signals::whole(&[]);
        let ticks = |bits| Signals { bits, ..whole }.with_ticks_per_byte(1_000).frame_ticks();
        assert_eq!([0, 1, 8, 9, 65_536].map(ticks), [0, 1_000, 1_000, 2_000, 8_192_000]);
        assert_eq!(ticks(u64::MAX), u64::MAX);
        let mut part = busy(20);
        let cut = Signals { bits: 9, ..whole }.with_ticks_per_byte(8);
        part.frame(&[0x05, 0x00], cut).expect("it is accepted");
        assert_eq!(part.record.busy, 4);
    }
}
