//! Causes worked out by hand from request R-5.
//!
//! A frame is written as a text: words for the part's state, a colon, the
//! bytes, and the number of bits after a slash if they are not all clocked. A
//! part is awake and idle with all flags 0 and WP high unless the words say
//! otherwise.

use model::Outcome::{Aborted, Begun, Control, Nothing, Read};
use model::{frame, Answer, Books, Cause, Mode, Outcome, Pins, Record, Running, Settings, Tables};

/// The words of the request, in its order.
const LIST: [&str; 12] = [
    "too few bits",
    "asleep",
    "busy",
    "unknown opcode",
    "latch clear",
    "reset not enabled or not confirmed",
    "off boundary",
    "incomplete",
    "protected",
    "locked",
    "already programmed",
    "already awake",
];

/// For each cause a frame in which nothing else is wrong.
const ALONE: [(u64, Outcome, &str); 12] = [
    (1, Nothing, ": 06 /7"),
    (2, Nothing, "deep: 06"),
    (3, Nothing, "busy: 06"),
    (4, Nothing, ": FF"),
    (5, Nothing, ": 02 00 00 00 55"),
    (6, Nothing, ": F0 D0"),
    (7, Nothing, ": 06 00 /9"),
    (8, Aborted, "wel: 02 00 00 00"),
    (9, Aborted, "wel bp0: 02 00 00 00 55"),
    (10, Aborted, "wel bpl low: 01 00"),
    (11, Aborted, "wel used: 9B 00 00 00 55"),
    (12, Nothing, ": AB"),
];

/// Each two causes that can hold at once, by their numbers: a frame in which
/// both hold, and one in which the first of them is put right, if need be with
/// another command.
const PAIRS: [(u64, u64, &str, &str); 33] = [
    (1, 2, "deep: 06 /7", "deep: 06"),
    (1, 3, "busy: 06 /7", "busy: 06"),
    (1, 7, ": 06 /7", ": 06 00 /9"),
    (2, 4, "deep: FF", ": FF"),
    (2, 5, "deep: 60", ": 60"),
    (2, 6, "deep: F0 D0", ": F0 D0"),
    (2, 7, "deep: 06 00 /9", ": 06 00 /9"),
    (2, 8, "deep wel: 31", "wel: 31"),
    (2, 9, "deep wel bp0: 60", "wel bp0: 60"),
    (2, 10, "deep wel bpl low: 01 00", "wel bpl low: 01 00"),
    (2, 11, "deep wel used: 9B 00 00 00 55", "wel used: 9B 00 00 00 55"),
    (3, 4, "busy: FF", ": FF"),
    (3, 5, "busy: 60", ": 60"),
    (3, 7, "busy: 06 00 /9", ": 06 00 /9"),
    (3, 8, "busy wel: 31", "wel: 31"),
    (3, 9, "busy wel bp0: 60", "wel bp0: 60"),
    (3, 10, "busy wel bpl low: 01 00", "wel bpl low: 01 00"),
    (3, 11, "busy wel used: 9B 00 00 00 55", "wel used: 9B 00 00 00 55"),
    (3, 12, "busy: AB", ": AB"),
    (4, 7, ": FF 00 /9", ": 06 00 /9"),
    (5, 7, ": 60 00 /9", "wel: 60 00 /9"),
    (5, 8, ": 31", "wel: 31"),
    (5, 9, "bp0: 60", "wel bp0: 60"),
    (5, 10, "bpl low: 01 00", "wel bpl low: 01 00"),
    (5, 11, "used: 9B 00 00 00 55", "wel used: 9B 00 00 00 55"),
    (6, 7, ": F0 D0 00 /17", "rste: F0 D0 00 /17"),
    (6, 8, "rste: F0", "wel: 31"),
    (7, 9, "wel bp0: 60 00 /9", "wel bp0: 60"),
    (7, 10, "wel bpl low: 01 00 00 /17", "wel bpl low: 01 00"),
    (7, 11, "wel used: 9B 00 00 00 55 00 /41", "wel used: 9B 00 00 00 55"),
    (8, 9, "wel bp0: 02 00 00 00", "wel bp0: 02 00 00 00 55"),
    (8, 10, "wel bpl low: 01", "wel bpl low: 01 00"),
    (8, 11, "wel used: 9B 00 00 00", "wel used: 9B 00 00 00 55"),
];

/// More frames with a cause.
const MORE: &[(u64, Outcome, &str)] = &[
    // No opcode is in, whatever it was going to be.
    (1, Nothing, ":"),
    (1, Nothing, "deep:"),
    (1, Nothing, "busy:"),
    (1, Nothing, ": 80 /1"),
    (1, Nothing, ": 05 /7"),
    (1, Nothing, "busy: 05 /7"),
    (1, Nothing, "deep: AB /7"),
    (1, Nothing, ": AB /7"),
    (1, Nothing, "wel: 60 /7"),
    (1, Nothing, "rste: F0 /7"),
    // Deep power-down is left by ABh on a boundary alone.
    (2, Nothing, "deep: AB 00 /9"),
    (2, Nothing, "deep: AB 00 /15"),
    (2, Nothing, "deep: 05 00"),
    (2, Nothing, "deep: 03 00 00 00 00"),
    (2, Nothing, "deep: B9"),
    (2, Nothing, "deep: 79"),
    (2, Nothing, "deep rste: F0 D0"),
    (2, Nothing, "deep wel: 60"),
    // A busy part hears 05h and F0h alone.
    (3, Nothing, "busy: 03 00 00 00 00"),
    (3, Nothing, "busy: 9F 00"),
    (3, Nothing, "busy: 04"),
    (3, Nothing, "busy: B9"),
    (3, Nothing, "busy: 79"),
    (3, Nothing, "busy: AB 00 /9"),
    (3, Nothing, "busy wel: 60"),
    (3, Nothing, "busy paced: 06"),
    (3, Nothing, "busy paced: AB 00"),
    (3, Nothing, "busy paced wel: 02 00 00 00 55"),
    (4, Nothing, "wel: FF 00 00 00 00"),
    (5, Nothing, ": 81 00 00 00"),
    (5, Nothing, ": 20 00 00 00"),
    (5, Nothing, ": 52 00 00 00"),
    (5, Nothing, ": D8 00 00 00"),
    (5, Nothing, ": 60"),
    (5, Nothing, ": 62"),
    (5, Nothing, ": C7"),
    (5, Nothing, ": 9B 00 00 00 55"),
    (5, Nothing, ": 01 00"),
    (5, Nothing, ": 31 10"),
    (5, Nothing, "bp0 bpl used low: 02 00 /9"),
    // A reset needs RSTE and all 8 bits of D0h, before it needs a boundary.
    (6, Nothing, ": F0"),
    (6, Nothing, ": F0 D0 /15"),
    (6, Nothing, "rste: F0 D0 /9"),
    (6, Nothing, "rste: F0 D0 /12"),
    (6, Nothing, "rste: F0 D0 /15"),
    (6, Nothing, "rste: F0 D1"),
    (6, Nothing, "rste: F0 00 D0"),
    (6, Nothing, "rste: F0 D1 D0 /17"),
    (6, Nothing, "busy: F0 D0"),
    (6, Nothing, "busy: F0"),
    (6, Nothing, "busy rste: F0 D1"),
    (6, Nothing, "busy paced: F0 D0"),
    (7, Nothing, ": 04 00 /9"),
    (7, Nothing, ": B9 00 /15"),
    (7, Nothing, ": 79 00 /9"),
    (7, Nothing, "wel: 06 00 00 /17"),
    (7, Nothing, "rste: F0 D0 00 /17"),
    (7, Nothing, "busy rste: F0 D0 00 /23"),
    (7, Aborted, "wel: 02 00 00 00 55 /39"),
    (7, Aborted, "wel: 02 00 00 00 55 00 /41"),
    (7, Aborted, "wel: 02 00 /9"),
    (7, Aborted, "wel: 81 00 00 00 /31"),
    (7, Aborted, "wel: 20 00 00 00 00 /33"),
    (7, Aborted, "wel: 52 00 /15"),
    (7, Aborted, "wel: D8 00 00 00 /25"),
    (7, Aborted, "wel: 60 00 /9"),
    (7, Aborted, "wel: 62 00 /9"),
    (7, Aborted, "wel: C7 00 /9"),
    (7, Aborted, "wel: 9B 00 00 00 55 /33"),
    (7, Aborted, "wel: 01 00 /15"),
    (7, Aborted, "wel: 31 10 /9"),
    (8, Aborted, "wel: 02"),
    (8, Aborted, "wel: 81 00 00"),
    (8, Aborted, "wel: 20 00"),
    (8, Aborted, "wel: 52"),
    (8, Aborted, "wel: D8 00 00"),
    (8, Aborted, "wel: 9B 00 00 00"),
    (8, Aborted, "wel: 01"),
    (8, Aborted, "wel: 31"),
    (9, Aborted, "wel bp0: 81 00 00 00"),
    (9, Aborted, "wel bp0: 20 00 00 00"),
    (9, Aborted, "wel bp0: 52 00 00 00"),
    (9, Aborted, "wel bp0: D8 00 00 00"),
    (9, Aborted, "wel bp0: 60"),
    (9, Aborted, "wel bp0: 62"),
    (9, Aborted, "wel bp0: C7"),
    (9, Aborted, "wel bp0 bpl used low: C7"),
    (10, Aborted, "wel bp0 bpl used low: 01 84"),
    (11, Aborted, "wel bp0 bpl used low: 9B 00 00 00 55"),
    // ABh on a part that is awake is so with any number of bits.
    (12, Nothing, ": AB 00 /9"),
    (12, Nothing, ": AB 00 /15"),
    (12, Nothing, ": AB 00"),
    (12, Nothing, "busy later: AB"),
];

/// Frames without a cause.
const NONE: &[(Outcome, &str)] = &[
    (Read, ": 05"),
    (Read, ": 05 00 /9"),
    (Read, ": 03"),
    (Read, ": 03 00 /9"),
    (Read, ": 0B 00 00 00"),
    (Read, ": 77 00 00 00 /31"),
    (Read, ": 9F 00 /15"),
    (Read, ": 15 00"),
    (Read, "busy: 05"),
    (Read, "busy: 05 00 /9"),
    (Read, "busy later: 03 00 00 00 00"),
    (Control, ": 06"),
    (Control, ": 04 00"),
    (Control, ": B9"),
    (Control, ": 79"),
    (Control, "deep: AB"),
    (Control, "deep: AB 00"),
    (Control, "rste: F0 D0"),
    (Control, "rste: F0 D0 00"),
    (Control, "busy rste: F0 D0"),
    (Control, "busy later: 06"),
    // 31h asks for the latch, a boundary and two bytes alone.
    (Control, "wel bp0 bpl used low: 31 10"),
    // Any frame wakes from ultra-deep.
    (Control, "ultra:"),
    (Control, "ultra: 06 /7"),
    (Control, "ultra: FF"),
    (Control, "ultra: 05"),
    (Control, "ultra: AB 00 /9"),
    (Control, "ultra: F0"),
    (Control, "ultra: 60"),
    (Control, "ultra wel bp0: 02 00 /9"),
    // Flags that do not bear on the command.
    (Begun, "wel bpl used low: 02 00 00 00 55"),
    (Begun, "wel bpl used low: 60"),
    (Begun, "wel bp0 bpl low: 9B 00 00 00 55"),
    (Begun, "wel bp0 bpl used: 01 00"),
    (Begun, "wel bp0 used low: 01 00"),
];

/// The opcodes that document 01 lists, the legacy chip erase included.
const OPCODES: [u8; 23] = [
    0x03, 0x0B, 0x77, 0x05, 0x9F, 0x15, 0x06, 0x04, 0xB9, 0x79, 0xAB, 0xF0, 0x02, 0x81, 0x20, 0x52, 0xD8, 0x60, 0x62, 0xC7, 0x9B, 0x01,
    0x31,
];

/// All that a call is given.
struct Call {
    record: Record,
    settings: Settings,
    array: Vec<u8>,
    register: Vec<u8>,
    input: Vec<u8>,
    pins: Pins,
    output: Vec<u8>,
}

impl Call {
    /// A call on a part in the state that the words tell.
    fn new(state: &str, input: Vec<u8>, bits: u64) -> Call {
        let mut call = Call {
            record: Record::fresh(false, false, false),
            settings: Settings::typical(),
            array: vec![0xFF; 65_536],
            register: vec![0xFF; 128],
            output: vec![0; input.len()],
            input,
            pins: Pins {
                bits,
                wp_high: true,
                elapsed: 0,
                ticks_per_byte: 0,
            },
        };
        for word in state.split_whitespace() {
            match word {
                "bpl" => call.record.bpl = true,
                "bp0" => call.record.bp0 = true,
                "wel" => call.record.wel = true,
                "rste" => call.record.rste = true,
                "used" => call.record.otp_used = true,
                "deep" => call.record.mode = Mode::Deep,
                "ultra" => call.record.mode = Mode::UltraDeep,
                "busy" => call.record.busy = 5,
                "low" => call.pins.wp_high = false,
                "later" => call.pins.elapsed = 5,
                "paced" => call.pins.ticks_per_byte = 5,
                _ => panic!("no such word: {word}"),
            }
        }
        call
    }

    /// The call that a text stands for.
    fn of(text: &str) -> Call {
        let (state, sent) = text.split_once(':').expect("a colon");
        let (bytes, bits) = sent.split_once('/').map_or((sent, None), |(bytes, bits)| (bytes, Some(bits)));
        let input: Vec<u8> = bytes
            .split_whitespace()
            .map(|byte| u8::from_str_radix(byte, 16).expect("a byte"))
            .collect();
        let bits = bits.map_or(8 * input.len() as u64, |bits| bits.parse().expect("a number"));
        Call::new(state, input, bits)
    }

    /// Makes the call.
    fn answer(&mut self) -> Answer {
        frame(
            self.record,
            &self.settings,
            &mut self.array,
            &mut self.register,
            &self.input,
            self.pins,
            &mut self.output,
        )
    }

    /// Makes the call for an account of empty books.
    fn billed(&mut self, account: u64) -> Answer {
        Books::open(Tables::empty(), Running::NOBODY, &self.record).frame(
            self.record,
            &self.settings,
            &mut self.array,
            &mut self.register,
            &self.input,
            self.pins,
            &mut self.output,
            account,
        )
    }
}

/// The outcome and the number of the cause, 0 for none, of a frame that must be
/// accepted. The books must answer the same.
fn judged(text: &str) -> (Outcome, u64) {
    let answer = Call::of(text).answer();
    assert_eq!(answer.refusal, 0, "{text}");
    assert_eq!(Call::of(text).billed(7), answer, "{text}");
    (answer.outcome, answer.cause.map_or(0, Cause::number))
}

#[test]
fn causes_are_numbered_and_worded_as_listed() {
    for ((cause, words), number) in Cause::ALL.into_iter().zip(LIST).zip(1..) {
        assert_eq!((cause.number(), cause.words()), (number, words));
    }
}

#[test]
fn each_cause_is_told() {
    for &(cause, outcome, text) in ALONE.iter().chain(MORE) {
        assert_eq!(judged(text), (outcome, cause), "{text}");
    }
}

#[test]
fn the_first_of_two_causes_is_told() {
    for (first, second, both, eased) in PAIRS {
        assert_eq!(judged(both).1, first, "{both}");
        assert_eq!(judged(eased).1, second, "{eased}");
    }
}

#[test]
fn what_has_an_effect_or_reads_has_no_cause() {
    for &(outcome, text) in NONE {
        assert_eq!(judged(text), (outcome, 0), "{text}");
    }
}

#[test]
fn opcodes_not_listed_are_unknown() {
    for opcode in 0..=0xFF {
        for (length, bits) in [(1, 8), (2, 9), (5, 40)] {
            let answer = Call::new("wel rste", vec![opcode; length], bits).answer();
            let unknown = answer.cause == Some(Cause::UnknownOpcode);
            assert_eq!(unknown, !OPCODES.contains(&opcode), "{opcode:02X} {bits}");
        }
    }
}

/// A way to have a call refused.
type Spoil = fn(&mut Call);

#[test]
fn refused_calls_have_no_cause() {
    let spoils: [(u8, Spoil); 8] = [
        (1, |call| call.array.truncate(1)),
        (2, |call| call.register.truncate(1)),
        (3, |call| *call = Call::new("busy", vec![0x60; 8_193], 65_544)),
        (4, |call| call.pins.bits += 8),
        (5, |call| call.output.clear()),
        (6, |call| call.record.busy = 60_000_001),
        (7, |call| call.settings.durations[0] = 0),
        (8, |call| call.pins.ticks_per_byte = 1_001),
    ];
    for (_, _, text) in ALONE {
        for (number, spoil) in spoils {
            let mut call = Call::of(text);
            spoil(&mut call);
            let answers = [call.answer(), call.billed(7), call.billed(256)];
            assert_eq!(answers.map(verdict), [(number, Nothing, None); 3], "{text}");
        }
        assert_eq!(verdict(Call::of(text).billed(256)), (9, Nothing, None), "{text}");
    }
}

/// The refusal, the outcome and the cause of an answer.
fn verdict(answer: Answer) -> (u8, Outcome, Option<Cause>) {
    (answer.refusal, answer.outcome, answer.cause)
}

#[test]
fn outcome_and_cause_agree() {
    for (state, set) in ["", "deep", "ultra", "busy"]
        .iter()
        .flat_map(|state| (0..64).map(move |set| (state, set)))
    {
        let mut call = Call::new(state, vec![], 0);
        let Record {
            bpl,
            bp0,
            wel,
            rste,
            otp_used,
            ..
        } = &mut call.record;
        for (place, flag) in [bpl, bp0, wel, rste, otp_used, &mut call.pins.wp_high].into_iter().enumerate() {
            *flag = set >> place & 1 == 1;
        }
        for (opcode, bits) in OPCODES
            .iter()
            .chain(&[0xFF])
            .flat_map(|&opcode| (0..=49).map(move |bits| (opcode, bits)))
        {
            call.input = [opcode, 0xD0, 0, 0, 0, 0, 0][..usize::div_ceil(bits, 8)].to_vec();
            call.output = vec![0; call.input.len()];
            call.pins.bits = bits as u64;
            let answer = call.answer();
            assert!(agree(&answer), "{:?} {:02X?} {:?} {answer:?}", call.record, call.input, call.pins);
        }
    }
}

/// Whether an accepted call's outcome can have its cause, or its lack of one.
fn agree(answer: &Answer) -> bool {
    let number = answer.cause.map_or(0, Cause::number);
    match answer.outcome {
        Nothing => matches!(number, 1..=7 | 12),
        Aborted => matches!(number, 7..=11),
        Read | Control | Begun => number == 0,
    }
}
