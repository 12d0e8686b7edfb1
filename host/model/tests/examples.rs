//! Frames of document 01 and frames worked out by hand from its rules and from
//! those of request R-2.

use model::{frame, look, Answer, Memory, Mode, Outcome, Pins, Record, Settings};

const LARGE: usize = 131_072;
const SMALL: usize = 65_536;

/// What the output buffer holds before a call.
const UNTOUCHED: u8 = 0xA5;

/// Eight durations that differ from one another, so that a mix-up shows.
const DISTINCT: Settings = Settings {
    durations: [101, 202, 303, 404, 505, 606, 707, 808],
};

/// A part with its memories and surroundings.
#[derive(Clone)]
struct Part {
    record: Record,
    settings: Settings,
    array: Vec<u8>,
    register: Vec<u8>,
    wp_high: bool,
    ticks_per_byte: u64,
}

impl Part {
    /// An erased part of that array size, unprotected, WP high, whose frames
    /// take no time.
    fn erased(size: usize) -> Part {
        Part {
            record: Record::fresh(false, false, false),
            settings: DISTINCT,
            array: vec![0xFF; size],
            register: vec![0xFF; 128],
            wp_high: true,
            ticks_per_byte: 0,
        }
    }

    /// The usual bench: the large array, all FFh.
    fn usual() -> Part {
        Part::erased(LARGE)
    }

    /// The usual bench with the latch set.
    fn latched() -> Part {
        Part::usual().with(|record| record.wel = true)
    }

    /// The latched bench with all array and register bytes 00h.
    fn cleared() -> Part {
        let mut part = Part::latched();
        part.array.fill(0);
        part.register.fill(0);
        part
    }

    /// A latched bench whose memories hold a pattern that tells places apart.
    fn patterned(size: usize) -> Part {
        let mut part = Part::erased(size).with(|record| record.wel = true);
        for (place, byte) in part.array.iter_mut().enumerate() {
            *byte = pattern(place);
        }
        for (place, byte) in part.register.iter_mut().enumerate() {
            *byte = 0x80 ^ place as u8;
        }
        part
    }

    /// The same part after an adjustment of its record.
    fn with(mut self, adjust: impl FnOnce(&mut Record)) -> Part {
        adjust(&mut self.record);
        self
    }

    /// The same part, each byte position taking that many ticks.
    fn at_pace(mut self, ticks_per_byte: u64) -> Part {
        self.ticks_per_byte = ticks_per_byte;
        self
    }

    /// Sends some bits after some ticks; the record follows.
    fn clock(&mut self, input: &[u8], bits: u64, elapsed: u64) -> (Answer, Vec<u8>) {
        let mut output = vec![UNTOUCHED; input.len() + 3];
        let pins = Pins {
            bits,
            wp_high: self.wp_high,
            elapsed,
            ticks_per_byte: self.ticks_per_byte,
        };
        let answer = frame(
            self.record,
            &self.settings,
            &mut self.array,
            &mut self.register,
            input,
            pins,
            &mut output,
        );
        assert_eq!(answer.refusal, 0);
        assert_eq!(output.split_off(input.len()), [UNTOUCHED; 3]);
        self.record = answer.record;
        (answer, output)
    }

    /// Sends whole bytes at once.
    fn send(&mut self, input: &[u8]) -> (Answer, Vec<u8>) {
        self.clock(input, 8 * input.len() as u64, 0)
    }

    /// Sends a frame that must do nothing at all.
    fn ignores(&mut self, input: &[u8], bits: u64) {
        let before = self.clone();
        let (answer, output) = self.clock(input, bits, 0);
        assert_eq!(answer.outcome, Outcome::Nothing, "{input:02X?} {bits}");
        assert_eq!((answer.first, answer.driven), (0, 0));
        assert!(output.iter().all(|&byte| byte == 0xFF));
        assert_eq!(self.record, before.record, "{input:02X?} {bits}");
        self.keeps_memories(&before);
    }

    /// Sends a frame that must drop the latch and do nothing else.
    fn aborts(&mut self, input: &[u8], bits: u64) {
        let before = self.clone();
        assert!(before.record.wel);
        let (answer, output) = self.clock(input, bits, 0);
        assert_eq!(answer.outcome, Outcome::Aborted, "{input:02X?} {bits}");
        assert_eq!((answer.first, answer.driven), (0, 0));
        assert!(output.iter().all(|&byte| byte == 0xFF));
        let dropped = Record {
            wel: false,
            ..before.record
        };
        assert_eq!(self.record, dropped, "{input:02X?} {bits}");
        self.keeps_memories(&before);
    }

    /// Sends a frame that must be obeyed as a control command, without output
    /// and without a change of memory, and adjusts the record as said.
    fn obeys(&mut self, input: &[u8], adjust: impl FnOnce(&mut Record)) {
        let expected = self.clone().with(adjust);
        let (answer, output) = self.send(input);
        assert_eq!(answer.outcome, Outcome::Control, "{input:02X?}");
        assert_eq!((answer.first, answer.driven), (0, 0));
        assert!(output.iter().all(|&byte| byte == 0xFF));
        assert_eq!(self.record, expected.record, "{input:02X?}");
        self.keeps_memories(&expected);
    }

    /// Sends a frame that must begin an operation of that many ticks, spend
    /// the latch and otherwise adjust the record as said.
    fn begins(&mut self, input: &[u8], ticks: u64, adjust: impl FnOnce(&mut Record)) {
        let mut expected = self.record;
        expected.wel = false;
        expected.busy = ticks;
        adjust(&mut expected);
        let (answer, output) = self.send(input);
        assert_eq!(answer.outcome, Outcome::Begun, "{input:02X?}");
        assert_eq!((answer.first, answer.driven), (0, 0));
        assert!(output.iter().all(|&byte| byte == 0xFF));
        assert_eq!(self.record, expected, "{input:02X?}");
    }

    /// Sends a frame that must read, leave everything as it was, and drive
    /// the given bytes from the given position, FFh elsewhere.
    fn reads(&mut self, input: &[u8], first: usize, bytes: &[u8]) {
        let before = self.clone();
        let (answer, output) = self.send(input);
        let mut expected = vec![0xFF; input.len()];
        expected[first..first + bytes.len()].copy_from_slice(bytes);
        assert_eq!(answer.outcome, Outcome::Read, "{input:02X?}");
        assert_eq!(output, expected, "{input:02X?}");
        assert_eq!((answer.first, answer.driven), (first, bytes.len()));
        assert_eq!(self.record, before.record);
        self.keeps_memories(&before);
    }

    /// The lent memories are those of the other part.
    fn keeps_memories(&self, other: &Part) {
        assert!(self.array == other.array);
        assert!(self.register == other.register);
    }

    /// The array is the other part's but for one changed stretch.
    fn differs_only(&self, other: &Part, start: usize, bytes: &[u8]) {
        let mut expected = other.array.clone();
        expected[start..start + bytes.len()].copy_from_slice(bytes);
        assert!(self.array == expected);
        assert!(self.register == other.register);
    }

    /// Waits until the running operation is over.
    fn wait(&mut self) {
        self.clock(&[], 0, u64::MAX);
        assert_eq!(self.record.busy, 0);
    }
}

/// An array byte that tells its place from its neighbours, pages and banks.
fn pattern(place: usize) -> u8 {
    (place ^ (place >> 8).wrapping_mul(7) ^ (place >> 16).wrapping_mul(0x5A)) as u8
}

/// A frame of opcode, 24-bit address and data.
fn addressed(opcode: u8, address: u32, data: &[u8]) -> Vec<u8> {
    let [_, high, middle, low] = address.to_be_bytes();
    let mut input = vec![opcode, high, middle, low];
    input.extend_from_slice(data);
    input
}

mod worked_frames {
    use super::*;

    #[test]
    fn p1_status_shows_the_latch() {
        let mut part = Part::usual();
        part.obeys(&[0x06], |record| record.wel = true);
        part.reads(&[0x05, 0, 0, 0], 1, &[0x12, 0x00, 0x12]);
    }

    #[test]
    fn p2_program_wraps_in_its_page() {
        let mut part = Part::usual();
        let before = part.clone();
        part.obeys(&[0x06], |record| record.wel = true);
        part.begins(&[0x02, 0, 0, 0xFE, 0x11, 0x22, 0x33], 202, |_| ());
        let mut expected = before.array;
        expected[0xFE] = 0x11;
        expected[0xFF] = 0x22;
        expected[0x00] = 0x33;
        assert!(part.array == expected);
    }

    #[test]
    fn p3_programs_add_up_in_zeros() {
        let mut part = Part::usual();
        part.send(&[0x06]);
        part.begins(&addressed(0x02, 0x01_2345, &[0x0F]), 101, |_| ());
        assert_eq!(part.array[0x1_2345], 0x0F);
        part.wait();
        part.send(&[0x06]);
        part.begins(&addressed(0x02, 0x01_2345, &[0xF3]), 101, |_| ());
        part.differs_only(&Part::usual(), 0x1_2345, &[0x03]);
    }

    #[test]
    fn p4_program_needs_its_boundary() {
        Part::latched().aborts(&[0x02, 0, 0, 0, 0x00], 39);
        let mut part = Part::latched();
        part.begins(&[0x02, 0, 0, 0, 0x00], 101, |_| ());
        part.differs_only(&Part::usual(), 0, &[0x00]);
    }

    #[test]
    fn p5_last_256_data_bytes_count() {
        let mut part = Part::latched();
        let mut data = [0x55; 257];
        data[0] = 0xAA;
        part.begins(&addressed(0x02, 0, &data), 202, |_| ());
        part.differs_only(&Part::usual(), 0, &[0x55; 256]);
    }

    #[test]
    fn p6_erases_ignore_low_address_bits() {
        let mut part = Part::cleared();
        part.begins(&[0x20, 0x00, 0x1F, 0xFF], 404, |_| ());
        part.differs_only(&Part::cleared(), 0x1000, &[0xFF; 0x1000]);

        let mut part = Part::cleared();
        part.begins(&[0xD8, 0x01, 0x7F, 0xFF], 505, |_| ());
        part.differs_only(&Part::cleared(), 0x1_0000, &[0xFF; 0x8000]);
    }

    #[test]
    fn p7_high_address_bits_are_ignored() {
        let mut part = Part::usual();
        part.array[0] = 0x21;
        part.array[0x1_FFFF] = 0x43;
        part.reads(&[0x03, 0x02, 0, 0, 0], 4, &[0x21]);
        part.reads(&[0x03, 0xFF, 0xFF, 0xFF, 0, 0], 4, &[0x43, 0x21]);

        let mut part = Part::erased(SMALL);
        part.array[0] = 0x21;
        part.array[0xFFFF] = 0x43;
        part.reads(&[0x03, 0x01, 0, 0, 0], 4, &[0x21]);
        part.reads(&[0x03, 0xFF, 0xFF, 0xFF, 0, 0], 4, &[0x43, 0x21]);
    }

    #[test]
    fn p8_status_write_sets_protection() {
        let mut part = Part::latched();
        part.begins(&[0x01, 0x84], 808, |record| {
            record.bpl = true;
            record.bp0 = true;
        });
        part.wp_high = false;
        part.reads(&[0x05, 0], 1, &[0x85]);
        assert_eq!(part.record.status(false), [0x85, 0x01]);
        part.wait();
        part.reads(&[0x05, 0], 1, &[0x84]);
        assert_eq!(part.record.status(false), [0x84, 0x00]);
    }

    #[test]
    fn p9_bits_not_clocked_read_one() {
        let mut part = Part::usual();
        part.send(&[0x06]);
        let (answer, output) = part.clock(&[0x05, 0], 11, 0);
        assert_eq!(output, [0xFF, 0x1F]);
        assert_eq!(answer.outcome, Outcome::Read);
        assert_eq!((answer.first, answer.driven), (1, 1));
    }

    #[test]
    fn p10_identity_ends_after_four_bytes() {
        let mut part = Part::usual();
        let (answer, output) = part.send(&[0x9F, 0, 0, 0, 0, 0]);
        assert_eq!(output, [0xFF, 0x1F, 0x42, 0x00, 0x00, 0xFF]);
        assert_eq!((answer.first, answer.driven), (1, 4));
        assert_eq!(answer.outcome, Outcome::Read);
    }

    #[test]
    fn session_prints_its_four_lines() {
        let mut part = Part::erased(SMALL);
        part.settings = Settings::typical();
        part.settings.durations[0] = 2_000;
        part.settings.durations[1] = 2_000;
        let calls: [(&[u8], u64); 4] = [
            (&[0x06], 0),
            (&[0x02, 0x00, 0x00, 0xFE, 0x11, 0x22, 0x33], 1),
            (&[0x05, 0x00, 0x00], 1),
            (&[0x03, 0x00, 0x00, 0xFE, 0x00, 0x00, 0x00], 2_000),
        ];
        let lines = calls.map(|(input, elapsed)| {
            let (answer, output) = part.clock(input, 8 * input.len() as u64, elapsed);
            let [status, _] = answer.record.status(true);
            format!("{} > {} ST {status:02X}", hex(input), hex(&output))
        });
        let expected = [
            "06 > FF ST 12",
            "02 00 00 FE 11 22 33 > FF FF FF FF FF FF FF ST 11",
            "05 00 00 > FF 11 01 ST 11",
            "03 00 00 FE 00 00 00 > FF FF FF FF 11 22 FF ST 10",
        ];
        assert_eq!(lines, expected);
    }

    /// Bytes as two-digit hexadecimal numbers with blanks between.
    fn hex(bytes: &[u8]) -> String {
        let words: Vec<String> = bytes.iter().map(|byte| format!("{byte:02X}")).collect();
        words.join(" ")
    }
}

mod likely_errors {
    use super::*;

    #[test]
    fn an_aborted_operation_leaves_no_stale_latch() {
        let mut part = Part::latched();
        part.aborts(&[0x02, 0, 0, 0], 32);
        part.ignores(&[0x02, 0, 0, 0, 0x00], 40);
        part.ignores(&[0x60], 8);
    }

    #[test]
    fn program_only_clears_bits() {
        let mut part = Part::cleared();
        part.begins(&addressed(0x02, 0x10, &[0xFF, 0xF0]), 202, |_| ());
        part.keeps_memories(&Part::cleared());
    }

    #[test]
    fn read_does_not_wrap_at_the_page_end() {
        let mut part = Part::patterned(LARGE);
        let expected = [0xFE, 0xFF, 0x100, 0x101].map(pattern);
        part.reads(&addressed(0x03, 0xFE, &[0; 4]), 4, &expected);
        assert_ne!(pattern(0x100), pattern(0));
    }

    #[test]
    fn overwritten_program_data_is_forgotten() {
        let mut part = Part::latched();
        let mut data = [0x00; 300];
        for (index, byte) in data.iter_mut().enumerate().skip(44) {
            *byte = index as u8 | 0x01;
        }
        part.begins(&addressed(0x02, 0x07F0, &data), 202, |_| ());
        // Data byte 44 is the oldest of the last 256 and aims at F0h + 44 = 1Ch.
        let page: Vec<u8> = (0..256usize)
            .map(|place| 44 + (place + 256 - 0x1C) % 256)
            .map(|index| index as u8 | 0x01)
            .collect();
        part.differs_only(&Part::usual(), 0x0700, &page);
    }

    #[test]
    fn locked_protection_keeps_bp0() {
        let mut part = Part::latched().with(|record| {
            record.bpl = true;
            record.bp0 = true;
        });
        part.begins(&[0x01, 0x00], 808, |record| record.bpl = false);
        assert!(part.record.bp0);
        part.wait();
        part.send(&[0x06]);
        part.begins(&[0x01, 0x00], 808, |record| record.bp0 = false);
    }
}

mod refusals {
    use super::*;

    /// All arguments of a call.
    #[derive(Clone)]
    struct Call {
        record: Record,
        settings: Settings,
        array: usize,
        register: usize,
        input: usize,
        bits: u64,
        ticks_per_byte: u64,
        output: usize,
    }

    impl Call {
        /// A call with nothing wrong with it: a busy part asked for status.
        fn right() -> Call {
            Call {
                record: Record {
                    busy: 9,
                    wel: true,
                    ..Record::fresh(true, false, true)
                },
                settings: Settings::typical(),
                array: LARGE,
                register: 128,
                input: 2,
                bits: 16,
                ticks_per_byte: 1,
                output: 2,
            }
        }

        /// The right call with something altered.
        fn altered(alter: impl FnOnce(&mut Call)) -> Call {
            let mut call = Call::right();
            alter(&mut call);
            call
        }

        /// Makes the call; a refused one must leave everything as it was.
        fn refusal(&self) -> u8 {
            let mut array = vec![0x3C; self.array];
            let mut register = vec![0x3C; self.register];
            let mut output = vec![UNTOUCHED; self.output];
            let input = vec![0x05; self.input];
            let pins = Pins {
                bits: self.bits,
                wp_high: true,
                elapsed: 3,
                ticks_per_byte: self.ticks_per_byte,
            };
            let answer = frame(self.record, &self.settings, &mut array, &mut register, &input, pins, &mut output);
            assert!(array.iter().chain(&register).all(|&byte| byte == 0x3C));
            if answer.refusal != 0 {
                assert_eq!(answer.record, self.record);
                assert_eq!(answer.outcome, Outcome::Nothing);
                assert_eq!((answer.first, answer.driven), (0, 0));
                assert!(output.iter().all(|&byte| byte == UNTOUCHED));
            }
            answer.refusal
        }
    }

    /// Makes the call with one value altered in several ways.
    fn expect<T: Copy + std::fmt::Debug>(cases: &[(T, u8)], alter: impl Fn(&mut Call, T) + Copy) {
        for &(value, refusal) in cases {
            let call = Call::altered(|call| alter(call, value));
            assert_eq!(call.refusal(), refusal, "{value:?}");
        }
    }

    #[test]
    fn one_wrong_array_length() {
        let cases = [
            (0, 1),
            (1, 1),
            (65_535, 1),
            (65_536, 0),
            (65_537, 1),
            (98_304, 1),
            (131_071, 1),
            (131_072, 0),
            (131_073, 1),
            (262_144, 1),
        ];
        expect(&cases, |call, length| call.array = length);
    }

    #[test]
    fn two_wrong_register_length() {
        let cases = [(0, 2), (64, 2), (127, 2), (128, 0), (129, 2), (256, 2)];
        expect(&cases, |call, length| call.register = length);
    }

    #[test]
    fn three_input_over_8192_bytes() {
        let cases = [(8_191, 0), (8_192, 0), (8_193, 3), (20_000, 3)];
        expect(&cases, |call, length| {
            call.input = length;
            call.bits = 8 * length as u64;
            call.output = length;
        });
    }

    #[test]
    fn four_bits_and_bytes_disagree() {
        let cases = [
            ((0, 0), 0),
            ((0, 1), 4),
            ((0, u64::MAX), 4),
            ((1, 0), 4),
            ((1, 1), 0),
            ((1, 8), 0),
            ((1, 9), 4),
            ((2, 8), 4),
            ((2, 9), 0),
            ((2, 16), 0),
            ((2, 17), 4),
            ((2, 1 << 63), 4),
            ((2, u64::MAX), 4),
            ((8_192, 65_529), 0),
            ((8_192, 65_536), 0),
            ((8_192, 65_537), 4),
        ];
        expect(&cases, |call, (length, bits)| {
            call.input = length;
            call.bits = bits;
            call.output = length;
        });
    }

    #[test]
    fn five_output_too_short() {
        let cases = [(0, 5), (1, 5), (2, 0), (3, 0)];
        expect(&cases, |call, length| call.output = length);
    }

    #[test]
    fn six_impossible_busy_ticks() {
        let cases = [
            ((Mode::Awake, 0), 0),
            ((Mode::Awake, 60_000_000), 0),
            ((Mode::Awake, 60_000_001), 6),
            ((Mode::Awake, u64::MAX), 6),
            ((Mode::Deep, 0), 0),
            ((Mode::Deep, 1), 6),
            ((Mode::UltraDeep, 0), 0),
            ((Mode::UltraDeep, 1), 6),
            ((Mode::UltraDeep, 1 << 63), 6),
        ];
        expect(&cases, |call, (mode, busy)| {
            call.record.mode = mode;
            call.record.busy = busy;
        });
    }

    #[test]
    fn seven_impossible_duration() {
        let ticks = [(0, 7), (1, 0), (60_000_000, 0), (60_000_001, 7), (1 << 63, 7), (u64::MAX, 7)];
        for place in 0..8 {
            expect(&ticks, |call, value| call.settings.durations[place] = value);
        }
    }

    #[test]
    fn eight_position_too_long() {
        let cases = [(0, 0), (1, 0), (999, 0), (1_000, 0), (1_001, 8), (1 << 63, 8), (u64::MAX, 8)];
        expect(&cases, |call, ticks| call.ticks_per_byte = ticks);
    }

    #[test]
    fn seven_wins_over_eight() {
        let call = Call::altered(|call| {
            call.settings.durations[7] = 60_000_001;
            call.ticks_per_byte = 1_001;
        });
        assert_eq!(call.refusal(), 7);
    }

    #[test]
    fn lowest_number_wins() {
        let faults: [fn(&mut Call); 8] = [
            |call| call.array = 7,
            |call| call.register = 7,
            |call| {
                call.input = 8_193;
                call.bits = 8 * 8_193;
                call.output = 8_193;
            },
            |call| call.bits += 8,
            |call| call.output = call.input - 1,
            |call| call.record.busy = 60_000_001,
            |call| call.settings.durations[4] = 0,
            |call| call.ticks_per_byte = 1_001,
        ];
        for chosen in 1u32..1 << faults.len() {
            let mut call = Call::right();
            for (place, fault) in faults.iter().enumerate() {
                if chosen & (1 << place) != 0 {
                    fault(&mut call);
                }
            }
            assert_eq!(u32::from(call.refusal()), chosen.trailing_zeros() + 1);
        }
    }
}

mod states {
    use super::*;

    #[test]
    fn fresh_record_is_clear_and_awake() {
        let expected = Record {
            bpl: true,
            bp0: false,
            wel: false,
            rste: false,
            otp_used: true,
            mode: Mode::Awake,
            busy: 0,
        };
        assert_eq!(Record::fresh(true, false, true), expected);
        assert!(Record::fresh(false, true, false).bp0);
    }

    #[test]
    fn each_status_bit_has_its_place() {
        let plain = Record::fresh(false, false, false);
        let status = |adjust: fn(&mut Record)| Part::usual().with(adjust).record.status(false);
        assert_eq!(plain.status(false), [0x00, 0x00]);
        assert_eq!(plain.status(true), [0x10, 0x00]);
        assert_eq!(status(|record| record.bpl = true), [0x80, 0x00]);
        assert_eq!(status(|record| record.bp0 = true), [0x04, 0x00]);
        assert_eq!(status(|record| record.wel = true), [0x02, 0x00]);
        assert_eq!(status(|record| record.rste = true), [0x00, 0x10]);
        assert_eq!(status(|record| record.busy = 256), [0x01, 0x01]);
        assert_eq!(status(|record| record.otp_used = true), [0x00, 0x00]);
        assert_eq!(status(|record| record.mode = Mode::Deep), [0x00, 0x00]);
    }

    #[test]
    fn typical_times() {
        let expected = [12, 2_000, 7_000, 50_000, 400_000, 1_600_000, 400, 20_000];
        assert_eq!(Settings::typical().durations, expected);
    }

    #[test]
    fn ultra_deep_wakes_at_any_frame() {
        let frames: [(&[u8], u64); 6] = [
            (&[], 0),
            (&[0x00], 1),
            (&[0x79], 8),
            (&[0x9F, 0, 0], 24),
            (&[0xAB, 0], 9),
            (&[0x60], 8),
        ];
        for (input, bits) in frames {
            let mut part = Part::cleared().with(|record| {
                *record = Record {
                    bpl: true,
                    bp0: true,
                    wel: true,
                    rste: true,
                    otp_used: true,
                    mode: Mode::UltraDeep,
                    busy: 0,
                }
            });
            let (answer, output) = part.clock(input, bits, 5);
            assert_eq!(answer.outcome, Outcome::Control);
            assert_eq!((answer.first, answer.driven), (0, 0));
            assert!(output.iter().all(|&byte| byte == 0xFF));
            assert_eq!(answer.record, Record::fresh(true, true, true));
            part.keeps_memories(&Part::cleared());
        }
    }

    #[test]
    fn fewer_than_eight_bits_do_nothing() {
        Part::latched().ignores(&[], 0);
        for bits in 1..8 {
            Part::latched().ignores(&[0x05], bits);
            Part::latched().ignores(&[0x60], bits);
            Part::latched().with(|record| record.mode = Mode::Deep).ignores(&[0xAB], bits);
        }
    }

    #[test]
    fn deep_hears_only_the_wake_command() {
        let asleep = Part::cleared().with(|record| {
            record.mode = Mode::Deep;
            record.rste = true;
        });
        for opcode in (0..=0xFF).filter(|&opcode| opcode != 0xAB) {
            asleep.clone().ignores(&[opcode, 0xD0, 0, 0, 0], 40);
            asleep.clone().ignores(&[opcode], 8);
        }
        asleep.clone().ignores(&[0xAB, 0], 9);
        asleep.clone().ignores(&[0xAB, 0], 15);
        for input in [&[0xAB][..], &[0xAB, 0], &[0xAB, 1, 2, 3, 4]] {
            let awake = |record: &mut Record| record.mode = Mode::Awake;
            asleep.clone().obeys(input, awake);
        }
    }

    #[test]
    fn busy_hears_only_status_and_reset() {
        let busy = Part::cleared().with(|record| {
            record.busy = 4;
            record.rste = true;
        });
        for opcode in (0..=0xFF).filter(|opcode| ![0x05, 0xF0].contains(opcode)) {
            busy.clone().ignores(&[opcode, 0xD0, 0, 0, 0, 0, 0], 56);
            busy.clone().ignores(&[opcode], 8);
        }
        let expected = [0x13, 0x11, 0x13, 0x11];
        busy.clone().reads(&[0x05, 0, 0, 0, 0], 1, &expected);
        busy.clone().obeys(&[0xF0, 0xD0], |record| {
            record.busy = 0;
            record.wel = false;
        });
        busy.clone().ignores(&[0xF0, 0xD1], 16);
    }

    #[test]
    fn elapsed_ticks_count_before_the_frame() {
        let busy = Part::latched().with(|record| record.busy = 10);
        let erase = [0x60];
        let (answer, _) = busy.clone().clock(&erase, 8, 9);
        assert_eq!((answer.outcome, answer.record.busy), (Outcome::Nothing, 1));
        let (answer, _) = busy.clone().clock(&erase, 8, 10);
        assert_eq!((answer.outcome, answer.record.busy), (Outcome::Begun, 606));
        let (answer, _) = busy.clone().clock(&erase, 8, u64::MAX);
        assert_eq!((answer.outcome, answer.record.busy), (Outcome::Begun, 606));
        let (_, output) = busy.clone().clock(&[0x05, 0], 16, 10);
        assert_eq!(output, [0xFF, 0x12]);
        let (answer, output) = busy.clone().clock(&[0x05, 0], 16, 9);
        assert_eq!((output[1], answer.record.busy), (0x13, 1));
    }

    #[test]
    fn unlisted_opcodes_do_nothing() {
        let listed = [
            0x03, 0x0B, 0x77, 0x05, 0x9F, 0x15, 0x06, 0x04, 0xB9, 0x79, 0xF0, 0x02, 0x81, 0x20, 0x52, 0xD8, 0x60, 0x62, 0xC7, 0x9B, 0x01,
            0x31,
        ];
        let part = Part::cleared();
        for opcode in 0..=0xFF {
            let (answer, _) = part.clone().send(&[opcode, 0xD0, 0, 0, 0, 0, 0, 0]);
            let silent = answer.outcome == Outcome::Nothing;
            let without_reset = !listed.contains(&opcode) || opcode == 0xF0;
            assert_eq!(silent, without_reset, "{opcode:02X}");
        }
        Part::cleared().ignores(&[0x3B, 0, 0, 0, 0, 0], 48);
        Part::cleared().ignores(&[0xAB], 8);
    }
}

mod reads {
    use super::*;

    #[test]
    fn array_03() {
        let mut part = Part::patterned(LARGE);
        let last = [0x1_FFFE, 0x1_FFFF, 0, 1].map(pattern);
        part.reads(&addressed(0x03, 0x01_FFFE, &[0; 4]), 4, &last);
        part.reads(&addressed(0x03, 0xAB_CDEF, &[0]), 4, &[pattern(0x1_CDEF)]);
        part.reads(&[0x03, 0, 0, 0], 0, &[]);
        part.reads(&[0x03], 0, &[]);

        let mut part = Part::patterned(SMALL);
        let last = [0xFFFE, 0xFFFF, 0, 1].map(pattern);
        part.reads(&addressed(0x03, 0x01_FFFE, &[0; 4]), 4, &last);
    }

    #[test]
    fn array_03_off_a_boundary() {
        let mut part = Part::cleared();
        let (answer, output) = part.clock(&[0x03, 0, 0, 0, 0, 0], 41, 0);
        assert_eq!(output, [0xFF, 0xFF, 0xFF, 0xFF, 0x00, 0x7F]);
        assert_eq!((answer.first, answer.driven), (4, 2));
        let (answer, output) = part.clock(&[0x03, 0, 0, 0], 30, 0);
        assert_eq!(output, [0xFF; 4]);
        assert_eq!((answer.first, answer.driven), (0, 0));
        assert_eq!(answer.outcome, Outcome::Read);
    }

    #[test]
    fn array_03_longest_frame() {
        let mut part = Part::patterned(SMALL);
        let expected: Vec<u8> = (0..8_188).map(|i| pattern((0xF000 + i) % SMALL)).collect();
        part.reads(&addressed(0x03, 0xF000, &[0; 8_188]), 4, &expected);
    }

    #[test]
    fn array_0b() {
        let mut part = Part::patterned(LARGE);
        let last = [0x1_FFFF, 0].map(pattern);
        part.reads(&addressed(0x0B, 0xFF_FFFF, &[0; 3]), 5, &last);
        part.reads(&addressed(0x0B, 0x1234, &[0; 1]), 0, &[]);
        part.reads(&[0x0B, 0], 0, &[]);
    }

    #[test]
    fn register_77() {
        let mut part = Part::patterned(LARGE);
        let last = [0x80 ^ 126, 0x80 ^ 127, 0x80, 0x81];
        part.reads(&addressed(0x77, 0x7E, &[0; 6]), 6, &last);
        part.reads(&addressed(0x77, 0xFF_FFFE, &[0; 6]), 6, &last);
        part.reads(&addressed(0x77, 0x40, &[0; 3]), 6, &[0xC0]);
        part.reads(&addressed(0x77, 0x40, &[0; 2]), 0, &[]);
    }

    #[test]
    fn status_05() {
        let mut part = Part::usual().with(|record| {
            record.bpl = true;
            record.bp0 = true;
            record.rste = true;
        });
        part.reads(&[0x05, 0, 0, 0, 0], 1, &[0x94, 0x10, 0x94, 0x10]);
        part.wp_high = false;
        part.reads(&[0x05, 0xFF, 0xFF], 1, &[0x84, 0x10]);
        part.reads(&[0x05], 0, &[]);
    }

    #[test]
    fn identity_9f() {
        let mut part = Part::usual();
        part.reads(&[0x9F], 0, &[]);
        part.reads(&[0x9F, 0, 0], 1, &[0x1F, 0x42]);
        part.reads(&[0x9F, 0, 0, 0, 0, 0, 0, 0], 1, &[0x1F, 0x42, 0, 0]);
        let (answer, output) = part.clock(&[0x9F, 0, 0], 18, 0);
        assert_eq!(output, [0xFF, 0x1F, 0x7F]);
        assert_eq!((answer.first, answer.driven), (1, 2));
    }

    #[test]
    fn short_identity_15() {
        let mut part = Part::usual();
        part.reads(&[0x15, 0], 1, &[0x1F]);
        part.reads(&[0x15, 0, 0, 0, 0], 1, &[0x1F, 0x65]);
        part.reads(&[0x15], 0, &[]);
    }
}

mod controls {
    use super::*;

    #[test]
    fn latch_06_and_04() {
        let mut part = Part::usual();
        part.ignores(&[0x06, 0], 9);
        part.ignores(&[0x06, 0], 15);
        part.obeys(&[0x06, 0, 0], |record| record.wel = true);
        part.obeys(&[0x06], |record| record.wel = true);
        part.ignores(&[0x04, 0], 12);
        part.obeys(&[0x04], |record| record.wel = false);
        part.obeys(&[0x04, 0x55], |record| record.wel = false);
    }

    #[test]
    fn deep_sleep_b9() {
        let mut part = Part::latched().with(|record| record.rste = true);
        part.ignores(&[0xB9, 0], 9);
        part.obeys(&[0xB9], |record| record.mode = Mode::Deep);
        part.ignores(&[0x05, 0], 16);
        part.obeys(&[0xAB], |record| record.mode = Mode::Awake);
        assert!(part.record.wel && part.record.rste);
    }

    #[test]
    fn ultra_deep_sleep_79() {
        let mut part = Part::latched().with(|record| record.rste = true);
        part.ignores(&[0x79, 0], 9);
        part.obeys(&[0x79, 1], |record| record.mode = Mode::UltraDeep);
        part.obeys(&[0x05, 0], |record| {
            record.mode = Mode::Awake;
            record.wel = false;
            record.rste = false;
        });
        part.reads(&[0x05, 0, 0], 1, &[0x10, 0x00]);
    }

    #[test]
    fn wake_ab_while_awake() {
        Part::latched().ignores(&[0xAB], 8);
        Part::usual().ignores(&[0xAB, 0, 0, 0], 32);
    }

    #[test]
    fn reset_f0() {
        let enabled = Part::latched().with(|record| {
            record.rste = true;
            record.bpl = true;
            record.bp0 = true;
            record.otp_used = true;
        });
        enabled.clone().ignores(&[0xF0], 8);
        enabled.clone().ignores(&[0xF0, 0xD0], 15);
        enabled.clone().ignores(&[0xF0, 0xD0, 0], 17);
        enabled.clone().ignores(&[0xF0, 0xD2], 16);
        enabled.clone().ignores(&[0xF0, 0, 0xD0], 24);
        enabled.clone().obeys(&[0xF0, 0xD0], |record| record.wel = false);
        enabled.clone().obeys(&[0xF0, 0xD0, 0x77], |record| record.wel = false);
        Part::latched().ignores(&[0xF0, 0xD0], 16);
        Part::latched().with(|record| record.busy = 7).ignores(&[0xF0, 0xD0], 16);
    }

    #[test]
    fn reset_keeps_a_begun_change() {
        let mut part = Part::cleared().with(|record| record.rste = true);
        part.begins(&[0x81, 0, 0, 0], 303, |_| ());
        part.obeys(&[0xF0, 0xD0], |record| record.busy = 0);
        part.differs_only(&Part::cleared(), 0, &[0xFF; 256]);
    }
}

mod changes {
    use super::*;

    /// Every changing opcode with a frame just long enough for it.
    fn shortest_frames() -> Vec<Vec<u8>> {
        let mut frames = vec![vec![0x60], vec![0x62], vec![0xC7]];
        frames.extend([vec![0x01, 0x84], vec![0x31, 0x10]]);
        frames.extend([0x81, 0x20, 0x52, 0xD8].map(|opcode| addressed(opcode, 0, &[])));
        frames.extend([0x02, 0x9B].map(|opcode| addressed(opcode, 0, &[0])));
        frames
    }

    /// A part that would show any change: memories 5Ah, latch set.
    fn sensitive() -> Part {
        let mut part = Part::latched();
        part.array.fill(0x5A);
        part.register.fill(0x5A);
        part
    }

    #[test]
    fn without_the_latch_nothing_happens() {
        for input in shortest_frames() {
            let bits = 8 * input.len() as u64;
            let part = sensitive().with(|record| record.wel = false);
            part.clone().ignores(&input, bits);
            part.clone().ignores(&input, bits - 7);
        }
    }

    #[test]
    fn short_or_crooked_frames_abort() {
        for input in shortest_frames() {
            let bits = 8 * input.len() as u64;
            for fewer in (8..bits).rev() {
                sensitive().aborts(&input[..fewer.div_ceil(8) as usize], fewer);
            }
            let longer = [&input[..], &[0x00]].concat();
            for more in 1..8 {
                sensitive().aborts(&longer, bits + more);
            }
            let (answer, _) = sensitive().send(&input);
            assert!([Outcome::Begun, Outcome::Control].contains(&answer.outcome));
            assert!(!answer.record.wel);
        }
    }

    #[test]
    fn bp0_protects_the_array_alone() {
        let protected = sensitive().with(|record| record.bp0 = true);
        for input in shortest_frames() {
            let mut part = protected.clone();
            match input[0] {
                0x9B => part.begins(&input, 707, |record| record.otp_used = true),
                0x01 => part.begins(&input, 808, |record| record.bpl = true),
                0x31 => part.obeys(&input, |record| {
                    record.wel = false;
                    record.rste = true;
                }),
                _ => part.aborts(&input, 8 * input.len() as u64),
            }
        }
    }

    #[test]
    fn program_02() {
        let mut part = Part::latched();
        part.begins(&addressed(0x02, 0xFF_FFFF, &[0x12, 0x34]), 202, |_| ());
        let mut expected = Part::usual();
        expected.array[0x1_FFFF] = 0x12;
        expected.array[0x1_FF00] = 0x34;
        part.keeps_memories(&expected);

        let mut part = Part::erased(SMALL).with(|record| record.wel = true);
        part.begins(&addressed(0x02, 0x01_0080, &[0x12]), 101, |_| ());
        part.differs_only(&Part::erased(SMALL), 0x80, &[0x12]);
    }

    #[test]
    fn program_02_of_exactly_256_and_of_8188_bytes() {
        let data: Vec<u8> = (0..=255).collect();
        let mut part = Part::latched();
        part.begins(&addressed(0x02, 0x0001_2300, &data), 202, |_| ());
        part.differs_only(&Part::usual(), 0x1_2300, &data);

        let data: Vec<u8> = (0..8_188).map(|index| (index / 256) as u8).collect();
        let mut part = Part::latched();
        part.begins(&addressed(0x02, 0, &data), 202, |_| ());
        // 8,188 is 31 pages and 252 bytes: the last four places keep round 30.
        let mut page = [31; 256];
        page[252..].fill(30);
        part.differs_only(&Part::usual(), 0, &page);
    }

    #[test]
    fn page_erase_81() {
        let mut part = Part::cleared();
        part.begins(&[0x81, 0xFE, 0x12, 0x7F], 303, |_| ());
        part.differs_only(&Part::cleared(), 0x1200, &[0xFF; 0x100]);
        let mut part = Part::cleared();
        part.begins(&[0x81, 0x01, 0xFF, 0xFF, 0, 0], 303, |_| ());
        part.differs_only(&Part::cleared(), 0x1_FF00, &[0xFF; 0x100]);
    }

    #[test]
    fn four_kib_erase_20() {
        let mut part = Part::cleared();
        part.begins(&[0x20, 0x03, 0xF0, 0x00], 404, |_| ());
        part.differs_only(&Part::cleared(), 0x1_F000, &[0xFF; 0x1000]);
    }

    #[test]
    fn thirty_two_kib_erase_52_and_d8() {
        for opcode in [0x52, 0xD8] {
            let mut part = Part::cleared();
            part.begins(&[opcode, 0x00, 0x80, 0x00], 505, |_| ());
            part.differs_only(&Part::cleared(), 0x8000, &[0xFF; 0x8000]);
        }
        let mut part = Part::cleared();
        part.array.truncate(SMALL);
        let before = part.clone();
        part.begins(&[0x52, 0x01, 0x7F, 0xFF], 505, |_| ());
        part.differs_only(&before, 0, &[0xFF; 0x8000]);
    }

    #[test]
    fn chip_erase_60_62_and_c7() {
        for opcode in [0x60, 0x62, 0xC7] {
            let mut part = Part::cleared();
            part.begins(&[opcode], 606, |_| ());
            part.differs_only(&Part::cleared(), 0, &[0xFF; LARGE]);
            let mut part = Part::cleared();
            part.begins(&[opcode, 1, 2], 606, |_| ());
        }
    }

    #[test]
    fn otp_9b() {
        let mut part = Part::latched();
        part.register[0x3F] = 0x3C;
        part.begins(&addressed(0x9B, 0xFF_FFFF, &[0x0F, 0x21]), 707, |record| {
            record.otp_used = true;
        });
        let mut expected = Part::usual();
        expected.register[0x3F] = 0x0C;
        expected.register[0x00] = 0x21;
        part.keeps_memories(&expected);
        part.wait();
        part.send(&[0x06]);
        part.aborts(&addressed(0x9B, 0, &[0]), 40);
    }

    #[test]
    fn otp_9b_keeps_the_last_64() {
        let data: Vec<u8> = (0..70).map(|index| 0x80 | index).collect();
        let mut part = Part::latched();
        part.begins(&addressed(0x9B, 0x40, &data), 707, |record| {
            record.otp_used = true;
        });
        let mut expected = Part::usual();
        expected.register[..64].copy_from_slice(&data[..64]);
        expected.register[..6].copy_from_slice(&data[64..]);
        part.keeps_memories(&expected);
    }

    #[test]
    fn protection_01() {
        for operand in [0x00, 0x04, 0x80, 0x84, 0x7B, 0xFF] {
            let bits = (operand & 0x80 != 0, operand & 0x04 != 0);
            for wp_high in [false, true] {
                let mut part = sensitive();
                part.wp_high = wp_high;
                part.begins(&[0x01, operand], 808, |record| {
                    (record.bpl, record.bp0) = bits;
                });
                part.keeps_memories(&sensitive());
            }
            for bp0 in [false, true] {
                let mut locked = sensitive().with(|record| {
                    record.bpl = true;
                    record.bp0 = bp0;
                });
                let unlocks = |record: &mut Record| record.bpl = bits.0;
                locked.clone().begins(&[0x01, operand], 808, unlocks);
                locked.wp_high = false;
                locked.aborts(&[0x01, operand], 16);
            }
        }
        sensitive().begins(&[0x01, 0x80, 0x04], 808, |record| record.bpl = true);
    }

    #[test]
    fn reset_enable_31() {
        let mut part = sensitive();
        part.obeys(&[0x31, 0x10], |record| {
            record.wel = false;
            record.rste = true;
        });
        part.send(&[0x06]);
        part.obeys(&[0x31, 0xEF, 0x10], |record| {
            record.wel = false;
            record.rste = false;
        });
    }
}

mod time_in_a_frame {
    use super::*;

    /// The usual bench, busy for that long, at that pace.
    fn busy(ticks: u64, ticks_per_byte: u64) -> Part {
        Part::usual().with(|record| record.busy = ticks).at_pace(ticks_per_byte)
    }

    impl Part {
        /// Polls with 05h after some ticks: the status bytes that follow it
        /// must be the given ones, and that many busy ticks be left.
        fn polls(mut self, elapsed: u64, expected: &[u8], left: u64) {
            let before = self.clone();
            let input = [&[0x05], vec![0x00; expected.len()].as_slice()].concat();
            let (answer, output) = self.clock(&input, 8 * input.len() as u64, elapsed);
            assert_eq!(answer.outcome, Outcome::Read);
            assert_eq!((output[0], &output[1..]), (0xFF, expected));
            assert_eq!((answer.first, answer.driven), (1, expected.len()));
            self.changes_only(&before, |record| record.busy = left);
        }

        /// Sends a frame that must do nothing but let time pass, so that this
        /// many busy ticks are left.
        fn passes_time(mut self, input: &[u8], bits: u64, left: u64) {
            let before = self.clone();
            let (answer, output) = self.clock(input, bits, 0);
            assert_eq!(answer.outcome, Outcome::Nothing, "{input:02X?} {bits}");
            assert_eq!((answer.first, answer.driven), (0, 0));
            assert!(output.iter().all(|&byte| byte == 0xFF));
            self.changes_only(&before, |record| record.busy = left);
        }

        /// The part is the other one but for an adjustment of the record.
        fn changes_only(&self, other: &Part, adjust: impl FnOnce(&mut Record)) {
            assert_eq!(self.record, other.clone().with(adjust).record);
            self.keeps_memories(other);
        }
    }

    #[test]
    fn busy_ends_while_a_status_byte_is_shown() {
        // Positions 1, 2, 3, 4 begin 10, 20, 30, 40 ticks after the first bit.
        // WP is high: byte 1 is 11h busy, 10h idle; byte 2 is 01h, then 00h.
        // 5 ticks end in the opcode: no status byte shows busy.
        busy(5, 10).polls(0, &[0x10, 0x00, 0x10, 0x00], 0);
        // 15 end inside position 1, byte 1, which still shows busy: 15 > 10.
        busy(15, 10).polls(0, &[0x11, 0x00, 0x10, 0x00], 0);
        // 25 end inside position 2, byte 2, which still shows busy: 25 > 20.
        busy(25, 10).polls(0, &[0x11, 0x01, 0x10, 0x00], 0);
        // 35 end inside position 3, byte 1 again: 35 > 30.
        busy(35, 10).polls(0, &[0x11, 0x01, 0x11, 0x00], 0);
        // 45 end inside position 4, the last: 45 > 40, and 45 - 50 is below 0.
        busy(45, 10).polls(0, &[0x11, 0x01, 0x11, 0x01], 0);
        // 55 outlast the five positions: 55 - 50 = 5.
        busy(55, 10).polls(0, &[0x11, 0x01, 0x11, 0x01], 5);
    }

    #[test]
    fn busy_ends_at_the_first_bit_of_a_status_byte() {
        // Position 1 begins after 10 ticks. With 9 or 10 none are left there;
        // with 11 one is. Three positions take 30.
        busy(9, 10).polls(0, &[0x10, 0x00], 0);
        busy(10, 10).polls(0, &[0x10, 0x00], 0);
        busy(11, 10).polls(0, &[0x11, 0x00], 0);
        // Position 2 begins after 20.
        busy(19, 10).polls(0, &[0x11, 0x00], 0);
        busy(20, 10).polls(0, &[0x11, 0x00], 0);
        busy(21, 10).polls(0, &[0x11, 0x01], 0);
        // The rise is after 30: of 29 and 30 none are left there, of 31 one.
        busy(29, 10).polls(0, &[0x11, 0x01], 0);
        busy(30, 10).polls(0, &[0x11, 0x01], 0);
        busy(31, 10).polls(0, &[0x11, 0x01], 1);
        // At 1 tick a position, 2 ticks are over as position 2 begins.
        busy(1, 1).polls(0, &[0x10, 0x00, 0x10], 0);
        busy(2, 1).polls(0, &[0x11, 0x00, 0x10], 0);
        busy(3, 1).polls(0, &[0x11, 0x01, 0x10], 0);
    }

    #[test]
    fn elapsed_ticks_pass_before_the_first_bit() {
        // 40 - 18 = 22 at the first bit: 22 > 10, 22 > 20, 22 - 30 is below 0.
        busy(40, 10).polls(18, &[0x11, 0x01], 0);
        // 40 - 20 = 20: 20 > 10, but 20 > 20 does not hold.
        busy(40, 10).polls(20, &[0x11, 0x00], 0);
        // 40 - 5 = 35, and 35 - 3 * 10 = 5.
        busy(40, 10).polls(5, &[0x11, 0x01], 5);
        // 40 - 40 = 0.
        busy(40, 10).polls(40, &[0x10, 0x00], 0);
    }

    #[test]
    fn at_pace_zero_the_status_stands_still() {
        busy(1, 0).polls(0, &[0x11, 0x01, 0x11, 0x01], 1);
        busy(7, 0).polls(6, &[0x11, 0x01, 0x11], 1);
        busy(7, 0).polls(7, &[0x10, 0x00, 0x10], 0);
    }

    #[test]
    fn only_busy_moves_in_the_status() {
        // BPL 80h, WP 10h, BP0 04h, WEL 02h: byte 1 is 97h busy and 96h idle.
        // RSTE 10h: byte 2 is 11h busy and 10h idle. 25 > 10, 25 > 20, not 25 > 30.
        let marked = busy(25, 10).with(|record| {
            record.bpl = true;
            record.bp0 = true;
            record.wel = true;
            record.rste = true;
        });
        marked.polls(0, &[0x97, 0x11, 0x96, 0x10], 0);
    }

    #[test]
    fn the_longest_poll_at_the_slowest_pace() {
        // 8,192 positions of 1,000 ticks: the last begins after 8,191,000 and
        // the rise is after 8,192,000. Position 8,191 is odd and shows byte 1.
        let shown = |last| {
            let mut bytes = [0x11, 0x01].repeat(4_095);
            bytes.push(last);
            bytes
        };
        busy(8_191_000, 1_000).polls(0, &shown(0x10), 0);
        busy(8_191_001, 1_000).polls(0, &shown(0x11), 0);
        // 60,000,000 - 8,192,000 = 51,808,000.
        busy(60_000_000, 1_000).polls(0, &shown(0x11), 51_808_000);
    }

    #[test]
    fn a_partial_last_byte_takes_its_ticks() {
        // 100 less 10 for each 8 bits begun.
        let one: &[u8] = &[0x05];
        let two: &[u8] = &[0x05, 0];
        let three: &[u8] = &[0x05, 0, 0];
        let cases = [
            (one, 8, 90),
            (two, 9, 80),
            (two, 15, 80),
            (two, 16, 80),
            (three, 17, 70),
            (three, 23, 70),
            (three, 24, 70),
        ];
        for (input, bits, left) in cases {
            let (answer, _) = busy(100, 10).clock(input, bits, 0);
            assert_eq!((answer.outcome, answer.record.busy), (Outcome::Read, left), "{bits}");
        }
        // 17 bits: of byte 2, 01h, only the leading 0 is clocked: 7Fh.
        let (_, output) = busy(100, 10).clock(three, 17, 0);
        assert_eq!(output, [0xFF, 0x11, 0x7F]);
    }

    #[test]
    fn a_frame_of_no_bits_takes_no_time() {
        busy(50, 1_000).passes_time(&[], 0, 50);
        // Elapsed ticks do count: 50 - 7 = 43.
        let (answer, _) = busy(50, 1_000).clock(&[], 0, 7);
        assert_eq!((answer.outcome, answer.record.busy), (Outcome::Nothing, 43));
    }

    #[test]
    fn fewer_than_eight_bits_take_one_position() {
        for bits in 1..8 {
            // 100 - 10 = 90, and 4 - 10 is below 0.
            busy(100, 10).passes_time(&[0x05], bits, 90);
            busy(4, 10).passes_time(&[0x05], bits, 0);
        }
    }

    #[test]
    fn a_frame_begun_busy_is_ignored_to_its_end() {
        // 1 tick ends in the opcode; the frame was busy at its first bit.
        let ending = Part::cleared().with(|record| {
            record.busy = 1;
            record.rste = true;
        });
        for opcode in (0..=0xFF).filter(|opcode| ![0x05, 0xF0].contains(opcode)) {
            let part = ending.clone().at_pace(1_000);
            part.clone().passes_time(&[opcode, 0xD0, 0, 0, 0, 0, 0], 56, 0);
            part.clone().passes_time(&[opcode], 8, 0);
        }
        // The next frame finds the part idle, and the latch still set.
        let mut part = ending.at_pace(1);
        part.clock(&[0x60], 8, 0);
        part.begins(&[0x60], 606, |_| ());
    }

    #[test]
    fn an_ignored_frame_takes_its_ticks() {
        let latched = busy(100, 10).with(|record| record.wel = true);
        // A read of 6 positions: 100 - 60 = 40.
        latched.clone().passes_time(&addressed(0x03, 0, &[0, 0]), 48, 40);
        // A program of 5 positions, and one that lacks its last bit.
        latched.clone().passes_time(&addressed(0x02, 0, &[0]), 40, 50);
        latched.clone().passes_time(&addressed(0x02, 0, &[0]), 39, 50);
        // A latch command and a sleep command, one position each.
        latched.clone().passes_time(&[0x04], 8, 90);
        latched.clone().passes_time(&[0xB9], 8, 90);
        // A wake command, of two positions, to a part that is awake.
        latched.clone().passes_time(&[0xAB, 0], 9, 80);
    }

    #[test]
    fn an_unlisted_opcode_takes_its_ticks() {
        // 3Bh is not built. 6 positions: 100 - 60 = 40; 2 positions: 80.
        busy(100, 10).passes_time(&[0x3B, 0, 0, 0, 0, 0], 48, 40);
        busy(100, 10).passes_time(&[0x00, 0], 11, 80);
    }

    #[test]
    fn an_aborted_frame_leaves_the_part_idle() {
        // An abort takes a part idle at the first bit: 0 less 5 * 10 stays 0.
        Part::latched().at_pace(10).aborts(&[0x02, 0, 0, 0, 0], 39);
        // 30 - 30 = 0 at the first bit: aborted. 30 - 29 = 1: ignored as busy,
        // the latch stays, and 1 less 5 * 10 is below 0.
        let ending = Part::latched().with(|record| record.busy = 30).at_pace(10);
        let (answer, _) = ending.clone().clock(&[0x02, 0, 0, 0, 0], 39, 30);
        assert_eq!((answer.outcome, answer.record.busy), (Outcome::Aborted, 0));
        assert!(!answer.record.wel);
        let (answer, _) = ending.clone().clock(&[0x02, 0, 0, 0, 0], 39, 29);
        assert_eq!((answer.outcome, answer.record.busy), (Outcome::Nothing, 0));
        assert!(answer.record.wel);
    }

    #[test]
    fn an_operation_begins_with_its_full_duration() {
        // Each starts at the rise, however long the frame took.
        for pace in [1, 10, 1_000] {
            let latched = Part::latched().at_pace(pace);
            let begins = |input: &[u8], ticks| latched.clone().begins(input, ticks, |_| ());
            begins(&addressed(0x02, 0, &[0x12]), 101);
            begins(&addressed(0x02, 0, &[0x12, 0x34]), 202);
            begins(&addressed(0x02, 0, &[0x12; 300]), 202);
            begins(&addressed(0x81, 0, &[]), 303);
            begins(&addressed(0x20, 0, &[]), 404);
            begins(&addressed(0x52, 0, &[]), 505);
            begins(&[0x60, 0, 0], 606);
            begins(&[0x01, 0x00], 808);
            latched
                .clone()
                .begins(&addressed(0x9B, 0, &[0]), 707, |record| record.otp_used = true);
        }
    }

    #[test]
    fn a_program_begins_if_idle_at_the_first_bit() {
        let program = addressed(0x02, 0x1234, &[0x56]);
        let ending = Part::latched().with(|record| record.busy = 30).at_pace(10);
        // 30 - 30 = 0 at the first bit: 101 ticks from the rise on.
        let mut part = ending.clone();
        let (answer, _) = part.clock(&program, 40, 30);
        assert_eq!((answer.outcome, answer.record.busy), (Outcome::Begun, 101));
        part.differs_only(&Part::usual(), 0x1234, &[0x56]);
        // 30 - 29 = 1 at the first bit: ignored, and over within the opcode.
        let mut part = ending.clone();
        let (answer, _) = part.clock(&program, 40, 29);
        assert_eq!((answer.outcome, answer.record.busy), (Outcome::Nothing, 0));
        part.keeps_memories(&ending);
    }

    #[test]
    fn a_program_is_polled_to_its_end() {
        let mut part = Part::latched().at_pace(10);
        part.begins(&addressed(0x02, 0, &[0x12]), 101, |_| ());
        // 101 > 10 * 10 and not 101 > 11 * 10: position 11, byte 1, is the
        // first to show idle.
        let shown = [[0x11, 0x01].repeat(5), vec![0x10, 0x00]].concat();
        part.clone().polls(0, &shown, 0);
        // Ten positions leave 1; in the next poll it is gone at position 1.
        part.clone().polls(0, &shown[..9], 1);
        part.clock(&[0x05, 0, 0, 0, 0, 0, 0, 0, 0, 0], 80, 0);
        part.polls(0, &[0x10, 0x00], 0);
    }

    #[test]
    fn reset_acts_at_the_rise() {
        let enabled = |ticks| {
            busy(ticks, 10).with(|record| {
                record.rste = true;
                record.wel = true;
            })
        };
        let stops = |record: &mut Record| {
            record.busy = 0;
            record.wel = false;
        };
        // 100 outlast the two positions, 5 end in the first, 15 in the second,
        // 20 at the rise.
        for ticks in [100, 5, 15, 20] {
            enabled(ticks).obeys(&[0xF0, 0xD0], stops);
        }
        // Not carried out, it takes its ticks: 100 less 10 a position.
        enabled(100).passes_time(&[0xF0], 8, 90);
        enabled(100).passes_time(&[0xF0, 0xD1], 16, 80);
        enabled(100).passes_time(&[0xF0, 0xD0], 15, 80);
        enabled(100).passes_time(&[0xF0, 0xD0, 0], 17, 70);
        enabled(15).passes_time(&[0xF0, 0xD1], 16, 0);
        busy(100, 10).passes_time(&[0xF0, 0xD0], 16, 80);
        busy(5, 10).passes_time(&[0xF0, 0xD0], 16, 0);
    }

    #[test]
    fn an_idle_part_does_not_feel_the_pace() {
        let mut part = Part::patterned(LARGE).at_pace(1_000);
        let expected = [0x1_FFFF, 0].map(pattern);
        part.reads(&addressed(0x03, 0x01_FFFF, &[0; 2]), 4, &expected);
        part.reads(&[0x05, 0, 0, 0], 1, &[0x12, 0x00, 0x12]);
        part.reads(&[0x9F, 0, 0], 1, &[0x1F, 0x42]);
        part.obeys(&[0x04], |record| record.wel = false);
        part.obeys(&[0x06], |record| record.wel = true);
        part.obeys(&[0x31, 0x10], |record| {
            record.wel = false;
            record.rste = true;
        });
        part.obeys(&[0xF0, 0xD0], |_| ());
    }

    #[test]
    fn deep_sleep_has_nothing_to_run_down() {
        let mut part = Part::latched().at_pace(1_000);
        part.obeys(&[0xB9], |record| record.mode = Mode::Deep);
        part.ignores(&[0x05, 0, 0], 24);
        part.ignores(&[0x60], 8);
        part.ignores(&[0xAB, 0], 9);
        part.obeys(&[0xAB, 0], |record| record.mode = Mode::Awake);
        part.begins(&[0x60], 606, |_| ());
        // Sent to a busy part the command is ignored: 5 - 1,000 is below 0.
        busy(5, 1_000).passes_time(&[0xB9], 8, 0);
        busy(5, 1_000).passes_time(&[0x79], 8, 0);
    }

    #[test]
    fn any_frame_wakes_from_ultra_deep_at_any_pace() {
        let frames: [(&[u8], u64); 4] = [(&[], 0), (&[0x05], 3), (&[0x05, 0, 0], 24), (&[0xAB, 0], 9)];
        for (input, bits) in frames {
            let mut part = Part::latched().at_pace(1_000);
            part.obeys(&[0x79], |record| record.mode = Mode::UltraDeep);
            let (answer, output) = part.clock(input, bits, 5);
            assert_eq!(answer.outcome, Outcome::Control);
            assert_eq!((answer.first, answer.driven), (0, 0));
            assert!(output.iter().all(|&byte| byte == 0xFF));
            assert_eq!(answer.record, Record::fresh(false, false, false));
        }
    }

    #[test]
    fn a_refused_call_counts_neither_number() {
        // 9 - 3 = 6 at the first bit, 6 - 2 * 2 = 2 at the rise if accepted.
        let call = |ticks_per_byte| {
            let record = busy(9, 0).record;
            let pins = Pins {
                bits: 16,
                wp_high: true,
                elapsed: 3,
                ticks_per_byte,
            };
            let (mut array, mut register) = (vec![0xFF; SMALL], [0xFF; 128]);
            let mut output = [UNTOUCHED; 2];
            let answer = frame(record, &DISTINCT, &mut array, &mut register, &[0x05, 0], pins, &mut output);
            (answer.refusal, answer.outcome, answer.record.busy, output)
        };
        assert_eq!(call(2), (0, Outcome::Read, 2, [0xFF, 0x11]));
        assert_eq!(call(1_000), (0, Outcome::Read, 0, [0xFF, 0x10]));
        assert_eq!(call(1_001), (8, Outcome::Nothing, 9, [UNTOUCHED; 2]));
    }

    #[test]
    fn the_longest_rest_and_the_slowest_pace_do_not_add_up() {
        // 2^64 - 1 ticks end any operation before the first bit.
        busy(60_000_000, 1_000).polls(u64::MAX, &[0x10, 0x00], 0);
        let mut part = Part::latched().with(|record| record.busy = 60_000_000).at_pace(1_000);
        let (answer, _) = part.clock(&[0x60], 8, u64::MAX);
        assert_eq!((answer.outcome, answer.record.busy), (Outcome::Begun, 606));
    }
}

mod looks {
    use super::*;

    #[test]
    fn array() {
        let place = |address, count| look(Memory::Array, LARGE, 0, address, count);
        assert_eq!(place(0, 0), 0..0);
        assert_eq!(place(5, 0), 5..5);
        assert_eq!(place(5, 3), 5..8);
        assert_eq!(place(0x1_FFFF, 2), 0x1_FFFF..0x2_0000);
        assert_eq!(place(0x2_0001, 2), 1..3);
        assert_eq!(place(u64::MAX, u64::MAX), 0x1_FFFF..0x2_0000);
        assert_eq!(place(1 << 63, 1 << 63), 0..LARGE);
        assert_eq!(look(Memory::Array, SMALL, 128, 0x1_0001, 2), 1..3);
        assert_eq!(look(Memory::Array, SMALL, 128, 1, u64::MAX), 1..SMALL);
    }

    #[test]
    fn register() {
        let place = |address, count| look(Memory::Register, 3, 128, address, count);
        assert_eq!(place(127, 1), 127..128);
        assert_eq!(place(127, 2), 127..128);
        assert_eq!(place(128, 200), 0..128);
        assert_eq!(place(u64::MAX, 1), 127..128);
    }

    #[test]
    fn wrong_length() {
        for length in [0, 1, 65_535, 65_537, 131_071, 131_073, usize::MAX] {
            assert_eq!(look(Memory::Array, length, 128, 7, 7), 0..0);
        }
        for length in [0, 1, 127, 129, 131_072, usize::MAX] {
            assert_eq!(look(Memory::Register, LARGE, length, 7, 7), 0..0);
        }
    }
}

mod extremes {
    use super::*;

    /// Values at which arithmetic would overflow first.
    const EDGES: [u64; 6] = [0, 1, 60_000_000, 1 << 63, u64::MAX - 7, u64::MAX];

    #[test]
    fn no_argument_makes_the_model_panic() {
        for array in [0, 1, SMALL, LARGE + 1] {
            for register in [0, 128, 129] {
                for length in [0, 1, 2, 8_193] {
                    for number in EDGES {
                        attempt(array, register, length, number);
                    }
                }
            }
        }
    }

    /// Makes calls with one number in every numeric place in turn.
    fn attempt(array: usize, register: usize, length: usize, number: u64) {
        let (mut array, mut register) = (vec![0; array], vec![0; register]);
        let mut output = vec![0; length];
        let input = vec![0x60; length];
        for place in 0..5 {
            let pick = |wanted, usual| if place == wanted { number } else { usual };
            let mut record = Record::fresh(false, false, false);
            record.wel = true;
            record.busy = pick(0, 1);
            let settings = Settings {
                durations: [pick(1, 1); 8],
            };
            let pins = Pins {
                bits: pick(2, 8 * length as u64),
                wp_high: false,
                elapsed: pick(3, 1),
                ticks_per_byte: pick(4, 1),
            };
            let answer = frame(record, &settings, &mut array, &mut register, &input, pins, &mut output);
            assert!(answer.refusal <= 8);
        }
    }
}
