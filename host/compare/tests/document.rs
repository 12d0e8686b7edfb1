//! Document 01's worked frames, limits, session and likely errors, its own values asserted on the proved part and on the model; and polls
//! worked by hand.
use compare::{model_word, model_words};
use oxterin::{Answer, Cause, Outcome, Part, Signals, Size};

/// What a frame gave.
#[derive(Clone, Debug, PartialEq, Eq)]
struct Seen {
    refusal: u8,
    outcome: &'static str,
    cause: Option<&'static str>,
    first: usize,
    driven: usize,
    output: Vec<u8>,
    record: [u64; 7],
}

/// The proved part and the model, which see the same frames and have to answer alike.
struct Pair {
    part: Part,
    model: Model,
}

/// The model with what it works on.
struct Model {
    array: Vec<u8>,
    register: Vec<u8>,
    record: model::Record,
    settings: model::Settings,
}

impl Pair {
    /// A fresh pair whose array is filled with this byte; its register is all FFh.
    fn filled(size: Size, byte: u8) -> Pair {
        let image = vec![byte; size.bytes()];
        Pair {
            part: Part::with_image(image.clone()).expect("an image of an array's length"),
            model: Model {
                array: image,
                register: vec![0xFF; 128],
                record: model::Record::fresh(false, false, false),
                settings: model::Settings::typical(),
            },
        }
    }

    /// The part that most worked frames begin with.
    fn erased() -> Pair {
        Pair::filled(Size::Whole, 0xFF)
    }

    /// The same with WEL 1.
    fn latched(mut self) -> Pair {
        self.part.record.wel = true;
        self.model.record.wel = true;
        self
    }

    /// The same with BPL and BP0 1.
    fn protected(mut self) -> Pair {
        (self.part.record.bpl, self.part.record.bp0) = (true, true);
        (self.model.record.bpl, self.model.record.bp0) = (true, true);
        self
    }

    /// The same, busy for so many ticks.
    fn busy(mut self, ticks: u64) -> Pair {
        self.part.record.busy = ticks;
        self.model.record.busy = ticks;
        self
    }

    /// Any frame.
    fn frame(&mut self, input: &[u8], signals: Signals) -> Seen {
        let proved = self.proved_frame(input, signals);
        assert_eq!(proved, self.model.frame(input, signals));
        assert!(self.part.array() == self.model.array);
        assert!(self.part.register() == self.model.register);
        proved
    }

    /// All bits of these bytes, WP high, no time elapsed.
    fn send(&mut self, input: &[u8]) -> Seen {
        self.frame(input, Signals::whole(input))
    }

    /// All bits of these bytes, WP high, no time elapsed, so many ticks for each position.
    fn clock(&mut self, input: &[u8], ticks_per_byte: u64) -> Seen {
        let signals = Signals {
            ticks_per_byte,
            ..Signals::whole(input)
        };
        self.frame(input, signals)
    }

    /// A frame on the proved part.
    fn proved_frame(&mut self, input: &[u8], signals: Signals) -> Seen {
        let refused = Answer {
            outcome: Outcome::Nothing,
            cause: None,
            first: 0,
            driven: 0,
        };
        let (refusal, answer, output) = match self.part.frame(input, signals) {
            Ok(seen) => (0, seen.answer, seen.output),
            Err(refusal) => (refusal.number(), refused, vec![0; input.len()]),
        };
        Seen {
            refusal,
            outcome: answer.outcome.word(),
            cause: answer.cause.map(Cause::words),
            first: answer.first,
            driven: answer.driven,
            output,
            record: self.part.record.words(),
        }
    }

    /// The array's bytes from this address on.
    fn holds(&self, address: usize, bytes: &[u8]) {
        assert_eq!(self.part.array()[address..address + bytes.len()], *bytes, "at {address:06X}h");
    }

    /// The array is filled with this byte but for the stretches named by start and bytes.
    fn holds_only(&self, fill: u8, stretches: &[(usize, &[u8])]) {
        let mut expected = vec![fill; self.part.array().len()];
        for &(start, bytes) in stretches {
            expected[start..start + bytes.len()].copy_from_slice(bytes);
        }
        assert!(self.part.array() == expected);
        assert!(self.model.array == expected);
    }

    /// Status byte 1, from both records without a frame.
    fn status(&self, wp_high: bool) -> u8 {
        let status = self.part.status(wp_high);
        assert_eq!(status, self.model.record.status(wp_high));
        status[0]
    }

    /// Sets the durations of programs.
    fn set_program_ticks(&mut self, ticks: u64) {
        self.part.settings.byte_program = ticks;
        self.part.settings.longer_program = ticks;
        self.model.settings.durations[..2].fill(ticks);
    }
}

impl Model {
    /// A frame on the model.
    fn frame(&mut self, input: &[u8], signals: Signals) -> Seen {
        let pins = model::Pins {
            bits: signals.bits,
            wp_high: signals.wp_high,
            elapsed: signals.elapsed,
            ticks_per_byte: signals.ticks_per_byte,
        };
        let mut output = vec![0; input.len()];
        let answer = model::frame(
            self.record,
            &self.settings,
            &mut self.array,
            &mut self.register,
            input,
            pins,
            &mut output,
        );
        self.record = answer.record;
        Seen {
            refusal: answer.refusal,
            outcome: model_word(answer.outcome),
            cause: answer.cause.map(model::Cause::words),
            first: answer.first,
            driven: answer.driven,
            output,
            record: model_words(&answer.record),
        }
    }
}

/// Signals of so many bits, WP high, no time elapsed and none taken.
fn bits(bits: u64) -> Signals {
    Signals {
        bits,
        wp_high: true,
        elapsed: 0,
        ticks_per_byte: 0,
    }
}

/// A program frame.
fn program(address: u32, data: &[u8]) -> Vec<u8> {
    let [_, high, middle, low] = address.to_be_bytes();
    [&[0x02, high, middle, low], data].concat()
}

mod worked_frames {
    use super::*;

    #[test]
    fn p1_the_status_after_a_write_enable() {
        let mut pair = Pair::erased();
        assert_eq!(pair.send(&[0x06]).outcome, "control");
        let seen = pair.send(&[0x05, 0, 0, 0]);
        assert_eq!(seen.output, [0xFF, 0x12, 0x00, 0x12]);
        assert_eq!((seen.outcome, seen.first, seen.driven), ("read", 1, 3));
    }

    #[test]
    fn p2_a_program_wraps_in_its_page() {
        let mut pair = Pair::erased();
        pair.send(&[0x06]);
        assert_eq!(pair.send(&[0x02, 0, 0, 0xFE, 0x11, 0x22, 0x33]).outcome, "begun");
        pair.holds_only(0xFF, &[(0xFE, &[0x11, 0x22]), (0x00, &[0x33])]);
    }

    #[test]
    fn p3_two_programs_at_one_address() {
        let mut pair = Pair::erased();
        for byte in [0x0F, 0xF3] {
            let later = Signals {
                elapsed: 1_000_000,
                ..bits(8)
            };
            pair.frame(&[0x06], later);
            assert_eq!(pair.send(&program(0x01_2345, &[byte])).outcome, "begun");
        }
        pair.holds_only(0xFF, &[(0x01_2345, &[0x03])]);
    }

    #[test]
    fn p4_a_program_off_its_boundary() {
        let mut pair = Pair::erased().latched();
        assert_eq!(pair.frame(&program(0, &[0x00]), bits(39)).outcome, "aborted");
        pair.holds_only(0xFF, &[]);

        let mut pair = Pair::erased().latched();
        assert_eq!(pair.frame(&program(0, &[0x00]), bits(40)).outcome, "begun");
        pair.holds_only(0xFF, &[(0, &[0x00])]);
    }

    #[test]
    fn p5_the_last_256_data_bytes() {
        let mut pair = Pair::erased().latched();
        let data = [&[0xAA][..], &[0x55; 256]].concat();
        assert_eq!(pair.send(&program(0, &data)).outcome, "begun");
        pair.holds_only(0xFF, &[(0, &[0x55; 256])]);
    }

    #[test]
    fn p6_erases_of_the_block_around_an_address() {
        let mut pair = Pair::filled(Size::Whole, 0x00).latched();
        assert_eq!(pair.send(&[0x20, 0x00, 0x1F, 0xFF]).outcome, "begun");
        pair.holds_only(0x00, &[(0x00_1000, &[0xFF; 0x1000])]);

        let mut pair = Pair::filled(Size::Whole, 0x00).latched();
        assert_eq!(pair.send(&[0xD8, 0x01, 0x7F, 0xFF]).outcome, "begun");
        pair.holds_only(0x00, &[(0x01_0000, &[0xFF; 0x8000])]);
    }

    #[test]
    fn p7_addresses_past_the_array() {
        for (address, place) in [(0x02_0000, 0), (0xFF_FFFF, 0x01_FFFF)] {
            let mut pair = Pair::erased().latched();
            assert_eq!(pair.send(&program(address, &[0x42])).outcome, "begun");
            pair.holds_only(0xFF, &[(place, &[0x42])]);
        }
    }

    #[test]
    fn p8_a_status_write_and_the_status_meanwhile() {
        let mut pair = Pair::erased().latched();
        let seen = pair.send(&[0x01, 0x84]);
        assert_eq!((seen.outcome, &seen.record[..2]), ("begun", &[1, 1][..]));
        let wp_low = Signals {
            wp_high: false,
            ..bits(16)
        };
        assert_eq!(pair.frame(&[0x05, 0], wp_low).output, [0xFF, 0x85]);
        let later = Signals {
            elapsed: seen.record[6],
            ..wp_low
        };
        assert_eq!(pair.frame(&[0x05, 0], later).output, [0xFF, 0x84]);
    }

    #[test]
    fn p9_a_status_read_of_eleven_bits() {
        let mut pair = Pair::erased();
        pair.send(&[0x06]);
        assert_eq!(pair.frame(&[0x05, 0], bits(11)).output, [0xFF, 0x1F]);
    }

    #[test]
    fn p10_the_identification() {
        let seen = Pair::erased().send(&[0x9F, 0, 0, 0, 0, 0]);
        assert_eq!(seen.output, [0xFF, 0x1F, 0x42, 0x00, 0x00, 0xFF]);
        assert_eq!((seen.first, seen.driven), (1, 4));
    }

    #[test]
    fn the_longest_input() {
        for (bytes, refusal) in [(8_192, 0), (8_193, 3)] {
            assert_eq!(Pair::erased().send(&vec![0x03; bytes]).refusal, refusal);
        }
    }

    #[test]
    fn the_longest_duration() {
        for (ticks, refusal) in [(60_000_000, 0), (60_000_001, 7)] {
            let mut pair = Pair::erased();
            pair.set_program_ticks(ticks);
            assert_eq!(pair.send(&[0x06]).refusal, refusal);
        }
    }

    #[test]
    fn the_session() {
        let mut pair = Pair::filled(Size::Small, 0xFF);
        pair.set_program_ticks(2_000);
        let calls: [(&[u8], u64, &[u8], u8); 4] = [
            (&[0x06], 0, &[0xFF], 0x12),
            (&[0x02, 0x00, 0x00, 0xFE, 0x11, 0x22, 0x33], 1, &[0xFF; 7], 0x11),
            (&[0x05, 0x00, 0x00], 1, &[0xFF, 0x11, 0x01], 0x11),
            (
                &[0x03, 0x00, 0x00, 0xFE, 0x00, 0x00, 0x00],
                2_000,
                &[0xFF, 0xFF, 0xFF, 0xFF, 0x11, 0x22, 0xFF],
                0x10,
            ),
        ];
        for (input, elapsed, output, status) in calls {
            let signals = Signals {
                elapsed,
                ..Signals::whole(input)
            };
            assert_eq!(pair.frame(input, signals).output, output);
            assert_eq!(pair.status(true), status);
        }
    }
}

/// Polls with chip select held low, worked by hand: the ticks that have passed at a position's first bit against those left at the frame's.
mod worked_polls {
    use super::*;

    #[test]
    fn busy_falls_inside_a_status_read() {
        let mut pair = Pair::erased().busy(20);
        let seen = pair.clock(&[0x05, 0, 0, 0, 0], 8);
        // position   begins after   left of 20   shows
        //        1        8 ticks           12   byte 1, busy: 11h
        //        2       16                  4   byte 2, busy: 01h
        //        3       24                  0   byte 1, idle: 10h
        //        4       32                  0   byte 2, idle: 00h
        // the rise       40                  0
        assert_eq!(seen.output, [0xFF, 0x11, 0x01, 0x10, 0x00]);
        assert_eq!((seen.outcome, seen.first, seen.driven), ("read", 1, 4));
        assert_eq!(seen.record, [0, 0, 0, 0, 0, 0, 0]);
    }

    #[test]
    fn busy_falls_at_the_first_bit_of_a_position() {
        let mut pair = Pair::erased().busy(16);
        let seen = pair.clock(&[0x05, 0, 0, 0, 0], 8);
        // position   begins after   left of 16   shows
        //        1        8 ticks            8   byte 1, busy: 11h
        //        2       16                  0   byte 2, idle: 00h
        //        3       24                  0   byte 1, idle: 10h
        //        4       32                  0   byte 2, idle: 00h
        assert_eq!(seen.output, [0xFF, 0x11, 0x00, 0x10, 0x00]);
        assert_eq!(seen.record[6], 0);
    }

    #[test]
    fn one_tick_is_left_at_the_first_bit_of_a_position() {
        let mut pair = Pair::erased().busy(17);
        let seen = pair.clock(&[0x05, 0, 0, 0, 0], 8);
        // Position 2 begins after 16 ticks, and 1 of 17 is left: byte 2, busy: 01h. At position 3 none is.
        assert_eq!(seen.output, [0xFF, 0x11, 0x01, 0x10, 0x00]);
        assert_eq!(seen.record[6], 0);
    }

    #[test]
    fn a_short_poll_leaves_busy_ticks_to_the_next() {
        let mut pair = Pair::erased().busy(20);
        // The first read takes 2 positions, 16 ticks, and leaves 4; the second has none left at its position 1, after 8.
        let seen = pair.clock(&[0x05, 0], 8);
        assert_eq!((seen.output, seen.record[6]), (vec![0xFF, 0x11], 4));
        let seen = pair.clock(&[0x05, 0], 8);
        assert_eq!((seen.output, seen.record[6]), (vec![0xFF, 0x10], 0));
    }

    #[test]
    fn a_partial_byte_is_a_position() {
        let mut pair = Pair::erased().busy(20);
        let signals = Signals {
            ticks_per_byte: 8,
            ..bits(9)
        };
        // 9 bits are 2 positions, 16 ticks. Of 11h the first bit is clocked, a 0, and the other places read 1.
        let seen = pair.frame(&[0x05, 0], signals);
        assert_eq!((seen.output, seen.record[6]), (vec![0xFF, 0x7F], 4));
    }

    #[test]
    fn an_operation_starts_at_the_rise() {
        let mut pair = Pair::erased().latched();
        // The program's 5 positions take 5,000 ticks, of which none comes off its own 12.
        let seen = pair.clock(&program(0, &[0x00]), 1_000);
        assert_eq!((seen.outcome, seen.record[6]), ("begun", 12));
        // 12 ticks are more than 5 and 10, and fewer than 15.
        let seen = pair.clock(&[0x05, 0, 0, 0], 5);
        assert_eq!((seen.output, seen.record[6]), (vec![0xFF, 0x11, 0x01, 0x10], 0));
    }

    #[test]
    fn a_frame_that_busy_does_not_outlast_is_still_ignored() {
        let mut pair = Pair::erased().latched().busy(1);
        let seen = pair.clock(&program(0, &[0x00]), 1);
        assert_eq!((seen.outcome, seen.record[2], seen.record[6]), ("nothing", 1, 0));
        pair.holds_only(0xFF, &[]);
        assert_eq!(pair.clock(&program(0, &[0x00]), 1).outcome, "begun");
    }

    #[test]
    fn the_most_ticks_per_byte() {
        for (ticks_per_byte, refusal, left) in [(1_000, 0, 58_000), (1_001, 8, 60_000)] {
            let seen = Pair::erased().busy(60_000).clock(&[0x05, 0], ticks_per_byte);
            assert_eq!((seen.refusal, seen.record[6]), (refusal, left));
        }
    }
}

mod likely_errors {
    use super::*;

    #[test]
    fn an_aborted_frame_leaves_no_latch_to_the_next() {
        let mut pair = Pair::erased().latched();
        assert_eq!(pair.send(&[0x02, 0, 0, 0]).outcome, "aborted");
        assert_eq!(pair.status(true), 0x10);
        assert_eq!(pair.send(&program(0, &[0x00])).outcome, "nothing");
        assert_eq!(pair.send(&[0x60]).outcome, "nothing");
        pair.holds_only(0xFF, &[]);
    }

    #[test]
    fn a_program_sets_no_bit() {
        let mut pair = Pair::filled(Size::Whole, 0x0F).latched();
        assert_eq!(pair.send(&program(0x30, &[0xFF, 0xF3])).outcome, "begun");
        pair.holds_only(0x0F, &[(0x31, &[0x03])]);
    }

    #[test]
    fn a_read_goes_on_past_the_page_end() {
        let mut pair = Pair::filled(Size::Small, 0xFF).latched();
        pair.send(&program(0x00_00FE, &[0x11, 0x22, 0x33]));
        let read = [0x03, 0x00, 0x00, 0xFE, 0, 0, 0];
        let later = Signals {
            elapsed: 2_000,
            ..Signals::whole(&read)
        };
        assert_eq!(pair.frame(&read, later).output[4..], [0x11, 0x22, 0xFF]);
        pair.holds(0, &[0x33]);
    }

    #[test]
    fn of_300_data_bytes_44_are_forgotten() {
        let mut pair = Pair::erased().latched();
        let data = [&[0x00; 44][..], &[0x5A; 256]].concat();
        assert_eq!(pair.send(&program(0x00_0700, &data)).outcome, "begun");
        pair.holds_only(0xFF, &[(0x0700, &[0x5A; 256])]);
    }

    #[test]
    fn a_locked_protection_keeps_bp0() {
        let mut pair = Pair::erased().protected().latched();
        let seen = pair.send(&[0x01, 0x00]);
        assert_eq!((seen.outcome, &seen.record[..2]), ("begun", &[0, 1][..]));

        let mut pair = Pair::erased().protected().latched();
        let wp_low = Signals {
            wp_high: false,
            ..bits(16)
        };
        let seen = pair.frame(&[0x01, 0x00], wp_low);
        assert_eq!((seen.outcome, &seen.record[..3]), ("aborted", &[1, 1, 0][..]));
    }
}

mod without_a_frame {
    use super::*;
    use oxterin::{look, raw, Memory, Record, Settings};

    /// Addresses at and past the ends of what they can name, for a memory of this length.
    fn addresses(length: u64) -> [u64; 11] {
        [
            0,
            1,
            127,
            128,
            length.saturating_sub(1),
            length,
            length + 1,
            (1 << 24) - 1,
            1 << 24,
            1 << 63,
            u64::MAX,
        ]
    }

    /// Compares a look at a memory by words and by slices with the model's.
    fn same_look(array: &[u8], register: &[u8], memory: Memory, address: u64, count: u64) {
        let (chosen, number, which) = match memory {
            Memory::Array => (array, 0, model::Memory::Array),
            Memory::Register => (register, 1, model::Memory::Register),
        };
        let range = model::look(which, array.len(), register.len(), address, count);
        let mut place = [99; raw::PLACE];
        assert_eq!(raw::look(array, register, number, address, count, &mut place), 0);
        assert_eq!(place, [range.start as u64, range.len() as u64], "{memory:?} {address} {count}");
        let part = look(array, register, memory, address, count);
        assert!(std::ptr::eq(part, &chosen[range]), "{memory:?} {address} {count}");
    }

    #[test]
    fn looks_at_memories_of_right_and_wrong_lengths() {
        let bytes: Vec<u8> = (0..131_073u32).map(|place| (place * 7 / 5) as u8).collect();
        for array in [0, 1, 65_535, 65_536, 65_537, 131_071, 131_072, 131_073] {
            for register in [0, 127, 128, 129] {
                for (memory, length) in [(Memory::Array, array), (Memory::Register, register)] {
                    let length = length as u64;
                    for address in addresses(length) {
                        for count in [0, 1, 2, length, length + 1, 1 << 63, u64::MAX] {
                            same_look(&bytes[..array], &bytes[..register], memory, address, count);
                        }
                    }
                }
            }
        }
    }

    #[test]
    fn looks_by_hand() {
        let (array, register) = (vec![0; 131_072], vec![0; 128]);
        let looks = [
            (Memory::Array, 0x02_0000, 5, &array[..5]),
            (Memory::Array, 0xFF_FFFF, 5, &array[131_071..]),
            (Memory::Register, 0x80, u64::MAX, &register[..]),
            (Memory::Register, 0xFF, 2, &register[127..]),
        ];
        for (memory, address, count, part) in looks {
            assert!(std::ptr::eq(look(&array, &register, memory, address, count), part));
        }
        assert!(look(&array[1..], &register, Memory::Array, 0, 5).is_empty());
        assert!(look(&array, &register[1..], Memory::Register, 0, 5).is_empty());
    }

    #[test]
    fn status_bytes_of_every_record() {
        for flags in 0..64u32 {
            let [bpl, bp0, wel, rste, otp_used, wp_high] = [0, 1, 2, 3, 4, 5].map(|place| flags >> place & 1 != 0);
            for (mode, model_mode) in [
                (oxterin::Mode::Awake, model::Mode::Awake),
                (oxterin::Mode::Deep, model::Mode::Deep),
                (oxterin::Mode::UltraDeep, model::Mode::UltraDeep),
            ] {
                for busy in [0, 1, 60_000_000, u64::MAX] {
                    let record = Record {
                        bpl,
                        bp0,
                        wel,
                        rste,
                        otp_used,
                        mode,
                        busy,
                    };
                    let modelled = model::Record {
                        bpl,
                        bp0,
                        wel,
                        rste,
                        otp_used,
                        mode: model_mode,
                        busy,
                    };
                    let [first, second] = record.status(wp_high);
                    assert_eq!([first, second], modelled.status(wp_high), "{record:?}");
                    assert_eq!(first & 0b0110_1000, 0);
                    assert_eq!(second & 0b1110_1110, 0);
                }
            }
        }
    }

    #[test]
    fn fresh_records() {
        for flags in 0..8u32 {
            let [bpl, bp0, otp_used] = [0, 1, 2].map(|place| flags >> place & 1 != 0);
            let words = Record::fresh(bpl, bp0, otp_used).words();
            assert_eq!(words, [bpl.into(), bp0.into(), 0, 0, otp_used.into(), 0, 0]);
            assert_eq!(words, model_words(&model::Record::fresh(bpl, bp0, otp_used)));
        }
    }

    #[test]
    fn typical_durations() {
        let typical = Settings::typical();
        assert_eq!(typical.words(), model::Settings::typical().durations);
        assert_eq!(
            typical,
            Settings::of_words(&[12, 2_000, 7_000, 50_000, 400_000, 1_600_000, 400, 20_000])
        );
    }
}
