//! Every refusal of a bare frame at and beside its limit, and any together, the ledger's too: the lowest number wins. And words that stand
//! for nothing: 255.
use compare::{Call, Care, Reply, Trial};
use oxterin::{Mode, Record, Size};

/// The most ticks that a duration or a busy part may have.
const TICK_LIMIT: u64 = 60_000_000;

/// The most ticks that a byte position may take.
const PACE_LIMIT: u64 = 1_000;

/// An awake and idle part that is ready to be programmed.
fn ready() -> Record {
    Record {
        wel: true,
        ..Record::fresh(false, false, false)
    }
}

/// A program of so many bytes in all, which would change the array if it were not refused.
fn program(bytes: usize) -> Call {
    let mut input = vec![0; bytes];
    if let Some(opcode) = input.first_mut() {
        *opcode = 0x02;
    }
    Call {
        record: Some(ready()),
        ..Call::of(&input)
    }
}

/// Each size of the array in a call of its own.
fn on_both_sizes(call: &Call) -> [Call; 2] {
    Size::ALL.map(|size| Call {
        array: size.bytes(),
        ..call.clone()
    })
}

/// Runs a call on all sides, which have to give this number; a refused one has to change nothing.
fn gives(trial: &mut Trial, call: &Call, number: u64) {
    let reply = trial
        .run(call)
        .unwrap_or_else(|difference| panic!("{difference}\n{}", compare::text::write(std::slice::from_ref(call))));
    assert_eq!(reply.refusal, number, "{call:?}");
    if number != 0 {
        let record = call.record.expect("these calls hand a record over");
        assert_eq!(reply, Reply::refused(number, &record));
    }
    trial.reset().expect("the memories agree");
}

#[test]
fn one_an_array_of_another_length() {
    let mut trial = Trial::new(Care::Always);
    for (length, number) in [
        (0, 1),
        (1, 1),
        (65_535, 1),
        (65_536, 0),
        (65_537, 1),
        (131_071, 1),
        (131_072, 0),
        (131_073, 1),
    ] {
        gives(
            &mut trial,
            &Call {
                array: length,
                ..program(5)
            },
            number,
        );
    }
}

#[test]
fn two_a_register_of_another_length() {
    let mut trial = Trial::new(Care::Always);
    for (length, number) in [(0, 2), (1, 2), (64, 2), (127, 2), (128, 0), (129, 2)] {
        let call = Call {
            register: length,
            ..program(5)
        };
        for call in on_both_sizes(&call) {
            gives(&mut trial, &call, number);
        }
    }
}

#[test]
fn three_too_many_bytes() {
    let mut trial = Trial::new(Care::Always);
    for (bytes, number) in [(0, 0), (8_191, 0), (8_192, 0), (8_193, 3), (16_384, 3), (65_536, 3)] {
        for call in on_both_sizes(&program(bytes)) {
            gives(&mut trial, &call, number);
        }
    }
}

#[test]
fn four_bits_that_need_another_number_of_bytes() {
    let mut trial = Trial::new(Care::Always);
    for bytes in [0, 1, 2, 5, 8_191, 8_192] {
        let full = 8 * bytes as u64;
        let beside = [-17i64, -16, -15, -9, -8, -7, -6, -1, 0, 1, 2, 7, 8, 9].map(|step| full.wrapping_add_signed(step));
        let far = [0, 1, 7, 8, 1 << 63, (1 << 63) + full, u64::MAX / 8, u64::MAX / 2];
        let last = [15, 14, 9, 8, 7, 6, 1, 0].map(|step| u64::MAX - step);
        for bits in [&beside[..], &far, &last].concat() {
            let fits = u128::from(bits).div_ceil(8) == bytes as u128;
            for call in on_both_sizes(&Call { bits, ..program(bytes) }) {
                gives(&mut trial, &call, if fits { 0 } else { 4 });
            }
        }
    }
}

#[test]
fn five_an_output_shorter_than_the_input() {
    let mut trial = Trial::new(Care::Always);
    for (bytes, output, number) in [
        (0, 0, 0),
        (1, 0, 5),
        (1, 1, 0),
        (1, 2, 0),
        (5, 0, 5),
        (5, 4, 5),
        (5, 5, 0),
        (5, 6, 0),
        (8_192, 0, 5),
        (8_192, 8_191, 5),
        (8_192, 8_192, 0),
    ] {
        for call in on_both_sizes(&Call { output, ..program(bytes) }) {
            gives(&mut trial, &call, number);
        }
    }
}

#[test]
fn six_a_record_that_no_part_can_be_in() {
    let mut trial = Trial::new(Care::Always);
    for (mode, busy, number) in [
        (Mode::Awake, 0, 0),
        (Mode::Awake, 1, 0),
        (Mode::Awake, TICK_LIMIT, 0),
        (Mode::Awake, TICK_LIMIT + 1, 6),
        (Mode::Awake, 1 << 63, 6),
        (Mode::Awake, u64::MAX, 6),
        (Mode::Deep, 0, 0),
        (Mode::Deep, 1, 6),
        (Mode::Deep, TICK_LIMIT, 6),
        (Mode::Deep, u64::MAX, 6),
        (Mode::UltraDeep, 0, 0),
        (Mode::UltraDeep, 1, 6),
        (Mode::UltraDeep, TICK_LIMIT, 6),
        (Mode::UltraDeep, u64::MAX, 6),
    ] {
        let record = Some(Record { mode, busy, ..ready() });
        for elapsed in [0, 1, busy, u64::MAX] {
            let call = Call {
                record,
                elapsed,
                ..program(5)
            };
            for call in on_both_sizes(&call) {
                gives(&mut trial, &call, number);
            }
        }
    }
}

#[test]
fn seven_a_duration_out_of_bounds() {
    let mut trial = Trial::new(Care::Always);
    for kind in 0..8 {
        for (ticks, number) in [(0, 7), (1, 0), (TICK_LIMIT, 0), (TICK_LIMIT + 1, 7), (1 << 63, 7), (u64::MAX, 7)] {
            let mut call = program(5);
            call.durations[kind] = ticks;
            for call in on_both_sizes(&call) {
                gives(&mut trial, &call, number);
            }
        }
    }
}

#[test]
fn eight_too_many_ticks_per_byte() {
    let mut trial = Trial::new(Care::Always);
    let refused = [
        PACE_LIMIT + 1,
        1 << 32,
        (1 << 32) + 1,
        1 << 63,
        u64::MAX / 8_192,
        u64::MAX - 7,
        u64::MAX,
    ];
    let accepted = [0, 1, 8, PACE_LIMIT - 1, PACE_LIMIT];
    for (ticks_per_byte, number) in accepted.map(|ticks| (ticks, 0)).into_iter().chain(refused.map(|ticks| (ticks, 8))) {
        for (busy, elapsed) in [(0, 0), (50, 20), (TICK_LIMIT, 1), (50, u64::MAX)] {
            for bytes in [0, 1, 5, 8_192] {
                let call = Call {
                    ticks_per_byte,
                    elapsed,
                    record: Some(Record { busy, ..ready() }),
                    ..program(bytes)
                };
                for call in on_both_sizes(&call) {
                    gives(&mut trial, &call, number);
                }
            }
        }
    }
}

#[test]
fn of_any_refusals_together_the_lowest_wins() {
    let spoil: [fn(&mut Call); 9] = [
        |call| call.array = 65_537,
        |call| call.register = 127,
        |call| {
            call.input.resize(8_193, 0);
            call.bits = 8 * 8_193;
            call.output = 8_193;
        },
        |call| call.bits += 1,
        |call| call.output = call.input.len() - 1,
        |call| {
            call.record = Some(Record {
                busy: TICK_LIMIT + 1,
                ..ready()
            });
        },
        |call| call.durations[7] = 0,
        |call| call.ticks_per_byte = PACE_LIMIT + 1,
        |call| call.account = Some(256),
    ];
    let mut trial = Trial::new(Care::Always);
    for chosen in 0u32..1 << spoil.len() {
        for account in [None, Some(255)] {
            let mut call = Call { account, ..program(5) };
            for (place, spoil) in spoil.iter().enumerate() {
                if chosen >> place & 1 != 0 {
                    spoil(&mut call);
                }
            }
            let lowest = if chosen == 0 { 0 } else { u64::from(chosen.trailing_zeros()) + 1 };
            gives(&mut trial, &call, lowest);
        }
    }
}

/// Words that stand for nothing are answered with 255, and nothing changes.
mod unread {
    use oxterin::raw;

    /// What is put in the place of a flag, a mode or a memory that is known.
    const UNKNOWN_FLAGS: [u64; 3] = [2, 1 << 32, u64::MAX];

    /// All arguments of a frame by words, with those that it has through a ledger.
    #[derive(Clone, Debug, PartialEq, Eq)]
    struct Frame {
        record: Vec<u64>,
        settings: Vec<u64>,
        signals: Vec<u64>,
        array: Vec<u8>,
        register: Vec<u8>,
        input: Vec<u8>,
        output: Vec<u8>,
        answer: Vec<u64>,
        running: Vec<u64>,
        totals: [u64; 256],
        most: [u64; 256],
        numbers: [u64; 256],
    }

    impl Frame {
        /// A program that is accepted and changes the array and the ledger.
        fn accepted() -> Frame {
            Frame {
                record: vec![0, 0, 1, 0, 0, 0, 0],
                settings: vec![12, 2_000, 7_000, 50_000, 400_000, 1_600_000, 400, 20_000],
                signals: vec![40, 1, 0, 0],
                array: vec![0xA5; 65_536],
                register: vec![0x5A; 128],
                input: vec![0x02, 0, 0, 0, 0],
                output: vec![0x77; 9],
                answer: vec![99; 4],
                running: vec![7, 5],
                totals: [71; 256],
                most: [72; 256],
                numbers: [73; 256],
            }
        }

        /// The frame, and its number.
        fn run(&mut self) -> u64 {
            raw::frame(
                &mut self.record,
                &self.settings,
                &self.signals,
                &mut self.array,
                &mut self.register,
                &self.input,
                &mut self.output,
                &mut self.answer,
            )
        }

        /// The frame through the ledger for an account, and its number.
        fn run_for(&mut self, account: u64) -> u64 {
            raw::ledger_frame(
                &mut self.record,
                &self.settings,
                &self.signals,
                &mut self.array,
                &mut self.register,
                &self.input,
                &mut self.output,
                &mut self.answer,
                account,
                &mut self.running,
                &mut self.totals,
                &mut self.most,
                &mut self.numbers,
            )
        }

        /// Asserts that these arguments, and the same with a memory that is refused, are answered with 255 and stay as they are, through
        /// the ledger too.
        fn assert_unread(self) {
            self.assert_unread_by(Frame::run);
            self.assert_unread_by_the_ledger();
        }

        /// The same through the ledger alone, for an account and for none.
        fn assert_unread_by_the_ledger(&self) {
            self.assert_unread_by(|frame| frame.run_for(9));
            self.assert_unread_by(|frame| frame.run_for(256));
        }

        /// The same with one way to run the frame.
        fn assert_unread_by(&self, run: fn(&mut Frame) -> u64) {
            let mut frame = self.clone();
            for _ in 0..2 {
                let before = frame.clone();
                assert_eq!(run(&mut frame), raw::UNREAD);
                assert!(frame == before, "{:?} {:?} {:?}", before.record, before.settings, before.signals);
                frame.array.clear();
            }
        }
    }

    /// The words with one taken off, with one more, and none.
    fn other_lengths(words: &[u64]) -> [Vec<u64>; 3] {
        let shorter = words[1..].to_vec();
        let longer = [words, &[0]].concat();
        [shorter, longer, Vec::new()]
    }

    #[test]
    fn the_frame_that_is_spoilt_here_is_accepted() {
        let mut frame = Frame::accepted();
        assert_eq!(frame.run(), 0);
        assert_eq!(frame.answer, [4, 0, 0, 0]);
        assert_eq!(frame.record, [0, 0, 0, 0, 0, 0, 12]);
        assert_eq!(frame.array[..2], [0x00, 0xA5]);
        assert_eq!(frame.output, [0xFF, 0xFF, 0xFF, 0xFF, 0xFF, 0x77, 0x77, 0x77, 0x77]);
    }

    #[test]
    fn through_the_ledger_it_is_accepted_too() {
        let (mut bare, mut frame) = (Frame::accepted(), Frame::accepted());
        assert_eq!((bare.run(), frame.run_for(9)), (0, 0));
        assert_eq!((frame.running, frame.numbers[9]), (vec![9, 0], 74));
        (frame.running, frame.numbers[9]) = (bare.running.clone(), 73);
        assert!(frame == bare);
    }

    #[test]
    fn a_running_part_of_another_length() {
        for running in [&[][..], &[7], &[7, 5, 0]] {
            let frame = Frame {
                running: running.to_vec(),
                ..Frame::accepted()
            };
            frame.assert_unread_by_the_ledger();
        }
    }

    #[test]
    fn a_line_of_another_length_is_not_written() {
        let Frame { totals, most, numbers, .. } = Frame::accepted();
        for length in [0, 1, 2, 4] {
            for account in [0, 255, 256, u64::MAX] {
                let mut line = vec![99; length];
                assert_eq!(raw::report(&totals, &most, &numbers, account, &mut line), raw::UNREAD);
                assert_eq!(line, vec![99; length]);
            }
        }
        let mut line = [99; 3];
        assert_eq!(raw::report(&totals, &most, &numbers, 256, &mut line), 9);
        assert_eq!(line, [99; 3]);
        assert_eq!(raw::report(&totals, &most, &numbers, 255, &mut line), 0);
        assert_eq!(line, [71, 72, 73]);
    }

    #[test]
    fn a_frame_with_slices_of_another_length() {
        let slices: [fn(&mut Frame) -> &mut Vec<u64>; 2] = [|frame| &mut frame.record, |frame| &mut frame.settings];
        for slice in slices {
            for words in other_lengths(slice(&mut Frame::accepted())) {
                let mut frame = Frame::accepted();
                *slice(&mut frame) = words;
                frame.assert_unread();
            }
        }
    }

    #[test]
    fn a_frame_with_signals_of_neither_three_words_nor_four() {
        for signals in [&[][..], &[40], &[40, 1], &[40, 1, 0, 0, 0], &[40, 1, 0, 8, 0, 0, 0, 0]] {
            Frame {
                signals: signals.to_vec(),
                ..Frame::accepted()
            }
            .assert_unread();
        }
    }

    #[test]
    fn a_frame_with_an_answer_of_neither_three_words_nor_four() {
        for length in [0, 1, 2, 5, 8] {
            Frame {
                answer: vec![99; length],
                ..Frame::accepted()
            }
            .assert_unread();
        }
    }

    #[test]
    fn a_frame_with_any_ticks_per_byte_is_read() {
        for (ticks, number) in [(0, 0), (1_000, 0), (1_001, 8), (u64::MAX, 8)] {
            let mut frame = Frame::accepted();
            frame.signals[3] = ticks;
            assert_eq!(frame.run(), number, "{ticks}");
        }
    }

    #[test]
    fn a_frame_with_unknown_flags() {
        for unknown in UNKNOWN_FLAGS {
            for place in 0..5 {
                let mut frame = Frame::accepted();
                frame.record[place] = unknown;
                frame.assert_unread();
            }
            for signals in [&[40, unknown, 0][..], &[40, unknown, 0, 0], &[40, unknown, 0, u64::MAX]] {
                Frame {
                    signals: signals.to_vec(),
                    ..Frame::accepted()
                }
                .assert_unread();
            }
        }
    }

    #[test]
    fn a_frame_with_an_unknown_mode() {
        for mode in [3, 1 << 32, u64::MAX] {
            let mut frame = Frame::accepted();
            frame.record[5] = mode;
            frame.assert_unread();
        }
    }

    #[test]
    fn a_status_of_words_that_stand_for_nothing() {
        let known = [1, 0, 1, 0, 1, 0, 5];
        let assert_unread = |record: &[u64], wp: u64, length: usize| {
            let mut status = vec![99; length];
            assert_eq!(raw::status(record, wp, &mut status), raw::UNREAD, "{record:?} {wp} {length}");
            assert_eq!(status, vec![99; length]);
        };
        for length in [0, 1, 3] {
            assert_unread(&known, 1, length);
        }
        for record in other_lengths(&known) {
            assert_unread(&record, 1, 2);
        }
        for unknown in UNKNOWN_FLAGS {
            assert_unread(&known, unknown, 2);
            for place in 0..5 {
                let mut record = known;
                record[place] = unknown;
                assert_unread(&record, 1, 2);
            }
        }
        for mode in [3, u64::MAX] {
            assert_unread(&[1, 0, 1, 0, 1, mode, 5], 1, 2);
        }
        let mut status = [99; 2];
        assert_eq!(raw::status(&known, 1, &mut status), 0);
        assert_eq!(status, [0x93, 0x01]);
    }

    #[test]
    fn a_fresh_record_of_words_that_stand_for_nothing() {
        let assert_unread = |[bpl, bp0, used]: [u64; 3], length: usize| {
            let mut record = vec![99; length];
            assert_eq!(raw::fresh(bpl, bp0, used, &mut record), raw::UNREAD, "{bpl} {bp0} {used} {length}");
            assert_eq!(record, vec![99; length]);
        };
        for length in [0, 6, 8] {
            assert_unread([1, 1, 1], length);
        }
        for unknown in UNKNOWN_FLAGS {
            assert_unread([unknown, 1, 1], 7);
            assert_unread([1, unknown, 1], 7);
            assert_unread([1, 1, unknown], 7);
        }
        let mut record = [99; 7];
        assert_eq!(raw::fresh(1, 0, 1, &mut record), 0);
        assert_eq!(record, [1, 0, 0, 0, 1, 0, 0]);
    }

    #[test]
    fn typical_durations_in_a_slice_of_another_length() {
        for length in [0, 7, 9] {
            let mut settings = vec![99; length];
            assert_eq!(raw::typical(&mut settings), raw::UNREAD);
            assert_eq!(settings, vec![99; length]);
        }
    }

    #[test]
    fn a_look_at_an_unknown_memory_or_into_a_slice_of_another_length() {
        let (array, register) = (vec![0; 65_536], vec![0; 128]);
        for (memory, length) in [(2, 2), (u64::MAX, 2), (0, 0), (0, 1), (0, 3), (1, 0), (1, 1), (1, 3)] {
            let mut place = vec![99; length];
            assert_eq!(raw::look(&array, &register, memory, 5, 7, &mut place), raw::UNREAD);
            assert_eq!(place, vec![99; length]);
        }
        let mut place = [99; 2];
        assert_eq!(raw::look(&array, &register, 1, 125, 7, &mut place), 0);
        assert_eq!(place, [125, 3]);
    }
}
