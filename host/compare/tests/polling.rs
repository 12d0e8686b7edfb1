//! Frames that take time, at and beside every tick at which busy can end: by sweeps on which the sides agree, and by hand.
use compare::{Call, Care, Reply, Trial};
use oxterin::{Mode, Record};

/// The ticks per byte that are tried, up to the most that are accepted.
const PACES: [u64; 7] = [0, 1, 2, 7, 8, 999, 1_000];

/// The most positions of a frame in the sweeps.
const MOST_POSITIONS: u64 = 12;

/// An awake part that is busy for so many ticks.
fn busy(ticks: u64) -> Record {
    Record {
        busy: ticks,
        ..Record::fresh(false, false, false)
    }
}

/// All bits of these bytes at this pace, to a part with this record.
fn clocked(input: &[u8], ticks_per_byte: u64, record: Record) -> Call {
    Call {
        ticks_per_byte,
        record: Some(record),
        ..Call::of(input)
    }
}

/// A status read of so many positions.
fn poll(positions: usize) -> Vec<u8> {
    let mut input = vec![0; positions];
    if let Some(opcode) = input.first_mut() {
        *opcode = 0x05;
    }
    input
}

/// Runs a call on all sides, which have to agree.
fn agreed(trial: &mut Trial, call: &Call) -> Reply {
    trial
        .run(call)
        .unwrap_or_else(|difference| panic!("{difference}\n{}", compare::text::write(std::slice::from_ref(call))))
}

/// The busy ticks that end at the first bit of a position or at a rise of the sweeps, and those one less and one more.
fn ends(ticks_per_byte: u64) -> Vec<u64> {
    let mut ends: Vec<u64> = (0..=MOST_POSITIONS + 1)
        .map(|position| position * ticks_per_byte)
        .flat_map(|end| [end.saturating_sub(1), end, end + 1])
        .collect();
    ends.sort_unstable();
    ends.dedup();
    ends
}

/// Every frame at every end of busy.
mod sweeps {
    use super::*;
    use compare::Random;

    /// What frames begin with: status read, resets confirmed and not, program, write enable, erase, reads, wake, sleep, two unlisted.
    const BEGINNINGS: [&[u8]; 12] = [
        &[0x05],
        &[0xF0, 0xD0],
        &[0xF0, 0x0D],
        &[0x02, 0x00, 0x10, 0x00, 0x5A],
        &[0x06],
        &[0x20, 0x00, 0x10, 0x00],
        &[0x03, 0x00, 0x10, 0x00],
        &[0x9F],
        &[0xAB],
        &[0xB9],
        &[0x00],
        &[0xFF],
    ];

    /// Ticks that elapse before a frame, and that the part is busy for besides.
    const ELAPSED: [u64; 3] = [0, 3, 5_000];

    /// A frame of so many bits that begins so.
    fn frame(beginning: &[u8], bits: u64) -> Call {
        let positions = bits.div_ceil(8) as usize;
        let input: Vec<u8> = beginning.iter().copied().chain((0xC0..=0xFF).cycle()).take(positions).collect();
        Call { bits, ..Call::of(&input) }
    }

    /// A sweep under way.
    struct Sweep {
        trial: Trial,
        random: Random,
        frames: u64,
    }

    impl Sweep {
        /// A frame with so many busy ticks left at its first bit, with and without WEL and RSTE, the other flags by chance.
        fn states(&mut self, call: &mut Call, left: u64) {
            for latches in 0..4u32 {
                let [bpl, bp0, otp_used] = [0; 3].map(|_: u32| self.random.chance(300));
                call.wp_high = self.random.chance(500);
                call.elapsed = self.random.pick(&ELAPSED);
                call.record = Some(Record {
                    bpl,
                    bp0,
                    wel: latches & 1 != 0,
                    rste: latches & 2 != 0,
                    otp_used,
                    mode: Mode::Awake,
                    busy: left + call.elapsed,
                });
                self.compare(call);
            }
        }

        /// A frame on memories that no operation has changed.
        fn compare(&mut self, call: &Call) {
            self.frames += 1;
            if agreed(&mut self.trial, call).outcome == "begun" {
                self.trial.reset().expect("the memories agree");
            }
        }
    }

    #[test]
    fn every_frame_at_every_end_of_busy() {
        let mut sweep = Sweep {
            trial: Trial::new(Care::WhenDue),
            random: Random::seeded(8),
            frames: 0,
        };
        for beginning in BEGINNINGS {
            for bits in 0..=8 * MOST_POSITIONS {
                let mut call = frame(beginning, bits);
                for ticks_per_byte in PACES {
                    call.ticks_per_byte = ticks_per_byte;
                    for left in ends(ticks_per_byte) {
                        sweep.states(&mut call, left);
                    }
                }
            }
        }
        sweep.trial.check().expect("the memories agree");
        println!("{} frames", sweep.frames);
    }

    #[test]
    fn too_many_ticks_per_byte_change_nothing() {
        let mut trial = Trial::new(Care::Always);
        for beginning in BEGINNINGS {
            for bits in [0, 1, 8, 9, 16, 40, 96] {
                for ticks_per_byte in [1_001, u64::MAX] {
                    for (ticks, elapsed) in [(0, 0), (1, 0), (1_001, 0), (2_002, 1), (50, u64::MAX)] {
                        let record = Record {
                            wel: true,
                            rste: true,
                            ..busy(ticks)
                        };
                        let call = Call {
                            ticks_per_byte,
                            elapsed,
                            record: Some(record),
                            ..frame(beginning, bits)
                        };
                        assert_eq!(agreed(&mut trial, &call), Reply::refused(8, &record));
                        assert!(trial.output().is_empty());
                    }
                }
            }
        }
    }

    #[test]
    fn the_longest_frames() {
        let mut trial = Trial::new(Care::WhenDue);
        for beginning in BEGINNINGS {
            for bits in [8 * 8_192, 8 * 8_192 - 7] {
                for left in [60_000_000, 8_191_999, 8_192_000, 8_192_001] {
                    let record = Record { wel: true, ..busy(left) };
                    let call = Call {
                        ticks_per_byte: 1_000,
                        record: Some(record),
                        ..frame(beginning, bits)
                    };
                    agreed(&mut trial, &call);
                }
            }
        }
        trial.check().expect("the memories agree");
    }

    /// A frame that takes no time, sent when a position of the poll begins, shows what that position shows; and one sent when the poll ends
    /// leaves what the poll leaves.
    #[test]
    fn a_poll_shows_what_reads_that_take_no_time_would() {
        let mut trial = Trial::new(Care::WhenDue);
        let positions = MOST_POSITIONS as usize;
        for ticks_per_byte in PACES {
            for left in ends(ticks_per_byte) {
                let record = Record { rste: true, ..busy(left) };
                let whole = agreed(&mut trial, &clocked(&poll(positions), ticks_per_byte, record));
                let shown = trial.output().to_vec();
                let mut at_once = clocked(&poll(positions), 0, record);
                for (position, &byte) in shown.iter().enumerate() {
                    agreed(&mut trial, &at_once);
                    assert_eq!(trial.output()[position], byte, "position {position} of {at_once:?}");
                    at_once.elapsed += ticks_per_byte;
                }
                assert_eq!(agreed(&mut trial, &at_once), whole, "{at_once:?}");
            }
        }
    }
}

/// Frames whose outputs and busy ticks are worked by hand.
mod worked {
    use super::*;

    /// Status reads without any flag, WP high: busy ticks before, ticks per byte, output, busy ticks after.
    const POLLS: [(u64, u64, &[u8], u64); 56] = [
        // No time passes.
        (0, 0, &[0xFF, 0x10, 0x00, 0x10], 0),
        (1, 0, &[0xFF, 0x11, 0x01, 0x11], 1),
        (60_000_000, 0, &[0xFF, 0x11, 0x01], 60_000_000),
        // Positions begin after 1, 2, 3, .. ticks.
        (1, 1, &[0xFF], 0),
        (1, 1, &[0xFF, 0x10], 0),
        (2, 1, &[0xFF], 1),
        (2, 1, &[0xFF, 0x11], 0),
        (2, 1, &[0xFF, 0x11, 0x00], 0),
        (3, 1, &[0xFF, 0x11, 0x01, 0x10, 0x00], 0),
        (4, 1, &[0xFF, 0x11, 0x01, 0x11, 0x00], 0),
        (5, 1, &[0xFF, 0x11, 0x01, 0x11, 0x01], 0),
        (6, 1, &[0xFF, 0x11, 0x01, 0x11, 0x01], 1),
        (11, 1, &[0xFF, 0x11, 0x01, 0x11, 0x01, 0x11, 0x01, 0x11, 0x01, 0x11, 0x01, 0x10], 0),
        (12, 1, &[0xFF, 0x11, 0x01, 0x11, 0x01, 0x11, 0x01, 0x11, 0x01, 0x11, 0x01, 0x11], 0),
        (13, 1, &[0xFF, 0x11, 0x01, 0x11, 0x01, 0x11, 0x01, 0x11, 0x01, 0x11, 0x01, 0x11], 1),
        // After 2, 4, 6, 8, ..
        (1, 2, &[0xFF], 0),
        (2, 2, &[0xFF, 0x10], 0),
        (3, 2, &[0xFF], 1),
        (3, 2, &[0xFF, 0x11], 0),
        (4, 2, &[0xFF, 0x11, 0x00], 0),
        (5, 2, &[0xFF, 0x11, 0x01, 0x10], 0),
        (6, 2, &[0xFF, 0x11, 0x01, 0x10], 0),
        (7, 2, &[0xFF, 0x11, 0x01, 0x11], 0),
        (8, 2, &[0xFF, 0x11, 0x01, 0x11], 0),
        (9, 2, &[0xFF, 0x11, 0x01, 0x11], 1),
        // After 7, 14, 21, 28, ..
        (6, 7, &[0xFF, 0x10, 0x00], 0),
        (7, 7, &[0xFF, 0x10, 0x00], 0),
        (8, 7, &[0xFF, 0x11, 0x00], 0),
        (20, 7, &[0xFF, 0x11, 0x01, 0x10], 0),
        (21, 7, &[0xFF, 0x11, 0x01, 0x10], 0),
        (22, 7, &[0xFF, 0x11, 0x01, 0x11], 0),
        (28, 7, &[0xFF, 0x11, 0x01, 0x11], 0),
        (29, 7, &[0xFF, 0x11, 0x01, 0x11], 1),
        (50, 7, &[0xFF, 0x11, 0x01, 0x11], 22),
        // After 8, 16, 24, 32, ..
        (15, 8, &[0xFF, 0x11, 0x00], 0),
        (16, 8, &[0xFF, 0x11, 0x00], 0),
        (17, 8, &[0xFF, 0x11, 0x01], 0),
        (24, 8, &[0xFF, 0x11, 0x01], 0),
        (25, 8, &[0xFF, 0x11, 0x01], 1),
        (20, 8, &[0xFF, 0x11, 0x01, 0x10, 0x00], 0),
        // After 999, 1,998, 2,997, 3,996, ..
        (998, 999, &[0xFF, 0x10], 0),
        (999, 999, &[0xFF, 0x10], 0),
        (1_000, 999, &[0xFF, 0x11], 0),
        (1_998, 999, &[0xFF, 0x11], 0),
        (1_999, 999, &[0xFF, 0x11], 1),
        (2_996, 999, &[0xFF, 0x11, 0x01, 0x10], 0),
        (2_997, 999, &[0xFF, 0x11, 0x01, 0x10], 0),
        (2_998, 999, &[0xFF, 0x11, 0x01, 0x11], 0),
        // After 1,000, 2,000, 3,000, 4,000, ..
        (999, 1_000, &[0xFF, 0x10], 0),
        (1_000, 1_000, &[0xFF, 0x10], 0),
        (1_001, 1_000, &[0xFF, 0x11], 0),
        (2_001, 1_000, &[0xFF, 0x11], 1),
        (2_999, 1_000, &[0xFF, 0x11, 0x01, 0x10], 0),
        (3_000, 1_000, &[0xFF, 0x11, 0x01, 0x10], 0),
        (3_001, 1_000, &[0xFF, 0x11, 0x01, 0x11], 0),
        (60_000_000, 1_000, &[0xFF, 0x11, 0x01, 0x11], 59_996_000),
    ];

    #[test]
    fn polls() {
        let mut trial = Trial::new(Care::Always);
        for (ticks, ticks_per_byte, output, left) in POLLS {
            let call = clocked(&poll(output.len()), ticks_per_byte, busy(ticks));
            let reply = agreed(&mut trial, &call);
            assert_eq!((reply.outcome, trial.output()), ("read", output), "{ticks} {ticks_per_byte}");
            assert_eq!(reply.record, [0, 0, 0, 0, 0, 0, left], "{ticks} {ticks_per_byte}");
        }
    }

    /// Of the flags in the status bytes only busy moves: 97h and 11h become 96h and 10h.
    #[test]
    fn a_poll_of_all_flags() {
        let mut trial = Trial::new(Care::Always);
        let record = Record {
            bpl: true,
            bp0: true,
            wel: true,
            rste: true,
            ..busy(20)
        };
        let reply = agreed(&mut trial, &clocked(&poll(5), 8, record));
        assert_eq!(trial.output(), [0xFF, 0x97, 0x11, 0x96, 0x10]);
        assert_eq!(reply.record, [1, 1, 1, 1, 0, 0, 0]);
    }

    /// The last byte of a poll cut off at each bit, 20 ticks at 8 for each position: 11h and 01h while busy, then 10h. Bits that are not
    /// clocked read 1. The position that a bit begins takes its 8 ticks whole.
    #[test]
    fn polls_cut_off_at_each_bit() {
        let lasts: [(u64, [u8; 8], u64); 4] = [
            (0, [0xFF; 8], 12),
            (1, [0x7F, 0x3F, 0x1F, 0x1F, 0x17, 0x13, 0x11, 0x11], 4),
            (2, [0x7F, 0x3F, 0x1F, 0x0F, 0x07, 0x03, 0x01, 0x01], 0),
            (3, [0x7F, 0x3F, 0x1F, 0x1F, 0x17, 0x13, 0x11, 0x10], 0),
        ];
        let mut trial = Trial::new(Care::Always);
        for (position, bytes, left) in lasts {
            for (bits, byte) in (8 * position + 1..).zip(bytes) {
                let call = Call {
                    bits,
                    ..clocked(&poll(position as usize + 1), 8, busy(20))
                };
                let reply = agreed(&mut trial, &call);
                assert_eq!((trial.output().last(), reply.record[6]), (Some(&byte), left), "{bits} bits");
                assert_eq!(reply.outcome, if bits < 8 { "nothing" } else { "read" });
            }
        }
        let reply = agreed(&mut trial, &clocked(&[], 8, busy(20)));
        assert_eq!((reply.outcome, reply.record[6]), ("nothing", 20));
    }

    /// The ticks elapsed come off first: of 100 busy ticks 80 elapse, and 20 are left at the first bit.
    #[test]
    fn polls_after_some_time() {
        let polls: [(u64, u64, &[u8], u64); 5] = [
            (100, 80, &[0xFF, 0x11, 0x01, 0x10, 0x00], 0),
            (100, 59, &[0xFF, 0x11, 0x01, 0x11, 0x01], 1),
            (100, 100, &[0xFF, 0x10, 0x00, 0x10, 0x00], 0),
            (100, u64::MAX, &[0xFF, 0x10, 0x00, 0x10, 0x00], 0),
            (60_000_000, u64::MAX, &[0xFF, 0x10, 0x00, 0x10, 0x00], 0),
        ];
        let mut trial = Trial::new(Care::Always);
        for (ticks, elapsed, output, left) in polls {
            let call = Call {
                elapsed,
                ..clocked(&poll(5), 8, busy(ticks))
            };
            let reply = agreed(&mut trial, &call);
            assert_eq!((trial.output(), reply.record[6]), (output, left), "{ticks} {elapsed}");
        }
    }

    /// The last positions of the longest poll, 8,190 and 8,191, begin after 8,190,000 and 8,191,000 ticks, and it takes 8,192,000.
    #[test]
    fn the_longest_polls() {
        let polls: [(u64, usize, [u8; 2], u64); 10] = [
            (60_000_000, 8_191, [0x01, 0x11], 51_808_000),
            (8_192_001, 8_191, [0x01, 0x11], 1),
            (8_192_000, 8_191, [0x01, 0x11], 0),
            (8_191_999, 8_191, [0x01, 0x11], 0),
            (8_191_001, 8_191, [0x01, 0x11], 0),
            (8_191_000, 8_190, [0x01, 0x10], 0),
            (8_190_000, 8_189, [0x00, 0x10], 0),
            (4_096_001, 4_096, [0x00, 0x10], 0),
            (4_096_000, 4_095, [0x00, 0x10], 0),
            (1_000, 0, [0x00, 0x10], 0),
        ];
        let mut trial = Trial::new(Care::WhenDue);
        for (ticks, shown_busy, lasts, left) in polls {
            let reply = agreed(&mut trial, &clocked(&poll(8_192), 1_000, busy(ticks)));
            assert_eq!((reply.first, reply.driven, reply.record[6]), (1, 8_191, left), "{ticks}");
            let (while_busy, since) = trial.output()[1..].split_at(shown_busy);
            assert!(while_busy.iter().all(|byte| byte & 1 == 1), "{ticks}");
            assert!(since.iter().all(|byte| byte & 1 == 0), "{ticks}");
            assert_eq!(trial.output()[8_190..], lasts, "{ticks}");
        }
    }

    /// A frame other than a poll, to an awake part: its bytes, WEL and RSTE, the busy ticks at its first bit, its ticks per byte.
    type Sent = (&'static [u8], [u64; 2], u64, u64);

    /// What comes of it: its outcome, WEL, the mode and the busy ticks afterwards.
    type Came = (&'static str, u64, u64, u64);

    const PROGRAM: &[u8] = &[0x02, 0x00, 0x10, 0x00, 0x00];
    const ERASE: &[u8] = &[0x20, 0x00, 0x10, 0x00];
    const READ: &[u8] = &[0x03, 0x00, 0x10, 0x00, 0x00, 0x00, 0x00, 0x00];
    const IDENTIFICATION: &[u8] = &[0x9F, 0x00, 0x00, 0x00, 0x00];
    const RESET: &[u8] = &[0xF0, 0xD0];

    /// Frames that show nothing: ignored, carried out, aborted or begun.
    const FRAMES: [(Sent, Came); 38] = [
        // Five positions of 8 ticks are 40. Ignored as busy, however early busy ends, and WEL stands.
        ((PROGRAM, [1, 0], 1, 8), ("nothing", 1, 0, 0)),
        ((PROGRAM, [1, 0], 39, 8), ("nothing", 1, 0, 0)),
        ((PROGRAM, [1, 0], 40, 8), ("nothing", 1, 0, 0)),
        ((PROGRAM, [1, 0], 41, 8), ("nothing", 1, 0, 1)),
        ((PROGRAM, [1, 0], 41, 0), ("nothing", 1, 0, 41)),
        // Begun at the rise with all its ticks, 12; the frame's own 5,000 are over by then.
        ((PROGRAM, [1, 0], 0, 0), ("begun", 0, 0, 12)),
        ((PROGRAM, [1, 0], 0, 1_000), ("begun", 0, 0, 12)),
        // Aborted for want of data.
        ((&[0x02, 0x00, 0x10, 0x00], [1, 0], 0, 1_000), ("aborted", 0, 0, 0)),
        ((&[0x02, 0x00, 0x10, 0x00], [1, 0], 33, 8), ("nothing", 1, 0, 1)),
        // Four positions of 7 ticks are 28.
        ((ERASE, [1, 0], 1, 7), ("nothing", 1, 0, 0)),
        ((ERASE, [1, 0], 28, 7), ("nothing", 1, 0, 0)),
        ((ERASE, [1, 0], 29, 7), ("nothing", 1, 0, 1)),
        ((ERASE, [1, 0], 0, 7), ("begun", 0, 0, 50_000)),
        ((ERASE, [0, 0], 0, 7), ("nothing", 0, 0, 0)),
        // One position.
        ((&[0x06], [0, 0], 1, 1), ("nothing", 0, 0, 0)),
        ((&[0x06], [0, 0], 2, 1), ("nothing", 0, 0, 1)),
        ((&[0x06], [0, 0], 1_000, 1_000), ("nothing", 0, 0, 0)),
        ((&[0x06], [0, 0], 1_001, 1_000), ("nothing", 0, 0, 1)),
        ((&[0x06], [0, 0], 0, 1_000), ("control", 1, 0, 0)),
        ((&[0xB9], [0, 0], 8, 8), ("nothing", 0, 0, 0)),
        ((&[0xB9], [0, 0], 9, 8), ("nothing", 0, 0, 1)),
        ((&[0xB9], [0, 0], 0, 8), ("control", 0, 1, 0)),
        ((&[0xAB], [0, 0], 9, 8), ("nothing", 0, 0, 1)),
        ((&[0x00], [0, 0], 9, 8), ("nothing", 0, 0, 1)),
        // Eight positions of 7 ticks are 56, and five of 999 are 4,995; an ignored read drives nothing.
        ((READ, [0, 0], 1, 7), ("nothing", 0, 0, 0)),
        ((READ, [0, 0], 56, 7), ("nothing", 0, 0, 0)),
        ((READ, [0, 0], 57, 7), ("nothing", 0, 0, 1)),
        ((IDENTIFICATION, [0, 0], 1, 999), ("nothing", 0, 0, 0)),
        ((IDENTIFICATION, [0, 0], 4_996, 999), ("nothing", 0, 0, 1)),
        // Two positions of 8 ticks are 16; a reset that is carried out ends what is left.
        ((RESET, [1, 1], 1, 8), ("control", 0, 0, 0)),
        ((RESET, [1, 1], 16, 8), ("control", 0, 0, 0)),
        ((RESET, [1, 1], 60_000_000, 8), ("control", 0, 0, 0)),
        ((RESET, [1, 0], 15, 8), ("nothing", 1, 0, 0)),
        ((RESET, [1, 0], 16, 8), ("nothing", 1, 0, 0)),
        ((RESET, [1, 0], 17, 8), ("nothing", 1, 0, 1)),
        ((&[0xF0, 0x0D], [1, 1], 20, 8), ("nothing", 1, 0, 4)),
        ((&[0xF0], [1, 1], 20, 8), ("nothing", 1, 0, 12)),
        ((&[0xF0, 0xD0, 0x00], [1, 1], 20, 2), ("control", 0, 0, 0)),
    ];

    #[test]
    fn frames_that_show_nothing() {
        let mut trial = Trial::new(Care::Always);
        for ((input, [wel, rste], ticks, ticks_per_byte), (outcome, wel_after, mode, left)) in FRAMES {
            let record = Record {
                wel: wel == 1,
                rste: rste == 1,
                ..busy(ticks)
            };
            let call = clocked(input, ticks_per_byte, record);
            let reply = agreed(&mut trial, &call);
            assert_eq!((reply.outcome, reply.driven), (outcome, 0), "{call:?}");
            assert_eq!(reply.record, [0, 0, wel_after, rste, 0, mode, left], "{call:?}");
            assert!(trial.output().iter().all(|&byte| byte == 0xFF), "{call:?}");
            trial.reset().expect("the memories agree");
        }
    }

    /// A part that wakes has no busy ticks, however long the frame.
    #[test]
    fn frames_to_a_sleeping_part() {
        let mut trial = Trial::new(Care::Always);
        for (mode, input) in [(Mode::Deep, &[0xAB][..]), (Mode::UltraDeep, &[0xAB]), (Mode::UltraDeep, &[])] {
            let record = Record { mode, ..busy(0) };
            let reply = agreed(&mut trial, &clocked(input, 1_000, record));
            assert_eq!((reply.outcome, reply.record), ("control", [0; 7]), "{mode:?}");
        }
    }

    /// A program of 2,000 ticks polled at 100 for each position: the program itself takes none off, and a poll of 13 positions takes 1,300.
    #[test]
    fn a_program_and_its_polls() {
        let mut trial = Trial::new(Care::Always);
        let at_pace = |input: &[u8]| Call {
            ticks_per_byte: 100,
            ..Call::of(input)
        };
        assert_eq!(agreed(&mut trial, &at_pace(&[0x06])).outcome, "control");
        let program = at_pace(&[0x02, 0x00, 0x00, 0xFE, 0x11, 0x22, 0x33]);
        assert_eq!(agreed(&mut trial, &program).record[6], 2_000);
        assert_eq!(agreed(&mut trial, &at_pace(&poll(13))).record[6], 700);
        assert!(trial.output()[1..].iter().all(|byte| byte & 1 == 1));
        // 700 ticks are more than 600, at position 6, and not more than 700, at position 7.
        assert_eq!(agreed(&mut trial, &at_pace(&poll(9))).record[6], 0);
        assert_eq!(trial.output(), [0xFF, 0x11, 0x01, 0x11, 0x01, 0x11, 0x01, 0x10, 0x00]);
    }
}
