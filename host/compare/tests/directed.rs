//! Every opcode at every bit count up to 64, in every state of the record that bears on a frame, with both sizes of the array.
use compare::{replay, report, Call, Care, Random, Tally, Trial};
use oxterin::{Mode, Record, Size};
use std::thread;

/// The most bits of a directed frame: every command has all it needs by then, and every read drives two positions.
const MOST_BITS: u64 = 64;

/// When a frame comes, and how long each of its positions takes.
struct Timing {
    busy: u64,
    elapsed: u64,
    ticks_per_byte: u64,
}

/// Idle, busy beyond the frame's start, and busy until just then, in frames that take no time; idle, and busy until after the beginning of
/// position 4, in frames that take some.
const TIMINGS: [Timing; 5] = [timing(0, 3, 0), timing(9, 8, 0), timing(9, 9, 0), timing(0, 3, 5), timing(29, 8, 5)];

/// The timing of these numbers.
const fn timing(busy: u64, elapsed: u64, ticks_per_byte: u64) -> Timing {
    Timing {
        busy,
        elapsed,
        ticks_per_byte,
    }
}

/// The flags of the record and the level of WP, a bit each.
const LEVELS: u32 = 6;

/// How many frames are compared for one size.
const FRAMES: u64 = 256 * (MOST_BITS + 1) * (1 << LEVELS) * 3 * TIMINGS.len() as u64;

#[test]
fn every_opcode_at_every_bit_count_in_every_state() {
    let sweeps = thread::scope(|scope| {
        Size::ALL
            .map(|size| scope.spawn(move || careful_sweep(size)))
            .map(|thread| thread.join().expect("a sweep does not panic"))
    });
    let mut whole = Tally::default();
    for tally in sweeps {
        let tally = tally.unwrap_or_else(|calls| panic!("{}", report(calls)));
        assert_eq!(tally.calls(), FRAMES);
        whole.join(&tally);
    }
    let gaps: Vec<String> = whole.gaps().into_iter().filter(|gap| !gap.starts_with("refusal")).collect();
    assert!(gaps.is_empty(), "never seen: {gaps:?}");
    println!("{whole}");
}

/// A sweep that is done again with more care if a difference was seen late, at a frame that does not show it alone.
fn careful_sweep(size: Size) -> Result<Tally, Vec<Call>> {
    sweep(size, Care::WhenDue).or_else(|calls| match replay(&calls) {
        Err(_) => Err(calls),
        Ok(()) => sweep(size, Care::Always),
    })
}

/// All frames for one size of the array; or a series of the one frame at which a difference was seen, empty if it was seen in the end.
fn sweep(size: Size, care: Care) -> Result<Tally, Vec<Call>> {
    let mut sweep = Sweep {
        trial: Trial::new(care),
        random: Random::seeded(size.bytes() as u64),
        tally: Tally::default(),
        size,
    };
    for opcode in 0..=255 {
        for bits in 0..=MOST_BITS {
            sweep.states(opcode, bits)?;
        }
    }
    sweep.trial.check().map_err(|_| Vec::new())?;
    Ok(sweep.tally)
}

/// A sweep under way.
struct Sweep {
    trial: Trial,
    random: Random,
    tally: Tally,
    size: Size,
}

impl Sweep {
    /// A frame in every state, each with other bytes after the opcode.
    fn states(&mut self, opcode: u8, bits: u64) -> Result<(), Vec<Call>> {
        let mut call = Call::of(&vec![0; bits.div_ceil(8) as usize]);
        call.array = self.size.bytes();
        call.bits = bits;
        for levels in 0..1u32 << LEVELS {
            for mode in [Mode::Awake, Mode::Deep, Mode::UltraDeep] {
                for timing in &TIMINGS {
                    call.wp_high = levels & 1 != 0;
                    call.elapsed = timing.elapsed;
                    call.ticks_per_byte = timing.ticks_per_byte;
                    self.fill(opcode, &mut call.input);
                    self.compare(&mut call, record_of(levels, mode, timing.busy))?;
                }
            }
        }
        Ok(())
    }

    /// Bytes after the opcode; in half of the frames the first one is the reset's confirmation.
    fn fill(&mut self, opcode: u8, input: &mut [u8]) {
        let bytes = self.random.word().to_be_bytes();
        let length = input.len();
        input.copy_from_slice(&bytes[..length]);
        if let Some(first) = input.first_mut() {
            *first = opcode;
        }
        if let Some(second) = input.get_mut(1) {
            if self.random.chance(500) {
                *second = 0xD0;
            }
        }
    }

    /// One frame on memories that no operation has changed.
    fn compare(&mut self, call: &mut Call, record: Record) -> Result<(), Vec<Call>> {
        call.record = Some(record);
        let reply = self.trial.run(call).map_err(|_| vec![call.clone()])?;
        self.tally.note(&record, call, &reply);
        if reply.outcome == "begun" {
            self.trial.reset().map_err(|_| vec![call.clone()])?;
        }
        Ok(())
    }
}

/// The record with these flags.
fn record_of(levels: u32, mode: Mode, busy: u64) -> Record {
    let level = |place: u32| levels >> place & 1 != 0;
    Record {
        bpl: level(1),
        bp0: level(2),
        wel: level(3),
        rste: level(4),
        otp_used: level(5),
        mode,
        busy,
    }
}
