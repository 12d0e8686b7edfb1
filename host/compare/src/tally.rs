//! What a run of calls came to, in numbers.
use crate::call::Call;
use crate::holds::{holding, PAIRS};
use crate::opcodes::{CHANGES, CONTROLS, READS};
use crate::reply::{Reply, CAUSES, OUTCOMES};
use oxterin::{Mode, Record};
use std::fmt;

/// How many refusals there are.
const REFUSALS: usize = 8;

/// How many calls came to what.
#[derive(Clone, Debug)]
pub struct Tally {
    /// All calls.
    calls: u64,
    /// Refused calls by number; none has number 0.
    refusals: [u64; REFUSALS + 1],
    /// Accepted calls by outcome.
    outcomes: [u64; OUTCOMES.len()],
    /// Accepted calls by cause; none has number 0.
    causes: [u64; CAUSES.len()],
    /// Those in which a later cause holds too, by the numbers of both.
    pairs: [[u64; CAUSES.len()]; CAUSES.len()],
    /// Those whose opcode was heard, by opcode and outcome.
    by_opcode: Vec<[u64; OUTCOMES.len()]>,
    /// Frames that woke a part from ultra-deep.
    wakes: u64,
    /// Resets that ended an operation.
    resets: u64,
    /// Status reads that showed busy at first and no more in the end.
    ends_shown: u64,
    /// Frames ignored as busy although busy ended inside them.
    ends_unheeded: u64,
    /// Operations begun by a frame that took time itself.
    begun_in_time: u64,
}

impl Default for Tally {
    fn default() -> Tally {
        Tally {
            calls: 0,
            refusals: [0; REFUSALS + 1],
            outcomes: [0; OUTCOMES.len()],
            causes: [0; CAUSES.len()],
            pairs: [[0; CAUSES.len()]; CAUSES.len()],
            by_opcode: vec![[0; OUTCOMES.len()]; 256],
            wakes: 0,
            resets: 0,
            ends_shown: 0,
            ends_unheeded: 0,
            begun_in_time: 0,
        }
    }
}

impl Tally {
    /// Counts a call, given the record it was handed.
    pub fn note(&mut self, before: &Record, call: &Call, reply: &Reply) {
        self.calls += 1;
        if reply.refusal != 0 {
            self.refusals[reply.refusal as usize] += 1;
            return;
        }
        let outcome = place(&OUTCOMES, reply.outcome);
        self.outcomes[outcome] += 1;
        self.note_cause(before, call, place(&CAUSES, reply.cause));
        let opcode = call.clocked_opcode();
        match opcode {
            _ if before.mode == Mode::UltraDeep => self.wakes += 1,
            Some(opcode) => self.by_opcode[usize::from(opcode)][outcome] += 1,
            None => {}
        }
        let is_reset = opcode == Some(0xF0) && reply.outcome == "control";
        self.resets += u64::from(is_reset && call.busy_at_first_bit(before) > 0);
        let is_poll = opcode == Some(0x05) && reply.outcome == "read";
        self.ends_shown += u64::from(is_poll && shows_the_end(before, call));
        let is_ignored = reply.outcome == "nothing" && opcode.is_some_and(|opcode| is_heard_when_idle(before, opcode));
        self.ends_unheeded += u64::from(is_ignored && ends_inside(before, call));
        self.begun_in_time += u64::from(reply.outcome == "begun" && call.ticks_per_byte > 0);
    }

    /// Counts the cause of this number, and each later one that holds beside it.
    fn note_cause(&mut self, before: &Record, call: &Call, cause: usize) {
        self.causes[cause] += 1;
        if cause > 0 {
            for (later, holds) in (1..).zip(holding(before, call)).skip(cause) {
                self.pairs[cause][later] += u64::from(holds);
            }
        }
    }

    /// Adds the counts of another run.
    pub fn join(&mut self, other: &Tally) {
        self.calls += other.calls;
        self.wakes += other.wakes;
        self.resets += other.resets;
        self.ends_shown += other.ends_shown;
        self.ends_unheeded += other.ends_unheeded;
        self.begun_in_time += other.begun_in_time;
        add(&mut self.refusals, &other.refusals);
        add(&mut self.outcomes, &other.outcomes);
        add(&mut self.causes, &other.causes);
        for (counts, others) in self.pairs.iter_mut().zip(&other.pairs) {
            add(counts, others);
        }
        for (counts, others) in self.by_opcode.iter_mut().zip(&other.by_opcode) {
            add(counts, others);
        }
    }

    /// How many calls were counted.
    #[must_use]
    pub fn calls(&self) -> u64 {
        self.calls
    }

    /// How many calls in a hundred came to an outcome.
    #[must_use]
    pub fn share(&self, outcome: &str) -> f64 {
        100.0 * self.outcomes[place(&OUTCOMES, outcome)] as f64 / self.calls as f64
    }

    /// What should have happened at least once and did not.
    #[must_use]
    pub fn gaps(&self) -> Vec<String> {
        let mut gaps = Vec::new();
        let mut want = |count: u64, what: String| {
            if count == 0 {
                gaps.push(what);
            }
        };
        for (number, &count) in self.refusals.iter().enumerate().skip(1) {
            want(count, format!("refusal {number}"));
        }
        for (opcode, counts) in self.by_opcode.iter().enumerate() {
            want(counts.iter().sum(), format!("{opcode:02X}h"));
        }
        let listed: [(&[u8], &str); 5] = [
            (&READS, "read"),
            (&CONTROLS, "control"),
            (&[0x31], "aborted"),
            (&CHANGES, "aborted"),
            (&CHANGES, "begun"),
        ];
        for (opcodes, outcome) in listed {
            for &opcode in opcodes {
                want(
                    self.by_opcode[usize::from(opcode)][place(&OUTCOMES, outcome)],
                    format!("{opcode:02X}h {outcome}"),
                );
            }
        }
        want(self.outcomes[place(&OUTCOMES, "nothing")], "nothing".to_string());
        for (&count, words) in self.causes.iter().zip(CAUSES).skip(1) {
            want(count, format!("the cause {words}"));
        }
        for (first, later) in PAIRS {
            want(self.pairs[first][later], pair(first, later));
        }
        want(self.wakes, "a wake from ultra-deep".to_string());
        want(self.resets, "a reset while busy".to_string());
        want(self.ends_shown, "a status read that shows the end of busy".to_string());
        want(self.ends_unheeded, "a frame ignored although busy ended inside".to_string());
        want(self.begun_in_time, "an operation begun by a frame that takes time".to_string());
        gaps
    }
}

impl fmt::Display for Tally {
    fn fmt(&self, f: &mut fmt::Formatter<'_>) -> fmt::Result {
        write!(f, "{} calls:", self.calls)?;
        for outcome in OUTCOMES {
            write!(f, " {outcome} {:.1} %,", self.share(outcome))?;
        }
        let refused: u64 = self.refusals.iter().sum();
        write!(f, " refused {:.1} %", 100.0 * refused as f64 / self.calls as f64)?;
        write!(f, "\n  refusals 1 to {REFUSALS}: {:?}", &self.refusals[1..])?;
        write!(f, "\n  wakes from ultra-deep {}, resets while busy {}", self.wakes, self.resets)?;
        write!(f, "\n  ends of busy shown by a status read {}", self.ends_shown)?;
        write!(f, ", frames ignored although busy ended inside {}", self.ends_unheeded)?;
        write!(f, "\n  begun by a frame that takes time {}", self.begun_in_time)?;
        f.write_str("\n  begun:")?;
        for opcode in CHANGES {
            write!(
                f,
                " {opcode:02X}h {}",
                self.by_opcode[usize::from(opcode)][place(&OUTCOMES, "begun")]
            )?;
        }
        f.write_str("\n  causes:")?;
        for (count, words) in self.causes.iter().zip(CAUSES).skip(1) {
            write!(f, " {words} {count},")?;
        }
        let pairs = PAIRS.map(|(first, later)| (self.pairs[first][later], pair(first, later)));
        let (fewest, rarest) = pairs.iter().min().expect("there are pairs");
        write!(f, "\n  of {} pairs of causes the rarest is {rarest}: {fewest}", PAIRS.len())
    }
}

/// Whether a running operation ends inside the frame, or just at its rise.
fn ends_inside(before: &Record, call: &Call) -> bool {
    let left = call.busy_at_first_bit(before);
    left > 0 && left <= call.positions() * call.ticks_per_byte
}

/// Whether a running operation ends so that position 1 shows busy and the last position does not.
fn shows_the_end(before: &Record, call: &Call) -> bool {
    let left = call.busy_at_first_bit(before);
    let last = call.positions().saturating_sub(1);
    left > call.ticks_per_byte && left <= last * call.ticks_per_byte
}

/// Whether an awake part that is not busy always comes to something with this opcode, whatever follows it.
fn is_heard_when_idle(before: &Record, opcode: u8) -> bool {
    READS.contains(&opcode) || (before.wel && CHANGES.contains(&opcode))
}

/// The number of an outcome's or a cause's words in their list.
fn place(list: &[&str], words: &str) -> usize {
    list.iter()
        .position(|&listed| listed == words)
        .expect("a reply has one of the five outcomes, and one of the twelve causes or none")
}

/// What is said of two causes that hold at once.
fn pair(first: usize, later: usize) -> String {
    format!("{} told where {} holds too", CAUSES[first], CAUSES[later])
}

/// Adds counts one by one.
fn add(counts: &mut [u64], others: &[u64]) {
    for (count, other) in counts.iter_mut().zip(others) {
        *count += other;
    }
}

#[cfg(test)]
mod tests {
    use super::*;

    /// An awake part with WEL set that is busy for so long.
    fn busy(busy: u64) -> Record {
        Record {
            wel: true,
            busy,
            ..Record::fresh(false, false, false)
        }
    }

    /// What is counted of a frame of whole bytes with 8 ticks for each, given the ticks left at its first bit and its outcome.
    fn counted(input: &[u8], left: u64, outcome: &'static str) -> Tally {
        let call = Call {
            elapsed: 100,
            ticks_per_byte: 8,
            ..Call::of(input)
        };
        let before = busy(100 + left);
        let reply = Reply {
            outcome,
            ..Reply::refused(0, &before)
        };
        let mut tally = Tally::default();
        tally.note(&before, &call, &reply);
        tally
    }

    #[test]
    fn an_end_of_busy_shows_between_position_1_and_the_last() {
        // Of five positions the first status byte is read after 8 ticks, and the last one after 32.
        for (left, shown) in [(0, 0), (8, 0), (9, 1), (32, 1), (33, 0), (40, 0)] {
            assert_eq!(counted(&[0x05, 0, 0, 0, 0], left, "read").ends_shown, shown, "{left}");
        }
        assert_eq!(counted(&[0x05], 1, "read").ends_shown, 0);
        assert_eq!(counted(&[0x05, 0], 8, "read").ends_shown, 0);
    }

    #[test]
    fn an_end_of_busy_is_unheeded_up_to_the_rise() {
        // Four positions take 32 ticks.
        for (left, unheeded) in [(0, 0), (1, 1), (32, 1), (33, 0)] {
            for opcode in [0x03, 0x9F, 0x02, 0x20] {
                let tally = counted(&[opcode, 0, 0, 0], left, "nothing");
                assert_eq!(tally.ends_unheeded, unheeded, "{opcode:02X}h {left}");
            }
        }
        for opcode in [0x00, 0xAB, 0xF0] {
            assert_eq!(counted(&[opcode, 0, 0, 0], 1, "nothing").ends_unheeded, 0, "{opcode:02X}h");
        }
    }

    /// A chip erase of a protected part in deep power-down, the latch clear: three causes hold, and the first is told.
    #[test]
    fn causes_are_counted_alone_and_with_each_later_one_that_holds() {
        let before = Record {
            mode: Mode::Deep,
            ..Record::fresh(false, true, false)
        };
        let reply = Reply {
            cause: "asleep",
            ..Reply::refused(0, &before)
        };
        let mut tally = Tally::default();
        for _ in 0..2 {
            let mut other = Tally::default();
            other.note(&before, &Call::of(&[0x60]), &reply);
            tally.join(&other);
        }
        let met = PAIRS.into_iter().filter(|&(first, later)| tally.pairs[first][later] == 2);
        assert_eq!(met.collect::<Vec<_>>(), [(2, 5), (2, 9)]);
        assert_eq!((tally.causes[2], tally.causes.iter().sum::<u64>()), (2, 2));
        let gaps = tally.gaps();
        for (gap, is_there) in [
            ("the cause asleep", false),
            ("the cause latch clear", true),
            ("asleep told where latch clear holds too", false),
            ("latch clear told where protected holds too", true),
        ] {
            assert_eq!(gaps.iter().any(|named| named == gap), is_there, "{gap}");
        }
        let refused = Reply::refused(2, &before);
        tally.note(&before, &Call::of(&[0x60]), &refused);
        assert_eq!(tally.causes.iter().sum::<u64>(), 2);
    }

    #[test]
    fn what_never_happened_is_a_gap() {
        let gaps = Tally::default().gaps();
        for gap in [
            "refusal 8",
            "a status read that shows the end of busy",
            "a frame ignored although busy ended inside",
            "an operation begun by a frame that takes time",
            "the cause too few bits",
            "the cause already awake",
            "too few bits told where asleep holds too",
            "incomplete told where already programmed holds too",
        ] {
            assert!(gaps.iter().any(|named| named == gap), "{gap}");
        }
        let begun = counted(&[0x60], 0, "begun").gaps();
        assert!(!begun.iter().any(|gap| gap.starts_with("an operation begun")));
    }
}
