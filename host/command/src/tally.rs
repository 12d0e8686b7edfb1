//! What came of a run of frames: the operations begun, what each was billed and to whom, and who sent frames while it ran.
use crate::desk::Desk;
use crate::frames::Frame;
use crate::glimpse::Glimpse;
use crate::lines::counted;
use crate::missed::Missed;
use oxterin::Outcome;
use std::collections::BTreeMap;

/// The opcode of a status read.
const STATUS_READ: u8 = 0x05;

/// A run of frames, as far as it has come.
pub struct Tally {
    /// The part with its books.
    pub desk: Desk,
    /// Whether the books had frames before this run.
    pub goes_on: bool,
    /// Whether all operations are kept.
    keeps_all: bool,
    /// What was begun, in the order of the frames; the last alone unless all are kept. The first may be one that was running before.
    pub operations: Vec<Operation>,
    /// Which frames of the run were not carried out.
    pub missed: Missed,
}

/// An operation of the part.
pub struct Operation {
    /// Whose frame began it.
    pub account: u8,
    /// Where, when and by which frame; none if that was before this run.
    pub begun: Option<Begun>,
    /// How many ticks it takes; if a month was closed while it ran, those since then.
    pub duration: u64,
    /// How many of them were billed.
    pub billed: u64,
    /// What became of it.
    pub end: End,
    /// Who sent frames while it ran.
    pub meanwhile: BTreeMap<u8, Meanwhile>,
}

/// Where, when and by which frame an operation began.
#[derive(Clone, Debug, PartialEq, Eq)]
pub struct Begun {
    /// The number of its frame's line.
    pub line: usize,
    /// The tick at the frame's end.
    pub tick: u128,
    /// The frame's beginning.
    pub frame: Glimpse,
}

/// What became of an operation.
#[derive(Clone, Copy, Debug, PartialEq, Eq)]
pub enum End {
    /// All of its ticks have passed.
    Finished,
    /// Some are left.
    Running,
    /// Some were left when a reset came.
    Stopped,
}

/// The frames of one account while an operation ran: those whose first bit found the part busy.
#[derive(Clone, Copy, Debug, Default, PartialEq, Eq)]
pub struct Meanwhile {
    /// How many were status reads.
    pub polls: u64,
    /// How many were not.
    pub others: u64,
}

impl Tally {
    /// No frame of the run has been sent yet. All operations are kept if a page is to list them, and else the last alone.
    pub fn new(desk: Desk, keeps_all: bool) -> Tally {
        Tally {
            goes_on: desk.frames > 0,
            operations: Operation::running(&desk).into_iter().collect(),
            missed: Missed::none(),
            keeps_all,
            desk,
        }
    }

    /// Sends the frame of a line. If it is refused nothing changes, and the words say why.
    pub fn send(&mut self, line: usize, frame: &Frame) -> Result<(), String> {
        let found_busy = self.desk.part.record.busy > self.desk.signals(frame).elapsed;
        let sent = self.desk.send(frame)?;
        self.missed.note(line, frame, &sent.exchange.answer);
        let left = self.desk.part.record.busy;
        let begins = sent.exchange.answer.outcome == Outcome::Begun;
        if let Some(running) = self.operations.last_mut().filter(|last| last.end == End::Running) {
            running.billed += sent.billed.map_or(0, |billed| billed.ticks);
            if found_busy {
                running.meanwhile.entry(frame.account()).or_default().count(frame);
            }
            if begins || left == 0 {
                running.end = running.ended();
            }
        }
        if begins {
            if !self.keeps_all {
                self.operations.clear();
            }
            let begun = Begun {
                line,
                tick: self.desk.tick,
                frame: Glimpse::of(frame),
            };
            self.operations.push(Operation::begun(frame.account(), begun, left));
        }
        Ok(())
    }
}

impl Operation {
    /// What an account's frame began, with the ticks that it takes.
    fn begun(account: u8, begun: Begun, duration: u64) -> Operation {
        Operation {
            account,
            begun: Some(begun),
            duration,
            billed: 0,
            end: End::Running,
            meanwhile: BTreeMap::new(),
        }
    }

    /// What is running for an account at a desk before a run.
    fn running(desk: &Desk) -> Option<Operation> {
        let (left, running) = (desk.part.record.busy, desk.ledger.running);
        let account = running.owner().filter(|_| left > 0)?;
        Some(Operation {
            account,
            begun: None,
            duration: running.billed.saturating_add(left),
            billed: running.billed,
            end: End::Running,
            meanwhile: BTreeMap::new(),
        })
    }

    /// What became of it, now that it no longer runs.
    fn ended(&self) -> End {
        match self.billed == self.duration {
            true => End::Finished,
            false => End::Stopped,
        }
    }

    /// What it is, in words.
    pub fn name(&self) -> String {
        match &self.begun {
            Some(begun) => begun.frame.name(),
            None => "operation begun earlier".into(),
        }
    }
}

impl Meanwhile {
    /// One frame more.
    fn count(&mut self, frame: &Frame) {
        let whole_opcode = frame.signals.bits >= 8;
        match frame.input.first() {
            Some(&STATUS_READ) if whole_opcode => self.polls += 1,
            _ => self.others += 1,
        }
    }

    /// How many frames, in words.
    pub fn words(self) -> String {
        let polls = (self.polls > 0).then(|| counted(self.polls, "poll"));
        let others = (self.others > 0).then(|| counted(self.others, "other frame"));
        polls.into_iter().chain(others).collect::<Vec<_>>().join(", ")
    }
}

impl End {
    /// Its word.
    pub fn word(self) -> &'static str {
        match self {
            End::Finished => "finished",
            End::Running => "still running",
            End::Stopped => "stopped by a reset",
        }
    }
}

#[cfg(test)]
mod tests {
    use super::*;
    use crate::desk::All;
    use oxterin::{Part, Signals, Size};

    /// Sends frames in lines 1, 2 and so on: whose, its bytes, the ticks elapsed before it. All operations are kept.
    fn tally(frames: &[(u8, &[u8], u64)]) -> Tally {
        sent(frames, true)
    }

    /// The same, with all operations kept or the last alone.
    fn sent(frames: &[(u8, &[u8], u64)], keeps_all: bool) -> Tally {
        let mut tally = Tally::new(Desk::new(Part::blank(Size::Small)), keeps_all);
        send(&mut tally, frames);
        tally
    }

    /// Sends more frames.
    fn send(tally: &mut Tally, frames: &[(u8, &[u8], u64)]) {
        for (line, (account, input, elapsed)) in frames.iter().enumerate() {
            let signals = Signals {
                elapsed: *elapsed,
                ..Signals::whole(input)
            };
            let frame = Frame {
                input: input.to_vec(),
                signals,
                named: Some(*account),
            };
            tally.send(line + 1, &frame).expect("it is accepted");
        }
    }

    /// The line of the frame that began an operation.
    fn line(operation: &Operation) -> Option<usize> {
        operation.begun.as_ref().map(|begun| begun.line)
    }

    /// A 4-KiB erase takes 50,000 ticks. The second poll's first bit comes as it ends, so it was not sent while the erase ran.
    #[test]
    fn an_operation_ends_with_its_last_tick() {
        let frames: [(u8, &[u8], u64); 5] = [
            (7, &[0x06], 10),
            (7, &[0x20, 0, 0, 0], 5),
            (12, &[0x05, 0], 20_000),
            (7, &[0x20, 0, 0, 0], 0),
            (12, &[0x05, 0], 30_000),
        ];
        let early = tally(&frames[..4]);
        let erase = &early.operations[0];
        assert_eq!((erase.billed, erase.end), (20_000, End::Running));
        assert_eq!((line(erase), erase.begun.as_ref().map(|begun| begun.tick)), (Some(2), Some(15)));
        assert_eq!(erase.name(), "4-KiB erase");
        let late = tally(&frames);
        let erase = &late.operations[0];
        assert_eq!((late.operations.len(), erase.account, line(erase)), (1, 7, Some(2)));
        assert_eq!((erase.billed, erase.duration, erase.end), (50_000, 50_000, End::Finished));
        let poll = Meanwhile { polls: 1, others: 0 };
        let ignored = Meanwhile { polls: 0, others: 1 };
        assert_eq!(erase.meanwhile, BTreeMap::from([(7, ignored), (12, poll)]));
        assert_eq!((late.desk.frames, late.desk.passed()), (5, 50_015));
    }

    #[test]
    fn the_last_operation_alone_is_kept_unless_all_are() {
        let frames: [(u8, &[u8], u64); 5] = [
            (7, &[0x06], 0),
            (7, &[0x20, 0, 0, 0], 0),
            (12, &[0x06], 50_000),
            (12, &[0x81, 0, 0, 0], 0),
            (7, &[0x05, 0], 6_999),
        ];
        let (all, last) = (sent(&frames, true), sent(&frames, false));
        assert_eq!((all.operations.len(), last.operations.len()), (2, 1));
        assert_eq!(all.desk, last.desk);
        let erase = &last.operations[0];
        assert_eq!(
            (erase.account, line(erase), erase.billed, erase.end),
            (12, Some(4), 6_999, End::Running)
        );
    }

    #[test]
    fn the_operations_of_an_account_add_up_to_its_total() {
        let tally = tally(&[
            (7, &[0x06], 0),
            (7, &[0x02, 0, 0, 0, 1], 0),
            (9, &[0x06], 12),
            (9, &[0x81, 0, 0, 0], 3),
            (7, &[0x06], u64::MAX),
            (7, &[0x31, 0x10], 0),
            (7, &[0x06], 0),
            (7, &[0x60], u64::MAX),
            (9, &[0xF0, 0xD0], 1_599_999),
        ]);
        let ends: Vec<End> = tally.operations.iter().map(|operation| operation.end).collect();
        assert_eq!(ends, [End::Finished, End::Finished, End::Stopped]);
        for (account, line) in tally.desk.accounts() {
            let own = || tally.operations.iter().filter(|operation| operation.account == account);
            assert_eq!(line.total, own().map(|operation| operation.billed).sum::<u64>());
            assert_eq!(line.most, own().map(|operation| operation.billed).max().unwrap_or(0));
            assert_eq!(line.number, own().count() as u64);
        }
        let wanted = All {
            total: 12 + 7_000 + 1_599_999,
            most: 1_599_999,
            number: 3,
        };
        assert_eq!(tally.desk.all(), wanted);
        assert_eq!(tally.desk.passed(), 2 * u128::from(u64::MAX) + 15 + 1_599_999);
    }

    /// Account 7's 4-KiB erase takes 50,000 ticks, of which 20,000 pass in a first run; in a second one the rest.
    #[test]
    fn what_runs_before_a_run_is_billed_on() {
        let first = tally(&[(7, &[0x06], 0), (7, &[0x20, 0, 0, 0], 0), (12, &[0x05, 0], 20_000)]);
        let mut second = Tally::new(first.desk.clone(), true);
        let erase = &second.operations[0];
        assert_eq!(
            (erase.account, line(erase), erase.billed, erase.duration),
            (7, None, 20_000, 50_000)
        );
        assert_eq!(erase.name(), "operation begun earlier");
        send(&mut second, &[(12, &[0x05, 0], 40_000)]);
        let erase = &second.operations[0];
        assert_eq!((second.operations.len(), erase.billed, erase.end), (1, 50_000, End::Finished));
        assert_eq!((second.desk.ledger.totals[7], second.desk.frames), (50_000, 4));
        assert!(second.goes_on && !first.goes_on);
    }
}
