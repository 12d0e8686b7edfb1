//! Frames that came to nothing or were aborted, counted by account and cause.
use crate::frames::Frame;
use crate::glimpse::Glimpse;
use oxterin::{Answer, Cause, Outcome};
use std::collections::BTreeMap;

/// Why a frame of so many bits was not carried out. One of no bits asks for nothing: it lets time pass.
pub fn why_not(answer: &Answer, bits: u64) -> Option<Cause> {
    answer.cause.filter(|_| bits > 0)
}

/// The frames of a run that were not carried out, as far as it has come. However many there are, little is kept of them.
pub struct Missed {
    /// How many frames there were, also of those that were carried out.
    pub frames: u64,
    /// How many came to nothing.
    pub nothing: u64,
    /// How many were aborted.
    pub aborted: u64,
    /// Which accounts sent frames.
    senders: [bool; 256],
    kinds: BTreeMap<(u8, Cause), Kind>,
}

/// Frames of one account, or of all, that were not carried out for one cause.
#[derive(Clone, Debug, PartialEq, Eq)]
pub struct Kind {
    /// How many there were.
    pub frames: u64,
    /// The line of the first.
    pub line: usize,
    /// Its beginning.
    pub first: Glimpse,
}

impl Missed {
    /// No frame has been sent.
    pub fn none() -> Missed {
        Missed {
            frames: 0,
            nothing: 0,
            aborted: 0,
            senders: [false; 256],
            kinds: BTreeMap::new(),
        }
    }

    /// The frame of a line was answered.
    pub fn note(&mut self, line: usize, frame: &Frame, answer: &Answer) {
        self.frames += 1;
        self.senders[usize::from(frame.account())] = true;
        let Some(cause) = why_not(answer, frame.signals.bits) else { return };
        match answer.outcome {
            Outcome::Aborted => self.aborted += 1,
            _ => self.nothing += 1,
        }
        let kind = self.kinds.entry((frame.account(), cause)).or_insert_with(|| Kind {
            frames: 0,
            line,
            first: Glimpse::of(frame),
        });
        kind.frames += 1;
    }

    /// Whether every frame was carried out.
    pub fn is_empty(&self) -> bool {
        self.kinds.is_empty()
    }

    /// By account, and of one account by cause, in the list's order.
    pub fn by_account(&self) -> impl Iterator<Item = (u8, Cause, &Kind)> {
        self.kinds.iter().map(|((account, cause), kind)| (*account, *cause, kind))
    }

    /// By cause, in the list's order, whoever sent them.
    pub fn by_cause(&self) -> BTreeMap<Cause, Kind> {
        let mut causes: BTreeMap<Cause, Kind> = BTreeMap::new();
        for (_, cause, kind) in self.by_account() {
            let all = causes.remove(&cause).map_or_else(|| kind.clone(), |others| others.with(kind));
            causes.insert(cause, all);
        }
        causes
    }

    /// The accounts that sent frames, all of which were carried out.
    pub fn flawless(&self) -> Vec<u8> {
        let missed = |account: u8| self.by_account().any(|(other, ..)| other == account);
        let senders = (0..=255).filter(|account| self.senders[usize::from(*account)]);
        senders.filter(|account| !missed(*account)).collect()
    }
}

impl Kind {
    /// These frames and others; the first is the earlier one.
    fn with(self, other: &Kind) -> Kind {
        let first = match other.line < self.line {
            true => other.clone(),
            false => self.clone(),
        };
        Kind {
            frames: self.frames + other.frames,
            ..first
        }
    }

    /// Where the first is, and what it asks for.
    pub fn place(&self) -> String {
        format!("line {}, {}", self.line, self.first.name())
    }
}

#[cfg(test)]
mod tests {
    use super::*;
    use oxterin::{Part, Signals, Size};

    /// What is missed of frames in lines 1, 2 and so on: whose, and its bytes.
    fn missed(frames: &[(u8, &[u8])]) -> Missed {
        let mut part = Part::blank(Size::Small);
        let mut missed = Missed::none();
        for (line, (account, input)) in (1..).zip(frames) {
            let signals = Signals::whole(input);
            let answer = part.frame(input, signals).expect("it is accepted").answer;
            let frame = Frame {
                input: input.to_vec(),
                signals,
                named: Some(*account),
            };
            missed.note(line, &frame, &answer);
        }
        missed
    }

    /// Account 9's erases find the latch clear in lines 2 and 6, account 7's in line 4, and account 12's program of no byte in line 9 is
    /// aborted. The frame of no bits in line 5 is none that was missed, and account 3's polls are carried out.
    #[test]
    fn frames_are_counted_by_account_and_by_cause() {
        let missed = missed(&[
            (3, &[0x05, 0]),
            (9, &[0xC7]),
            (3, &[0x05, 0]),
            (7, &[0x20, 0, 0, 0]),
            (9, &[]),
            (9, &[0x60]),
            (7, &[0xAB]),
            (12, &[0x06]),
            (12, &[0x02, 0, 0]),
        ]);
        assert_eq!((missed.frames, missed.nothing, missed.aborted), (9, 4, 1));
        let kinds = missed.by_account();
        let kinds: Vec<_> = kinds
            .map(|(account, cause, kind)| (account, cause, kind.frames, kind.place()))
            .collect();
        assert_eq!(
            kinds,
            [
                (7, Cause::LatchClear, 1, "line 4, 4-KiB erase".into()),
                (7, Cause::AlreadyAwake, 1, "line 7, resume".into()),
                (9, Cause::LatchClear, 2, "line 2, chip erase".into()),
                (12, Cause::Incomplete, 1, "line 9, program of 0 bytes".into()),
            ]
        );
        let causes = missed.by_cause().into_iter();
        let causes: Vec<_> = causes.map(|(cause, kind)| (cause, kind.frames, kind.place())).collect();
        assert_eq!(
            causes,
            [
                (Cause::LatchClear, 3, "line 2, chip erase".into()),
                (Cause::Incomplete, 1, "line 9, program of 0 bytes".into()),
                (Cause::AlreadyAwake, 1, "line 7, resume".into()),
            ]
        );
        assert_eq!((missed.flawless(), missed.is_empty()), (vec![3], false));
    }

    #[test]
    fn nothing_is_missed_of_frames_that_were_carried_out() {
        let missed = missed(&[(7, &[0x06]), (200, &[]), (7, &[0xC7]), (9, &[0x05, 0])]);
        assert_eq!((missed.frames, missed.nothing, missed.aborted), (4, 0, 0));
        assert!(missed.is_empty() && missed.by_cause().is_empty());
        assert_eq!(missed.flawless(), [7, 9, 200]);
    }
}
