//! What the part was doing when a frame came to nothing or was aborted, and since which line.
use crate::desk::{Desk, Sent};
use crate::frames::Frame;
use crate::glimpse::Glimpse;
use crate::lines::counted;
use oxterin::{Answer, Cause, Mode, Outcome, Record};

/// Whether a record shows something.
type Shows = fn(&Record) -> bool;

/// The causes that last from a frame on until another ends them, each with how the record shows it.
const LASTING: [(Cause, Shows); 5] = [
    (Cause::Asleep, |record| record.mode == Mode::Deep),
    (Cause::LatchClear, |record| !record.wel),
    (Cause::Protected, |record| record.bp0),
    (Cause::Locked, |record| record.bpl),
    (Cause::AlreadyProgrammed, |record| record.otp_used),
];

/// What the lines so far have done to the part.
#[derive(Default)]
pub struct History {
    /// The line from which each of [`LASTING`] lasts, if one of the lines so far brought it about.
    since: [Option<usize>; LASTING.len()],
    /// The line that began the last operation, if there was one, and its frame.
    begun: Option<(usize, Glimpse)>,
}

/// The part as a frame finds it.
struct Found {
    record: Record,
    /// The busy ticks left at its first bit.
    busy: u64,
}

impl History {
    /// Sends the frame of a line to a desk. Answers what came of it, also in words: the outcome, and why if it is nothing or aborted. If
    /// the frame is refused nothing changes, and the words say why.
    pub fn send(&mut self, desk: &mut Desk, line: usize, frame: &Frame) -> Result<(Sent, String), String> {
        let record = desk.part.record;
        let busy = record.busy.saturating_sub(desk.signals(frame).elapsed);
        let found = Found { record, busy };
        let sent = desk.send(frame)?;
        let Answer { outcome, cause, .. } = sent.exchange.answer;
        let words = match cause {
            Some(cause) => format!("{outcome}: {cause}{}", self.more(cause, frame, &found)),
            None => outcome.to_string(),
        };
        self.note(line, &found.record, &desk.part.record);
        if outcome == Outcome::Begun {
            self.begun = Some((line, Glimpse::of(frame)));
        }
        Ok((sent, words))
    }

    /// The frame of a line found one record and left another: what lasts from it on.
    fn note(&mut self, line: usize, found: &Record, left: &Record) {
        for (since, (_, lasts)) in self.since.iter_mut().zip(LASTING) {
            if lasts(left) && !lasts(found) {
                *since = Some(line);
            }
        }
    }

    /// What comes after the words of a cause: numbers, the opcode, what the part is busy with, or since when it is as it is.
    fn more(&self, cause: Cause, frame: &Frame, found: &Found) -> String {
        let bits = frame.signals.bits;
        match cause {
            Cause::TooFewBits => format!(", {bits} of 8"),
            Cause::Busy => format!(" for {}{}", counted(found.busy, "more tick"), self.operation()),
            Cause::UnknownOpcode => frame.input.first().map_or_else(String::new, |opcode| format!(" {opcode:02X}h")),
            Cause::ResetUnconfirmed if !found.record.rste => ", RSTE is 0".to_string(),
            Cause::ResetUnconfirmed => ", no D0h after F0h".to_string(),
            Cause::OffBoundary => format!(" at {}", counted(bits, "bit")),
            Cause::Incomplete => format!(" after {}", counted(frame.input.len() as u64, "byte")),
            Cause::AlreadyProgrammed => self.lasting(cause, "by"),
            _ => self.lasting(cause, "since"),
        }
    }

    /// What the part is busy with, if one of the lines so far began it.
    fn operation(&self) -> String {
        let begun = self.begun.as_ref();
        begun.map_or_else(String::new, |(line, frame)| format!(" with the {} of line {line}", frame.name()))
    }

    /// Since which line a cause lasts, if one of the lines so far brought it about.
    fn lasting(&self, cause: Cause, word: &str) -> String {
        let place = LASTING.iter().position(|(each, _)| *each == cause);
        let since = place.and_then(|place| self.since[place]);
        since.map_or_else(String::new, |line| format!(" {word} line {line}"))
    }
}

#[cfg(test)]
mod tests {
    use super::*;
    use oxterin::{Part, Signals, Size};

    /// The frame of these bytes with these signals.
    fn frame(input: &[u8], signals: Signals) -> Frame {
        Frame {
            input: input.to_vec(),
            signals,
            named: None,
        }
    }

    /// What came of the last of these frames, in words; they are in lines 1, 2 and so on, and reach this desk.
    fn why_at(mut desk: Desk, frames: &[Frame]) -> String {
        let mut history = History::default();
        let mut last = String::new();
        for (line, frame) in (1..).zip(frames) {
            last = history.send(&mut desk, line, frame).expect("it is accepted").1;
        }
        last
    }

    /// The same on a fresh part, of frames of whole bytes.
    fn why(frames: &[&[u8]]) -> String {
        let frames: Vec<Frame> = frames.iter().map(|input| frame(input, Signals::whole(input))).collect();
        why_at(Desk::new(Part::blank(Size::Small)), &frames)
    }

    /// A desk whose part has another first record.
    fn desk(change: impl Fn(&mut Record)) -> Desk {
        let mut desk = Desk::new(Part::blank(Size::Small));
        change(&mut desk.part.record);
        desk
    }

    /// Some bits of a frame, after so many ticks.
    fn cut(input: &[u8], bits: u64, elapsed: u64) -> Frame {
        let signals = Signals {
            bits,
            elapsed,
            ..Signals::whole(input)
        };
        frame(input, signals)
    }

    #[test]
    fn numbers_and_opcodes_are_said() {
        let one = |frame: Frame| why_at(desk(|_| ()), &[frame]);
        assert_eq!(one(cut(&[0xC7], 7, 0)), "nothing: too few bits, 7 of 8");
        assert_eq!(one(cut(&[], 0, 0)), "nothing: too few bits, 0 of 8");
        assert_eq!(one(cut(&[0x3B, 0, 0, 0, 0], 40, 0)), "nothing: unknown opcode 3Bh");
        assert_eq!(one(cut(&[0x06, 0], 9, 0)), "nothing: off boundary at 9 bits");
        assert_eq!(one(cut(&[0xAB], 8, 0)), "nothing: already awake");
        assert_eq!(why(&[&[0x06], &[0x02, 0, 0, 0]]), "aborted: incomplete after 4 bytes");
        assert_eq!(why(&[&[0x06], &[0x01]]), "aborted: incomplete after 1 byte");
        assert_eq!(why(&[&[0x06], &[0x02, 0, 0, 0, 0]]), "begun");
    }

    #[test]
    fn a_reset_says_which_of_the_two_it_lacks() {
        assert_eq!(why(&[&[0xF0, 0xD0]]), "nothing: reset not enabled or not confirmed, RSTE is 0");
        let enabled: [&[u8]; 2] = [&[0x06], &[0x31, 0x10]];
        assert_eq!(
            why(&[enabled[0], enabled[1], &[0xF0, 0xD1]]),
            "nothing: reset not enabled or not confirmed, no D0h after F0h"
        );
        assert_eq!(
            why(&[enabled[0], enabled[1], &[0xF0]]),
            "nothing: reset not enabled or not confirmed, no D0h after F0h"
        );
        assert_eq!(why(&[enabled[0], enabled[1], &[0xF0, 0xD0]]), "control");
    }

    /// A 4-KiB erase takes 50,000 ticks. Of those that are left before the frame, the ones that elapse before its first bit are over.
    #[test]
    fn busy_says_for_how_long_and_with_what() {
        let begun = [cut(&[0x06], 8, 0), cut(&[0x20, 0, 0, 0], 32, 0)];
        for (elapsed, words) in [
            (0, "nothing: busy for 50,000 more ticks with the 4-KiB erase of line 2"),
            (48_796, "nothing: busy for 1,204 more ticks with the 4-KiB erase of line 2"),
            (49_999, "nothing: busy for 1 more tick with the 4-KiB erase of line 2"),
            (50_000, "nothing: latch clear since line 2"),
        ] {
            let late = cut(&[0xC7], 8, elapsed);
            assert_eq!(why_at(desk(|_| ()), &[&begun[..], &[late]].concat()), words);
        }
        let mut before = desk(|record| record.busy = 30);
        before.waiting = 10;
        assert_eq!(why_at(before, &[cut(&[0x06], 8, 5)]), "nothing: busy for 15 more ticks");
    }

    /// What lasts names the line that brought it about last, and none if that was before the first line.
    #[test]
    fn what_lasts_names_its_line() {
        let idle = |input: &[u8]| cut(input, 8 * input.len() as u64, 60_000_000);
        let at = |record: fn(&mut Record), frames: &[&[u8]]| {
            let frames: Vec<Frame> = frames.iter().map(|input| idle(input)).collect();
            why_at(desk(record), &frames)
        };
        assert_eq!(at(|_| (), &[&[0xC7]]), "nothing: latch clear");
        assert_eq!(at(|_| (), &[&[0x06], &[0x04], &[0xC7]]), "nothing: latch clear since line 2");
        assert_eq!(
            at(|_| (), &[&[0x06], &[0x04], &[0x06], &[0x02, 0], &[0xC7]]),
            "nothing: latch clear since line 4"
        );
        assert_eq!(at(|_| (), &[&[0x05, 0], &[0xB9], &[0x06]]), "nothing: asleep since line 2");
        assert_eq!(at(|record| record.mode = Mode::Deep, &[&[0x05, 0]]), "nothing: asleep");
        assert_eq!(
            at(|_| (), &[&[0x06], &[0x01, 0x04], &[0x06], &[0xC7]]),
            "aborted: protected since line 2"
        );
        assert_eq!(at(|record| record.bp0 = true, &[&[0x06], &[0xC7]]), "aborted: protected");
        let once: [&[u8]; 4] = [&[0x06], &[0x9B, 0, 0, 0, 1], &[0x06], &[0x9B, 0, 0, 1, 1]];
        assert_eq!(at(|_| (), &once), "aborted: already programmed by line 2");
        assert_eq!(at(|record| record.otp_used = true, &once[..2]), "aborted: already programmed");
        let low = |input: &[u8]| Frame {
            signals: Signals {
                wp_high: false,
                ..idle(input).signals
            },
            ..idle(input)
        };
        let write = [low(&[0x06]), low(&[0x01, 0x80])];
        assert_eq!(why_at(desk(|_| ()), &[&write[..], &write].concat()), "aborted: locked since line 2");
        assert_eq!(why_at(desk(|record| record.bpl = true), &write), "aborted: locked");
    }
}
