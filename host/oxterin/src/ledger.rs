//! A ledger beside a part: who begins an operation pays for its busy ticks, no matter who polls.
use crate::frame::{on_words, Answer, Refusal, Signals};
use crate::raw;
use crate::record::{Record, Settings};

/// The running operation: whose it is, and what it was billed so far.
#[derive(Clone, Copy, Debug, PartialEq, Eq, Hash)]
pub struct Running {
    /// The account whose frame began it; any number over 255 is nobody.
    pub account: u64,
    /// The ticks billed for it so far, since the last close.
    pub billed: u64,
}

impl Running {
    /// Nobody's, nothing billed.
    pub const NOBODY: Running = Running { account: 256, billed: 0 };

    /// The account that is billed, if there is one.
    ///
    /// ```
    /// use oxterin::Running;
    ///
    /// assert_eq!(Running { account: 255, billed: 12 }.owner(), Some(255));
    /// assert_eq!(Running::NOBODY.owner(), None);
    /// ```
    #[must_use]
    pub fn owner(&self) -> Option<u8> {
        u8::try_from(self.account).ok()
    }
}

/// What each account was billed, and the running operation.
///
/// It is plain data. Every value may be handed to a frame; a total or a number of operations above [`Ledger::LIMIT`] is refused
/// ([`Refusal::Account`]).
///
/// Every frame of a part goes through its ledger: one sent past it (`send`, `frame`), or a changed record, leaves `running` stale, and the
/// wrong account may pay. A ledger is one part's; who has several parts keeps one ledger each and adds the lines (of `most`, the largest).
#[derive(Clone, Debug, PartialEq, Eq)]
pub struct Ledger {
    /// The ticks billed to each account.
    pub totals: [u64; Ledger::ACCOUNTS],
    /// The most ticks billed to each account for one operation.
    pub most: [u64; Ledger::ACCOUNTS],
    /// How many operations each account began.
    pub numbers: [u64; Ledger::ACCOUNTS],
    /// The running operation.
    pub running: Running,
}

impl Ledger {
    /// How many accounts there are, counted from 0.
    pub const ACCOUNTS: usize = raw::ACCOUNTS;

    /// No total and no number of operations is accepted above this one.
    pub const LIMIT: u64 = 9_000_000_000_000_000_000;

    /// An empty ledger: nothing billed, nothing begun, and what is running is nobody's.
    #[must_use]
    pub fn empty() -> Ledger {
        Ledger {
            totals: [0; Ledger::ACCOUNTS],
            most: [0; Ledger::ACCOUNTS],
            numbers: [0; Ledger::ACCOUNTS],
            running: Running::NOBODY,
        }
    }

    /// Closes a month: hands out the ledger as it was, and goes on with empty tables. The operation that runs stays its account's: its ticks
    /// so far and its number are the old month's, its further ticks the new one's, whose `most` counts these alone. Every ledger can be
    /// closed, also one that is full.
    ///
    /// ```
    /// use oxterin::{Ledger, Line, Running};
    ///
    /// let mut ledger = Ledger::empty();
    /// (ledger.totals[7], ledger.most[7], ledger.numbers[7]) = (20_012, 20_000, 2);
    /// ledger.running = Running { account: 7, billed: 20_000 }; // of an erase of 50,000 ticks
    /// let october = ledger.close();
    /// assert_eq!(october.line(7), Ok(Line { total: 20_012, most: 20_000, number: 2 }));
    /// assert_eq!(ledger, Ledger { running: Running { account: 7, billed: 0 }, ..Ledger::empty() });
    /// ```
    pub fn close(&mut self) -> Ledger {
        let mut month = Ledger {
            running: self.running,
            ..Ledger::empty()
        };
        let mut running = [self.running.account, self.running.billed];
        let number = raw::close(
            &mut running,
            &mut self.totals,
            &mut self.most,
            &mut self.numbers,
            &mut month.totals,
            &mut month.most,
            &mut month.numbers,
        );
        assert_eq!(number, 0, "two words stand for every running operation");
        let [account, billed] = running;
        self.running = Running { account, billed };
        month
    }

    /// An account's line.
    ///
    /// # Errors
    ///
    /// The account is over 255.
    ///
    /// ```
    /// use oxterin::{Ledger, Line, Refusal};
    ///
    /// let mut ledger = Ledger::empty();
    /// (ledger.totals[7], ledger.most[7], ledger.numbers[7]) = (50_012, 50_000, 2);
    /// assert_eq!(ledger.line(7), Ok(Line { total: 50_012, most: 50_000, number: 2 }));
    /// assert_eq!(ledger.line(256), Err(Refusal::Account));
    /// ```
    pub fn line(&self, account: u64) -> Result<Line, Refusal> {
        let mut words = [0; raw::LINE];
        let number = raw::report(&self.totals, &self.most, &self.numbers, account, &mut words);
        if let Some(refusal) = Refusal::of_number(number) {
            return Err(refusal);
        }
        let [total, most, number] = words;
        Ok(Line { total, most, number })
    }

    /// The lines of all accounts, from 0 to 255.
    ///
    /// ```
    /// let mut ledger = oxterin::Ledger::empty();
    /// ledger.numbers[255] = 3;
    /// let begun: Vec<(u8, u64)> = ledger.lines().map(|(account, line)| (account, line.number)).collect();
    /// assert_eq!((begun.len(), begun[0], begun[255]), (256, (0, 0), (255, 3)));
    /// ```
    pub fn lines(&self) -> impl Iterator<Item = (u8, Line)> + '_ {
        (0..=u8::MAX).map(|account| {
            let line = self.line(account.into()).expect("an account up to 255 has a line");
            (account, line)
        })
    }
}

impl Default for Ledger {
    /// An empty ledger.
    fn default() -> Ledger {
        Ledger::empty()
    }
}

/// What a ledger says of an account.
#[derive(Clone, Copy, Debug, PartialEq, Eq, Hash)]
pub struct Line {
    /// The ticks billed.
    pub total: u64,
    /// The most ticks billed for one operation.
    pub most: u64,
    /// How many operations it began.
    pub number: u64,
}

/// One chip-select frame as [`crate::frame`] carries it out, for an account. The ticks that come off a running operation are billed to the
/// account whose frame began it; an operation that this frame begins is the account's own, and none of this frame's ticks are billed for
/// it. With an empty ledger at first, what the first record has left is nobody's.
///
/// # Errors
///
/// A refused call changes none of its arguments.
///
/// ```
/// use oxterin::{frame_for, Ledger, Record, Running, Settings, Signals};
///
/// let (mut array, mut register) = (vec![0xFF; 131_072], vec![0xFF; 128]);
/// let mut record = Record::fresh(false, false, false);
/// let settings = Settings::typical();
/// let mut ledger = Ledger::empty();
/// let mut output = [0; 5];
/// for (account, input) in [(3, &[0x06][..]), (3, &[0x02, 0, 0, 0, 0x5A]), (8, &[0x05, 0, 0])] {
///     let signals = Signals::whole(input).with_ticks_per_byte(2);
///     frame_for(account, &mut ledger, &mut record, &settings, &mut array, &mut register, input, signals, &mut output)?;
/// }
/// assert_eq!(ledger.running, Running { account: 3, billed: 6 }); // of the 12 ticks of the program
/// assert_eq!((ledger.totals[3], ledger.totals[8]), (6, 0));
/// # Ok::<(), oxterin::Refusal>(())
/// ```
#[allow(clippy::too_many_arguments)]
pub fn frame_for(
    account: u64,
    ledger: &mut Ledger,
    record: &mut Record,
    settings: &Settings,
    array: &mut [u8],
    register: &mut [u8],
    input: &[u8],
    signals: Signals,
    output: &mut [u8],
) -> Result<Answer, Refusal> {
    let mut running = [ledger.running.account, ledger.running.billed];
    let answer = on_words(record, |words, answer| {
        raw::ledger_frame(
            words,
            &settings.words(),
            &signals.words(),
            array,
            register,
            input,
            output,
            answer,
            account,
            &mut running,
            &mut ledger.totals,
            &mut ledger.most,
            &mut ledger.numbers,
        )
    })?;
    let [account, billed] = running;
    ledger.running = Running { account, billed };
    Ok(answer)
}

#[cfg(test)]
mod tests {
    use super::*;
    use crate::{Cause, Outcome, Part, Size};

    /// A part on which account 3 has begun an erase of 50,000 ticks, and the ledger.
    fn erasing() -> (Part, Ledger) {
        let mut part = Part::blank(Size::Small);
        let mut ledger = Ledger::default();
        part.send_for(8, &mut ledger, &[0x06]).expect("it is accepted");
        let erase = part.send_for(3, &mut ledger, &[0x20, 0, 0, 0]).expect("it is accepted");
        assert_eq!(erase.answer.outcome, Outcome::Begun);
        (part, ledger)
    }

    /// A poll before which so many ticks elapse.
    fn poll(elapsed: u64) -> ([u8; 2], Signals) {
        let input = [0x05, 0x00];
        let signals = Signals {
            elapsed,
            ..Signals::whole(&input)
        };
        (input, signals)
    }

    #[test]
    fn busy_time_is_billed_to_who_began_it() {
        let (mut part, mut ledger) = erasing();
        assert_eq!((ledger.running.owner(), ledger.numbers[3], ledger.numbers[8]), (Some(3), 1, 0));
        for (elapsed, total, running) in [
            (9, 9, Running { account: 3, billed: 9 }),
            (u64::MAX, 50_000, Running::NOBODY),
            (9, 50_000, Running::NOBODY),
        ] {
            let (input, signals) = poll(elapsed);
            part.frame_for(8, &mut ledger, &input, signals).expect("it is accepted");
            assert_eq!((ledger.totals[3], ledger.most[3], ledger.running), (total, total, running));
        }
        assert_eq!(ledger.line(8), Ledger::empty().line(8));
    }

    /// Of account 3's 50,000 ticks 20,000 pass in the first month and the others in the second, where it begins none.
    #[test]
    fn a_running_operation_is_billed_in_both_months() {
        let (mut part, mut ledger) = erasing();
        let (input, signals) = poll(20_000);
        part.frame_for(8, &mut ledger, &input, signals).expect("it is accepted");
        let before = ledger.clone();
        assert_eq!(ledger.close(), before);
        let emptied = Ledger {
            running: Running { account: 3, billed: 0 },
            ..Ledger::empty()
        };
        assert_eq!(ledger, emptied);
        let (input, signals) = poll(u64::MAX);
        part.frame_for(8, &mut ledger, &input, signals).expect("it is accepted");
        let line = |total, number| {
            Ok(Line {
                total,
                most: total,
                number,
            })
        };
        assert_eq!((before.line(3), ledger.line(3)), (line(20_000, 1), line(30_000, 0)));
        assert_eq!(ledger.running, Running::NOBODY);
    }

    /// Tables that are too full for a frame are handed out word by word.
    #[test]
    fn a_full_ledger_can_be_closed() {
        let mut ledger = Ledger::empty();
        for place in 0..Ledger::ACCOUNTS {
            let word = u64::MAX - place as u64;
            (ledger.totals[place], ledger.most[place], ledger.numbers[place]) = (word, word / 2, word / 3);
        }
        ledger.running = Running {
            account: u64::MAX,
            billed: u64::MAX,
        };
        let before = ledger.clone();
        assert_eq!(ledger.close(), before);
        let emptied = Ledger {
            running: Running {
                account: u64::MAX,
                billed: 0,
            },
            ..Ledger::empty()
        };
        assert_eq!(ledger, emptied);
    }

    #[test]
    fn the_frame_is_the_same_without_a_ledger() {
        let (mut part, mut ledger) = erasing();
        let mut bare = part.clone();
        let (input, signals) = poll(49_999);
        let answer = part.frame_for(8, &mut ledger, &input, signals);
        assert_eq!(answer, bare.frame(&input, signals));
        assert_eq!(part, bare);
    }

    #[test]
    fn the_cause_is_told_through_a_ledger() {
        let mut part = Part::blank(Size::Small);
        let mut ledger = Ledger::empty();
        let mut told = |input: &[u8]| part.send_for(3, &mut ledger, input).map(|exchange| exchange.answer.cause);
        assert_eq!(told(&[0x20, 0, 0, 0]), Ok(Some(Cause::LatchClear)));
        assert_eq!(told(&[0x06]), Ok(None));
        assert_eq!(told(&[0x20, 0, 0]), Ok(Some(Cause::Incomplete)));
        assert_eq!(told(&[0x06]), Ok(None));
        assert_eq!(told(&[0x20, 0, 0, 0]), Ok(None));
        assert_eq!(told(&[0x05, 0]), Ok(None));
        assert_eq!(told(&[0x06]), Ok(Some(Cause::Busy)));
        assert_eq!(part.send_for(256, &mut ledger, &[0x06]), Err(Refusal::Account));
    }

    #[test]
    fn a_refused_call_changes_neither_the_part_nor_the_ledger() {
        let (mut part, mut ledger) = erasing();
        let (input, signals) = poll(9);
        let mut refused = |account, ledger: &mut Ledger, signals| {
            let before = (part.clone(), ledger.clone());
            let refusal = part.frame_for(account, ledger, &input, signals);
            assert_eq!((&part, &*ledger), (&before.0, &before.1));
            refusal
        };
        for account in [256, u64::MAX] {
            assert_eq!(refused(account, &mut ledger, signals), Err(Refusal::Account));
            let hasty = signals.with_ticks_per_byte(1_001);
            assert_eq!(refused(account, &mut ledger, hasty), Err(Refusal::TicksPerByte));
        }
        ledger.totals[200] = Ledger::LIMIT + 1;
        assert_eq!(refused(3, &mut ledger, signals), Err(Refusal::Account));
        (ledger.totals[200], ledger.numbers[0]) = (Ledger::LIMIT, Ledger::LIMIT + 1);
        assert_eq!(refused(3, &mut ledger, signals), Err(Refusal::Account));
        ledger.numbers[0] = Ledger::LIMIT;
        assert!(part.frame_for(3, &mut ledger, &input, signals).is_ok());
    }
}
