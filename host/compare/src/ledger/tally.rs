//! What a run of calls through a ledger came to, in numbers.
use super::{LIMIT, REFUSAL};
use crate::call::Call;
use crate::difference::Difference;
use crate::opcodes::CHANGES;
use crate::reply::Reply;
use crate::tally::Tally as Frames;
use crate::trial::Trial;
use oxterin::{Ledger, Record};
use std::fmt;

/// By how many accounts each kind of operation has to be begun.
const SEVERAL: usize = 10;

/// What became of the operations of one kind.
#[derive(Clone, Copy, Debug)]
struct Kind {
    /// The accounts that began one.
    accounts: [bool; Ledger::ACCOUNTS],
    /// Calls of other accounts in which ticks were billed for one that ran on.
    handed_over: u64,
    /// Resets that stopped one.
    stopped: u64,
}

impl Default for Kind {
    fn default() -> Kind {
        Kind {
            accounts: [false; Ledger::ACCOUNTS],
            handed_over: 0,
            stopped: 0,
        }
    }
}

impl Kind {
    /// How many accounts began one.
    fn several(&self) -> usize {
        self.accounts.iter().filter(|&&has_begun| has_begun).count()
    }
}

/// How many calls through a ledger came to what.
#[derive(Clone, Debug, Default)]
pub struct Tally {
    /// Their frames, all but those that only the ledger refused.
    frames: Frames,
    /// Calls that only the ledger refused: for the account, for a total, for a number.
    refused: [u64; 3],
    /// The operations, in the order of [`CHANGES`].
    kinds: [Kind; CHANGES.len()],
    /// The kind of the running operation, if the calls that were counted began it.
    running: Option<usize>,
    /// Whether a frame of 31h enabled the reset, since a record was last handed over.
    is_reset_enabled: bool,
    /// Resets that stopped an operation after they had been enabled so.
    stopped_as_enabled: u64,
    /// Status reads of others that ticks were billed in: in frames that take no time, and in frames that take some.
    polls: [u64; 2],
    /// Calls in which busy ticks were nobody's.
    nobodys: u64,
    /// Calls in which what was billed for one operation stopped at the largest number.
    saturated: u64,
    /// Calls in which a total passed the limit, and in which a number did.
    passed: [u64; 2],
    /// Calls in which the ticks elapsed and those of the frame are more than 64 bits hold, while busy.
    wide: u64,
    /// Months closed: while nobody's operation ran, and while somebody's did.
    closed: [u64; 2],
    /// Calls in which ticks were billed for an operation that was begun before the month.
    older: u64,
    /// Whether a month was closed since the running operation was begun or handed over.
    is_older: bool,
}

impl Tally {
    /// Runs a call on a trial, and counts it if the sides agree.
    ///
    /// # Errors
    ///
    /// The sides differ.
    pub fn run(&mut self, trial: &mut Trial, call: &Call) -> Result<(), Difference> {
        let record = call.record.unwrap_or(*trial.record());
        let mut ledger = call.ledger.as_deref().unwrap_or(trial.ledger()).clone();
        let reply = trial.run(call)?;
        self.is_older &= call.record.is_none() && call.ledger.is_none();
        if call.close {
            self.is_older = ledger.running.owner().is_some() && record.busy > 0;
            self.closed[usize::from(self.is_older)] += 1;
            ledger.close();
        }
        if call.record.is_some() || call.ledger.is_some() {
            self.running = None;
        }
        self.is_reset_enabled &= call.record.is_none();
        if reply.refusal == REFUSAL {
            self.refused[cause(call, &ledger)] += 1;
            return Ok(());
        }
        self.frames.note(&record, call, &reply);
        if reply.refusal == 0 {
            self.note_bill(&record, &ledger, call, &reply);
            self.note_operation(&record, call, &reply);
            self.passed[0] += u64::from(is_above(&trial.ledger().totals));
            self.passed[1] += u64::from(is_above(&trial.ledger().numbers));
        }
        Ok(())
    }

    /// How many calls were counted.
    #[must_use]
    pub fn calls(&self) -> u64 {
        self.frames.calls() + self.refused.iter().sum::<u64>()
    }

    /// How many calls in a hundred came to an outcome, of those that not only the ledger refused.
    #[must_use]
    pub fn share(&self, outcome: &str) -> f64 {
        self.frames.share(outcome)
    }

    /// What should have happened at least once and did not.
    #[must_use]
    pub fn gaps(&self) -> Vec<String> {
        let mut gaps = self.frames.gaps();
        let mut want = |has_happened: bool, what: String| {
            if !has_happened {
                gaps.push(what);
            }
        };
        for (count, what) in self.refused.into_iter().zip(["the account", "a total", "a number"]) {
            want(count > 0, format!("refusal {REFUSAL} for {what}"));
        }
        for (opcode, kind) in CHANGES.into_iter().zip(&self.kinds) {
            want(kind.several() >= SEVERAL, format!("{opcode:02X}h begun by {SEVERAL} accounts"));
            want(kind.handed_over > 0, format!("{opcode:02X}h billed in a call of another account"));
            want(kind.stopped > 0, format!("{opcode:02X}h stopped by a reset"));
        }
        for (count, what) in [
            (self.stopped_as_enabled, "an operation stopped by a reset that 31h enabled"),
            (self.polls[0], "a poll of another account that takes no time"),
            (self.polls[1], "a poll of another account that takes time"),
            (self.nobodys, "busy ticks of nobody"),
            (self.saturated, "a bill that stops at the largest number"),
            (self.passed[0], "a total that passes the limit"),
            (self.passed[1], "a number that passes the limit"),
            (self.wide, "ticks of more than 64 bits while busy"),
            (self.closed[0], "a month closed on an idle part"),
            (self.closed[1], "a month closed while an operation runs"),
            (self.older, "ticks billed for an operation of an earlier month"),
        ] {
            want(count > 0, what.to_string());
        }
        gaps
    }

    /// Counts what an accepted call was billed.
    fn note_bill(&mut self, before: &Record, ledger: &Ledger, call: &Call, reply: &Reply) {
        let off = call.comes_off(before);
        if off == 0 {
            return;
        }
        self.wide += u64::from(call.ticks() > u64::MAX.into());
        let Some(owner) = ledger.running.owner() else {
            self.nobodys += 1;
            return;
        };
        self.saturated += u64::from(ledger.running.billed.checked_add(off).is_none());
        self.older += u64::from(self.is_older);
        if call.account != Some(owner.into()) {
            let is_poll = call.opcode() == Some(0x05) && reply.outcome == "read";
            self.polls[usize::from(call.ticks_per_byte > 0)] += u64::from(is_poll);
            if let Some(kind) = self.running.filter(|_| off < before.busy) {
                self.kinds[kind].handed_over += 1;
            }
        }
    }

    /// Counts what an accepted call began or stopped.
    fn note_operation(&mut self, before: &Record, call: &Call, reply: &Reply) {
        let [.., rste, _, _, left] = reply.record;
        let opcode = call.opcode();
        self.is_reset_enabled |= opcode == Some(0x31) && reply.outcome == "control" && rste == 1;
        if reply.outcome == "begun" {
            let kind = CHANGES.iter().position(|&change| opcode == Some(change));
            let kind = kind.expect("only a listed opcode begins an operation");
            let account = call.account.expect("these calls are for accounts");
            self.kinds[kind].accounts[account as usize] = true;
            self.running = Some(kind);
            self.is_older = false;
        } else if left == 0 {
            self.is_older = false;
            let is_stopped = call.comes_off(before) < before.busy;
            if let Some(kind) = self.running.take().filter(|_| is_stopped) {
                self.kinds[kind].stopped += 1;
                self.stopped_as_enabled += u64::from(self.is_reset_enabled);
            }
        }
    }
}

impl fmt::Display for Tally {
    fn fmt(&self, f: &mut fmt::Formatter<'_>) -> fmt::Result {
        write!(
            f,
            "{} calls through a ledger, all but refusal {REFUSAL} as {}",
            self.calls(),
            self.frames
        )?;
        let [account, total, number] = self.refused;
        write!(
            f,
            "\n  refusal {REFUSAL} for the account {account}, a total {total}, a number {number}"
        )?;
        f.write_str("\n  begun by accounts, billed in calls of others, stopped by resets:")?;
        for (opcode, kind) in CHANGES.into_iter().zip(&self.kinds) {
            write!(f, " {opcode:02X}h {} {} {},", kind.several(), kind.handed_over, kind.stopped)?;
        }
        write!(f, " stopped after 31h {}", self.stopped_as_enabled)?;
        write!(
            f,
            "\n  polls of others without and with time {:?}, nobody's ticks {}",
            self.polls, self.nobodys
        )?;
        write!(f, ", bills that stop at the largest number {}", self.saturated)?;
        write!(f, "\n  totals and numbers that pass the limit {:?}", self.passed)?;
        write!(f, ", ticks of more than 64 bits while busy {}", self.wide)?;
        write!(f, "\n  months closed on an idle and on a busy part {:?}", self.closed)?;
        write!(f, ", calls billed for operations of earlier months {}", self.older)
    }
}

/// Why the ledger refused a call: 0 for the account, 1 for a total, 2 for a number.
fn cause(call: &Call, ledger: &Ledger) -> usize {
    match call.account {
        Some(256..) => 0,
        _ if is_above(&ledger.totals) => 1,
        _ => 2,
    }
}

/// Whether a table has a word above the limit.
fn is_above(table: &[u64; Ledger::ACCOUNTS]) -> bool {
    table.iter().any(|&word| word > LIMIT)
}

#[cfg(test)]
mod tests {
    use super::*;
    use crate::text;
    use crate::trial::Care;

    /// What is counted of the calls of these lines.
    fn counted(lines: &str) -> Tally {
        let mut trial = Trial::new(Care::WhenDue);
        let mut tally = Tally::default();
        for call in text::read(lines).expect("the lines can be read") {
            tally.run(&mut trial, &call).expect("the sides agree");
        }
        tally
    }

    #[test]
    fn operations_are_counted_by_their_kind() {
        let tally = counted(
            "06 account=1\n31 10 account=1\n06 account=1\n20 00*3 account=7\n05 00 account=9 elapsed=5\n05 00 account=7 elapsed=5\n\
             05 00 account=9 ticks-per-byte=5\nF0 D0 account=7 elapsed=5\n06 account=7\n20 00*3 account=8\n05 00 account=7 elapsed=50000",
        );
        let kind = &tally.kinds[2];
        assert_eq!((CHANGES[2], kind.several(), kind.handed_over, kind.stopped), (0x20, 2, 2, 1));
        assert_eq!((tally.stopped_as_enabled, tally.polls), (1, [2, 1]));
        assert_eq!(tally.calls(), 11);
    }

    #[test]
    fn refusals_are_counted_by_what_the_ledger_refused() {
        let tally = counted(
            "06 account=256\n06 account=3 totals=7:9000000000000000001\n06 account=3 numbers=7:9000000000000000001\n\
             06 account=256 register=127\n06 account=3",
        );
        assert_eq!((tally.refused, tally.calls()), ([1, 1, 2], 5));
    }

    #[test]
    fn what_only_a_handed_ledger_can_come_to_is_counted() {
        let busy = "05 00 account=3 elapsed=9 record=0,0,0,0,0,0,20";
        let tally = counted(&format!(
            "{busy} running=256,5\n{busy} running=7,18446744073709551606\n{busy} running=7,18446744073709551607\n\
             {busy} running=7,0 totals=7:8999999999999999991\n{busy} running=7,0 totals=7:8999999999999999992\n\
             20 00*3 account=3 record=0,0,1,0,0,0,0 numbers=3:9000000000000000000\n\
             05 account=3 elapsed=18446744073709551615 ticks-per-byte=1 record=0,0,0,0,0,0,20 running=7,0"
        ));
        assert_eq!((tally.nobodys, tally.saturated, tally.passed, tally.wide), (1, 1, [1, 1], 1));
    }

    #[test]
    fn months_are_counted_by_what_runs_when_they_are_closed() {
        let tally = counted(
            "06 account=1 close=1\n20 00*3 account=1\n05 00 account=9 elapsed=5\n05 00 account=9 elapsed=5 close=1\n\
             05 00 account=9 elapsed=5\n05 00 account=9 elapsed=50000\n05 00 account=9 elapsed=5\n05 00 account=9 close=1\n\
             05 00 account=3 elapsed=9 record=0,0,0,0,0,0,20 running=256,5 close=1",
        );
        assert_eq!((tally.closed, tally.older), ([3, 1], 3));
    }

    #[test]
    fn what_never_happened_is_a_gap() {
        let gaps = Tally::default().gaps();
        for gap in [
            "refusal 8",
            "refusal 9 for a number",
            "9Bh begun by 10 accounts",
            "C7h billed in a call of another account",
            "01h stopped by a reset",
            "busy ticks of nobody",
        ] {
            assert!(gaps.iter().any(|named| named == gap), "{gap}");
        }
        assert!(!counted("06 account=256")
            .gaps()
            .iter()
            .any(|gap| gap == "refusal 9 for the account"));
    }
}
