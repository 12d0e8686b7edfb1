//! The ledger of request R-4: who begins an operation pays for its busy time,
//! no matter who polls.
//!
//! The books keep a time line of the ticks passed in accepted calls, and on it
//! the operations, each from the end of the frame that began it. Nothing is
//! added up as time goes by. What an account owes is summed over the
//! operations when somebody asks, for the ticks since the month began.

use std::iter::once;

use crate::record::{Record, Settings};
use crate::refusals::{judge, Lengths, NONE};
use crate::{Answer, Outcome, Pins};

/// How many accounts there are.
const ACCOUNTS: usize = 256;

/// The largest total and the largest number with which calls are accepted.
const LIMIT: u64 = 9_000_000_000_000_000_000;

/// The refusal of the account or of the tables.
const NOT_BILLABLE: u8 = 9;

/// What the accounts owe, a place for each of them.
#[derive(Clone, Debug, PartialEq, Eq)]
pub struct Tables {
    /// Ticks billed.
    pub totals: [u64; ACCOUNTS],
    /// Most ticks billed for one operation.
    pub most: [u64; ACCOUNTS],
    /// Operations begun.
    pub numbers: [u64; ACCOUNTS],
}

impl Tables {
    /// The tables of accounts that owe nothing.
    pub fn empty() -> Tables {
        Tables {
            totals: [0; ACCOUNTS],
            most: [0; ACCOUNTS],
            numbers: [0; ACCOUNTS],
        }
    }
}

/// The running operation as the ledger sees it.
#[derive(Clone, Copy, Debug, PartialEq, Eq)]
pub struct Running {
    /// Whose it is; over 255 it is nobody's.
    pub account: u64,
    /// Ticks billed for it so far.
    pub billed: u64,
}

impl Running {
    /// No operation that anybody is billed for.
    pub const NOBODY: Running = Running { account: 256, billed: 0 };
}

/// An operation on the time line.
#[derive(Clone, Debug)]
struct Operation {
    /// Whose it is; over 255 it is nobody's.
    account: u64,
    /// Ticks billed for it before the books were opened; none after a close.
    carried: u64,
    /// When the frame that began it ended, or the books were opened on it.
    begun: u128,
    /// Ticks it takes from then on.
    duration: u64,
    /// When the reset that stopped it ended, if one did.
    stopped: Option<u128>,
}

impl Operation {
    /// The account's place in the tables, if it is somebody's.
    fn owner(&self) -> Option<usize> {
        place(self.account)
    }

    /// Ticks it has run by a moment.
    fn ran(&self, by: u128) -> u64 {
        let end = self.stopped.map_or(by, |stopped| stopped.min(by));
        let passed = end.saturating_sub(self.begun);
        u64::try_from(passed).map_or(self.duration, |passed| passed.min(self.duration))
    }

    /// Ticks it still has to run.
    fn left(&self, now: u128) -> u64 {
        match self.stopped {
            Some(_) => 0,
            None => self.duration - self.ran(now),
        }
    }
}

/// A ledger, from the moment it was opened.
#[derive(Clone, Debug)]
pub struct Books {
    /// The tables at the opening; empty after a close.
    base: Tables,
    /// The operation that ran at the opening, with the ticks it had left.
    opening: Operation,
    /// The operations begun since then, in order.
    begun: Vec<Operation>,
    /// How many of them were begun before the month.
    earlier: usize,
    /// When the month began: the opening, or the last close.
    month: u128,
    /// Ticks passed since the opening in accepted calls: the end of the time
    /// line.
    now: u128,
    /// Whether a call was accepted since the opening.
    called: bool,
}

impl Books {
    /// Opens books on tables and a running operation, whatever they hold. The
    /// record tells how many ticks that operation has left.
    pub fn open(tables: Tables, running: Running, record: &Record) -> Books {
        Books {
            base: tables,
            opening: Operation {
                account: running.account,
                carried: running.billed,
                begun: 0,
                duration: record.busy,
                stopped: None,
            },
            begun: Vec::new(),
            earlier: 0,
            month: 0,
            now: 0,
            called: false,
        }
    }

    /// Ends the month, and gives its tables. The next one begins now, with
    /// nothing owed. What was begun before is no more counted, and only the
    /// ticks that it runs from now on are billed.
    pub fn close(&mut self) -> Tables {
        let ended = self.tables();
        self.base = Tables::empty();
        self.opening.carried = 0;
        self.earlier = self.begun.len();
        self.month = self.now;
        ended
    }

    /// Runs one chip-select frame for an account. If the record is not as busy
    /// as the books have it, they are opened anew on the ticks it has left.
    #[allow(clippy::too_many_arguments)]
    pub fn frame(
        &mut self,
        record: Record,
        settings: &Settings,
        array: &mut [u8],
        register: &mut [u8],
        input: &[u8],
        pins: Pins,
        output: &mut [u8],
        account: u64,
    ) -> Answer {
        if !self.admits(account) {
            let lengths = Lengths::of(array, register, input, output);
            let refusal = match judge(&lengths, &record, settings, &pins) {
                NONE => NOT_BILLABLE,
                earlier => earlier,
            };
            return Answer::refused(refusal, record);
        }

        let answer = crate::frame(record, settings, array, register, input, pins, output);
        if answer.refusal == NONE {
            if record.busy != self.latest().left(self.now) {
                *self = Books::open(self.tables(), self.running(), &record);
            }
            self.pass(ticks(input.len(), &pins));
            self.note(&answer, account);
        }
        answer
    }

    /// The tables as they stand now.
    pub fn tables(&self) -> Tables {
        Tables {
            totals: self.totals(),
            most: self.most(),
            numbers: self.numbers(),
        }
    }

    /// The running operation as it stands now. What the books were opened on
    /// stays until a call is accepted, even if it has no tick left.
    pub fn running(&self) -> Running {
        let latest = self.latest();
        if self.called && latest.left(self.now) == 0 {
            return Running::NOBODY;
        }
        Running {
            account: latest.account,
            billed: self.billed(latest),
        }
    }

    /// Whether a call for this account may be accepted.
    fn admits(&self, account: u64) -> bool {
        let is_within = |table: [u64; ACCOUNTS]| table.iter().all(|&entry| entry <= LIMIT);
        place(account).is_some() && is_within(self.totals()) && is_within(self.numbers())
    }

    /// An accepted call takes that many ticks.
    fn pass(&mut self, ticks: u128) {
        self.now += ticks;
        self.called = true;
    }

    /// Notes what a frame that ends now began or stopped. An operation that
    /// has ticks left on a part that is idle was stopped.
    fn note(&mut self, answer: &Answer, account: u64) {
        let now = self.now;
        if answer.outcome == Outcome::Begun {
            self.begun.push(Operation {
                account,
                carried: 0,
                begun: now,
                duration: answer.record.busy,
                stopped: None,
            });
        } else if answer.record.busy == 0 && self.latest().left(now) > 0 {
            let latest = self.begun.last_mut().unwrap_or(&mut self.opening);
            latest.stopped = Some(now);
        }
    }

    /// The operation that began last.
    fn latest(&self) -> &Operation {
        self.begun.last().unwrap_or(&self.opening)
    }

    /// Ticks that an operation ran this month.
    fn ran(&self, operation: &Operation) -> u64 {
        operation.ran(self.now) - operation.ran(self.month)
    }

    /// Ticks billed for an operation this month, those before the opening
    /// included if that was this month. What is nobody's stays as it was.
    fn billed(&self, operation: &Operation) -> u64 {
        match operation.owner() {
            Some(_) => operation.carried.saturating_add(self.ran(operation)),
            None => operation.carried,
        }
    }

    /// Each account's total: the ticks that its operations ran this month.
    fn totals(&self) -> [u64; ACCOUNTS] {
        let all = owned(once(&self.opening).chain(&self.begun));
        raised(&self.base.totals, all.map(|(owner, operation)| (owner, self.ran(operation))))
    }

    /// The largest bill of each account. What the books were opened on counts
    /// from the first accepted call.
    fn most(&self) -> [u64; ACCOUNTS] {
        let mut most = self.base.most;
        let opening = self.called.then_some(&self.opening);
        for (owner, operation) in owned(opening.into_iter().chain(&self.begun)) {
            most[owner] = most[owner].max(self.billed(operation));
        }
        most
    }

    /// How many operations each account began this month.
    fn numbers(&self) -> [u64; ACCOUNTS] {
        let begun = owned(&self.begun[self.earlier..]);
        raised(&self.base.numbers, begun.map(|(owner, _)| (owner, 1)))
    }
}

/// The place of an account in the tables, if there is such an account.
fn place(account: u64) -> Option<usize> {
    usize::try_from(account).ok().filter(|&place| place < ACCOUNTS)
}

/// The ticks that a call of that many byte positions takes.
fn ticks(positions: usize, pins: &Pins) -> u128 {
    u128::from(pins.elapsed) + positions as u128 * u128::from(pins.ticks_per_byte)
}

/// The operations that are somebody's, each with its owner's place.
fn owned<'a>(operations: impl IntoIterator<Item = &'a Operation>) -> impl Iterator<Item = (usize, &'a Operation)> {
    operations
        .into_iter()
        .filter_map(|operation| operation.owner().map(|owner| (owner, operation)))
}

/// A table with each part added at its place. Calls are refused long before a
/// sum could pass 64 bits.
fn raised(table: &[u64; ACCOUNTS], parts: impl Iterator<Item = (usize, u64)>) -> [u64; ACCOUNTS] {
    let mut sums = table.map(u128::from);
    for (place, part) in parts {
        sums[place] += u128::from(part);
    }
    sums.map(|sum| u64::try_from(sum).expect("a sum of accepted calls fits 64 bits"))
}
