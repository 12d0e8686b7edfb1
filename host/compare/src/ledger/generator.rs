//! Random calls through a ledger, and ledgers that a caller could hand over, hostile ones too.
use super::LIMIT;
use crate::call::Call;
use crate::generator::Generator as Frames;
use crate::random::Random;
use oxterin::{Ledger, Record, Running};

/// Accounts that are none.
const NO_ACCOUNTS: [u64; 7] = [256, 257, 300, 1 << 32, (1 << 32) + 3, 1 << 63, u64::MAX];

/// Totals and numbers of operations with which calls are refused.
const ABOVE: [u64; 4] = [LIMIT + 1, 1 << 63, u64::MAX - 1, u64::MAX];

/// So few ticks that an operation can take a total past the limit.
const FEW_TICKS: u64 = 60_000;

/// Makes the calls of one series, each suited to the record and the ledger that it will be given.
#[derive(Clone, Debug)]
pub struct Generator {
    /// Where its choices come from.
    random: Random,
    /// Makes the frames.
    frames: Frames,
    /// The accounts that most of its calls are for.
    accounts: [u64; 4],
    /// Whether every call is given the record and the ledger that the one before gave back, the first one a fresh record and an empty
    /// ledger.
    is_unbroken: bool,
    /// Whether it has made a call.
    has_begun: bool,
}

impl Generator {
    /// A generator of calls to a part with an array of this length.
    #[must_use]
    pub fn new(random: Random, array: usize) -> Generator {
        let mut random = random;
        let frames = Frames::new(Random::seeded(random.word()), array);
        let accounts = [0; 4].map(|_| random.below(256));
        let is_unbroken = random.chance(400);
        Generator {
            random,
            frames,
            accounts,
            is_unbroken,
            has_begun: false,
        }
    }

    /// The next call, to be given this record and this ledger.
    pub fn call(&mut self, record: &Record, ledger: &Ledger) -> Call {
        let mut call = self.frames.call(record);
        if self.is_unbroken {
            call.record = None;
        } else {
            call.ledger = self.handed_ledger(ledger);
        }
        call.account = Some(self.account());
        call.close = self.random.chance(10);
        self.has_begun = true;
        call
    }

    /// Mostly one of a few accounts; now and then any, and rarely none at all.
    fn account(&mut self) -> u64 {
        match self.random.below(100) {
            0 => self.random.pick(&NO_ACCOUNTS),
            1 => self.random.pick(&[0, 255]),
            2..12 => self.random.below(256),
            _ => self.random.pick(&self.accounts),
        }
    }

    /// A ledger to hand over in place of the last one: at the beginning, now and then, and often if the last one is refused.
    fn handed_ledger(&mut self, last: &Ledger) -> Option<Box<Ledger>> {
        let is_refused = last.totals.iter().chain(&last.numbers).any(|&word| word > LIMIT);
        let wanted = match (self.has_begun, is_refused) {
            (false, _) => 500,
            (true, true) => 300,
            (true, false) => 15,
        };
        self.random.chance(wanted).then(|| Box::new(self.ledger(last)))
    }

    /// Any ledger: an empty one, the last one or one full of numbers, with some at and beside their limits.
    fn ledger(&mut self, last: &Ledger) -> Ledger {
        let mut ledger = match self.random.below(3) {
            0 => Ledger::empty(),
            1 => accepted(last),
            _ => self.full(),
        };
        for account in self.accounts.map(|account| account as usize) {
            if self.random.chance(300) {
                ledger.totals[account] = self.random.pick(&[LIMIT, LIMIT - 1, LIMIT - FEW_TICKS]);
            }
            if self.random.chance(300) {
                ledger.numbers[account] = self.random.pick(&[LIMIT, LIMIT - 1]);
            }
            if self.random.chance(300) {
                ledger.most[account] = self.random.pick(&[u64::MAX, u64::MAX - 1, LIMIT + 1, 0]);
            }
        }
        if self.random.chance(150) {
            let account = self.random.below(256) as usize;
            let above = self.random.pick(&ABOVE);
            if self.random.chance(500) {
                ledger.totals[account] = above;
            } else {
                ledger.numbers[account] = above;
            }
        }
        ledger.running = self.running();
        ledger
    }

    /// A ledger in which every account has much.
    fn full(&mut self) -> Ledger {
        let mut table = |most: u64| [0; Ledger::ACCOUNTS].map(|_| self.random.below(most));
        Ledger {
            totals: table(LIMIT),
            most: table(u64::MAX),
            numbers: table(LIMIT),
            running: Running::NOBODY,
        }
    }

    /// A running part: mostly one of the accounts, or none; billed any number, and often so much that a little more passes 64 bits.
    fn running(&mut self) -> Running {
        let account = match self.random.below(8) {
            0 => self.random.pick(&NO_ACCOUNTS),
            1 => self.random.pick(&[0, 255, 256]),
            _ => self.random.pick(&self.accounts),
        };
        let billed = match self.random.below(4) {
            0 => 0,
            1 => self.random.word(),
            2 => self.random.pick(&[u64::MAX, u64::MAX - 1]),
            _ => u64::MAX - self.random.below(FEW_TICKS),
        };
        Running { account, billed }
    }
}

/// The ledger with no total and no number of operations above the limit.
fn accepted(ledger: &Ledger) -> Ledger {
    let limited = |table: [u64; Ledger::ACCOUNTS]| table.map(|word| word.min(LIMIT));
    Ledger {
        totals: limited(ledger.totals),
        numbers: limited(ledger.numbers),
        ..ledger.clone()
    }
}
