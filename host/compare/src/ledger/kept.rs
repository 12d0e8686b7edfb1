//! The ledger of a side.
use crate::difference::Difference;
use oxterin::{raw, Ledger, Running};
use std::hint::black_box;

/// Words that lie before and behind every part of a ledger; no side may change them, or take them for a total.
const GUARD: [u64; 4] = [u64::MAX, u64::MAX - 1, u64::MAX - 2, u64::MAX - 3];

/// Words between guards.
#[derive(Clone, Debug)]
#[repr(C)]
pub(crate) struct Guarded<const COUNT: usize> {
    /// The guard before them.
    pub(crate) before: [u64; GUARD.len()],
    /// The words that are lent.
    pub(crate) words: [u64; COUNT],
    /// The guard behind them.
    pub(crate) behind: [u64; GUARD.len()],
}

impl<const COUNT: usize> Guarded<COUNT> {
    /// These words between guards.
    fn of(words: [u64; COUNT]) -> Guarded<COUNT> {
        Guarded {
            before: GUARD,
            words,
            behind: GUARD,
        }
    }

    /// The words are as they have to be, and so are the guards.
    fn compare(&self, name: &str, what: &str, expected: &[u64; COUNT], found: &mut Difference) {
        let Guarded { before, words, behind } = black_box(self);
        found.words(name, format_args!("word before the {what}"), before, &GUARD);
        found.words(name, format_args!("{what}"), words, expected);
        found.words(name, format_args!("word behind the {what}"), behind, &GUARD);
    }
}

/// The ledger of a side: its words, each part between guards, and for the model its own books.
#[derive(Clone, Debug)]
pub(crate) struct Kept {
    /// Ticks billed to each account.
    pub(crate) totals: Guarded<{ raw::ACCOUNTS }>,
    /// The most ticks billed to each account for one operation.
    pub(crate) most: Guarded<{ raw::ACCOUNTS }>,
    /// How many operations each account began.
    pub(crate) numbers: Guarded<{ raw::ACCOUNTS }>,
    /// Whose operation runs, and what it was billed.
    pub(crate) running: Guarded<{ raw::RUNNING }>,
    /// The tables that the last close handed out: totals, most and numbers.
    pub(crate) month: [Guarded<{ raw::ACCOUNTS }>; 3],
    /// The model's books, once it has opened them on the words.
    books: Option<model::Books>,
}

impl Kept {
    /// An empty ledger.
    pub(crate) fn empty() -> Kept {
        let Ledger {
            totals,
            most,
            numbers,
            running,
        } = Ledger::empty();
        Kept {
            totals: Guarded::of(totals),
            most: Guarded::of(most),
            numbers: Guarded::of(numbers),
            running: Guarded::of(words_of(running)),
            month: [0, 1, 2].map(|word| Guarded::of([word; raw::ACCOUNTS])),
            books: None,
        }
    }

    /// Takes over a ledger that is handed in.
    pub(crate) fn put(&mut self, ledger: &Ledger) {
        self.write(ledger);
        self.books = None;
    }

    /// The words as a ledger.
    pub(crate) fn ledger(&self) -> Ledger {
        let [account, billed] = self.running.words;
        Ledger {
            totals: self.totals.words,
            most: self.most.words,
            numbers: self.numbers.words,
            running: Running { account, billed },
        }
    }

    /// Does something with the wrapper's ledger of these words.
    pub(crate) fn in_wrapper<T>(&mut self, act: impl FnOnce(&mut Ledger) -> T) -> T {
        let mut ledger = self.ledger();
        let done = act(&mut ledger);
        self.write(&ledger);
        done
    }

    /// Does something in the model's books, which it keeps from call to call. They are opened with the record of the first one.
    pub(crate) fn in_books<T>(&mut self, record: &model::Record, act: impl FnOnce(&mut model::Books) -> T) -> T {
        let mut books = self.books.take().unwrap_or_else(|| self.opened(record));
        let done = act(&mut books);
        let model::Tables { totals, most, numbers } = books.tables();
        let model::Running { account, billed } = books.running();
        self.write(&Ledger {
            totals,
            most,
            numbers,
            running: Running { account, billed },
        });
        self.books = Some(books);
        done
    }

    /// Every word is as in this ledger, and every guard as it was.
    pub(crate) fn compare(&self, name: &str, expected: &Ledger, found: &mut Difference) {
        self.totals.compare(name, "table of totals", &expected.totals, found);
        self.most.compare(name, "table of most", &expected.most, found);
        self.numbers.compare(name, "table of numbers", &expected.numbers, found);
        self.running.compare(name, "running part", &words_of(expected.running), found);
    }

    /// Every word of the month that was handed out is as in this ledger, and every guard as it was.
    pub(crate) fn compare_month(&self, name: &str, expected: &Ledger, found: &mut Difference) {
        let [totals, most, numbers] = &self.month;
        totals.compare(name, "closed table of totals", &expected.totals, found);
        most.compare(name, "closed table of most", &expected.most, found);
        numbers.compare(name, "closed table of numbers", &expected.numbers, found);
    }

    /// Writes the words of a month that was handed out.
    pub(crate) fn hand_out(&mut self, month: [[u64; raw::ACCOUNTS]; 3]) {
        for (kept, words) in self.month.iter_mut().zip(month) {
            kept.words = words;
        }
    }

    /// The model's books on these words.
    fn opened(&self, record: &model::Record) -> model::Books {
        let tables = model::Tables {
            totals: self.totals.words,
            most: self.most.words,
            numbers: self.numbers.words,
        };
        let [account, billed] = self.running.words;
        model::Books::open(tables, model::Running { account, billed }, record)
    }

    /// Writes the words of a ledger.
    fn write(&mut self, ledger: &Ledger) {
        self.totals.words = ledger.totals;
        self.most.words = ledger.most;
        self.numbers.words = ledger.numbers;
        self.running.words = words_of(ledger.running);
    }
}

/// The words of the running part.
fn words_of(running: Running) -> [u64; raw::RUNNING] {
    [running.account, running.billed]
}
