//! Long random series of calls through a ledger, for several accounts in turn, and months that are closed amid them.
//!
//! `COMPARE_FRAMES` asks for more frames than usual, and `COMPARE_SEED` for the series of an earlier run. A series that shows a difference
//! is replayed as any other, by `COMPARE_REPLAY` and the test in random.rs.
use compare::ledger::{Generator, Tally};
use compare::{both_sizes, Call, Care, Random, Trial};
use oxterin::{Ledger, Size};

/// How many frames a usual run has, both sizes together.
const FRAMES: u64 = 1_000_000;

/// The least share of frames that begin an operation, in percent.
const LEAST_BEGUN: f64 = 15.0;

#[test]
fn long_random_series_through_a_ledger_agree() {
    for (size, tally) in both_sizes(FRAMES, many_series) {
        println!("{size:?}: {tally}");
        assert!(tally.gaps().is_empty(), "never seen: {:?}", tally.gaps());
        assert!(tally.share("begun") >= LEAST_BEGUN, "too few operations begin");
    }
}

/// Series after series on one size of the array, until there are so many frames; or the series in which the sides differ.
fn many_series(seed: u64, size: Size, frames: u64) -> Result<Tally, Vec<Call>> {
    let mut random = Random::seeded(seed ^ size.bytes() as u64);
    let mut trial = Trial::new(Care::WhenDue);
    let mut tally = Tally::default();
    while tally.calls() < frames {
        let generator = Generator::new(Random::seeded(random.word()), size.bytes());
        let length = 300 + random.below(600);
        series(&mut trial, generator, length, &mut tally)?;
    }
    Ok(tally)
}

/// One series on fresh memories, which are compared whole in the end; or its calls if the sides differ.
fn series(trial: &mut Trial, mut generator: Generator, length: u64, tally: &mut Tally) -> Result<(), Vec<Call>> {
    let mut calls = Vec::new();
    for _ in 0..length {
        let call = generator.call(trial.record(), trial.ledger());
        let outcome = tally.run(trial, &call);
        calls.push(call);
        if outcome.is_err() {
            return Err(calls);
        }
    }
    trial.reset().map_err(|_| calls)
}

/// What all months say of each account together: its total, the most for one operation in a month, and its number.
type Sums = [[u64; 3]; Ledger::ACCOUNTS];

/// Adds a month.
fn add(sums: &mut Sums, month: &Ledger) {
    for (account, [total, most, number]) in sums.iter_mut().enumerate() {
        *total += month.totals[account];
        *most = month.most[account].max(*most);
        *number += month.numbers[account];
    }
}

/// The same calls with and without closes: answers and records are the same, totals and numbers of the months add up, and no month's most is
/// above that of all.
#[test]
fn the_months_of_a_series_add_up() {
    let mut closes = [0; 2]; // on an idle and on a busy part
    for seed in 0..40 {
        let mut generator = Generator::new(Random::seeded(seed), Size::Small.bytes());
        let [mut months, mut whole] = [(); 2].map(|()| Trial::new(Care::WhenDue));
        let mut sums = [[0; 3]; Ledger::ACCOUNTS];
        for _ in 0..800 {
            let call = Call {
                record: None,
                ledger: None,
                ..generator.call(months.record(), months.ledger())
            };
            if call.close {
                closes[usize::from(months.record().busy > 0)] += 1;
                add(&mut sums, months.ledger());
            }
            let reply = months.run(&call).expect("the sides agree");
            let unbroken = Call { close: false, ..call };
            assert_eq!(whole.run(&unbroken).expect("the sides agree"), reply);
        }
        add(&mut sums, months.ledger());
        let all = whole.ledger();
        for (account, [total, most, number]) in sums.into_iter().enumerate() {
            assert_eq!((total, number), (all.totals[account], all.numbers[account]), "account {account}");
            assert!(most <= all.most[account], "account {account}");
        }
    }
    assert!(closes.iter().all(|&closes| closes > 50), "{closes:?}");
}
