//! Cutting a failing series down to what is needed for the failure.
use crate::call::{usual_durations, Call};
use oxterin::{Ledger, Mode, Record, Running};

/// The most rounds of a shrink: numbers that are tied to each other can go down by a little in each, and on and on.
const ROUNDS: usize = 20;

/// The smallest series found that still fails: calls dropped, inputs shortened, bytes zeroed, numbers reduced.
/// The series handed in has to fail.
#[must_use]
pub fn shrink(calls: Vec<Call>, fails: impl Fn(&[Call]) -> bool) -> Vec<Call> {
    let mut calls = calls;
    for _ in 0..ROUNDS {
        let before = calls.clone();
        drop_calls(&mut calls, &fails);
        for place in 0..calls.len() {
            plain_fields(&mut calls, place, &fails);
            shorter_input(&mut calls, place, &fails);
            zeroed_input(&mut calls, place, &fails);
            smaller_numbers(&mut calls, place, &fails);
        }
        if calls == before {
            break;
        }
    }
    calls
}

/// Drops runs of calls, long ones first.
fn drop_calls(calls: &mut Vec<Call>, fails: &impl Fn(&[Call]) -> bool) {
    let mut run = calls.len();
    while run > 0 {
        let mut end = calls.len();
        while end > 0 {
            let start = end.saturating_sub(run);
            let shorter = [&calls[..start], &calls[end..]].concat();
            if fails(&shorter) {
                *calls = shorter;
            }
            end = start;
        }
        run /= 2;
    }
}

/// Keeps a change of one call if the series still fails with it, and says whether it does.
fn keep(calls: &mut [Call], place: usize, fails: &impl Fn(&[Call]) -> bool, change: impl FnOnce(&mut Call)) -> bool {
    let before = calls[place].clone();
    change(&mut calls[place]);
    let kept = calls[place] != before && fails(calls);
    if !kept {
        calls[place] = before;
    }
    kept
}

/// Makes each unusual argument the usual one.
fn plain_fields(calls: &mut [Call], place: usize, fails: &impl Fn(&[Call]) -> bool) {
    let usual = Call::of(&calls[place].input);
    keep(calls, place, fails, |call| call.record = None);
    keep(calls, place, fails, |call| call.account = None);
    keep(calls, place, fails, |call| call.ledger = None);
    keep(calls, place, fails, |call| call.close = false);
    keep(calls, place, fails, |call| call.array = usual.array);
    keep(calls, place, fails, |call| call.register = usual.register);
    keep(calls, place, fails, |call| call.output = usual.output);
    for kind in 0..usual.durations.len() {
        keep(calls, place, fails, |call| call.durations[kind] = usual.durations[kind]);
    }
    keep(calls, place, fails, |call| call.bits = usual.bits);
    keep(calls, place, fails, |call| call.wp_high = true);
}

/// Cuts bytes off the input, many first.
fn shorter_input(calls: &mut [Call], place: usize, fails: &impl Fn(&[Call]) -> bool) {
    let mut cut = calls[place].input.len();
    while cut > 0 {
        while cut <= calls[place].input.len() && keep(calls, place, fails, |call| cut_off(call, cut)) {}
        cut /= 2;
    }
}

/// Takes the last bytes off an input, and off the bits and the output what belonged to them.
fn cut_off(call: &mut Call, cut: usize) {
    call.input.truncate(call.input.len() - cut);
    call.bits = call.bits.saturating_sub(8 * cut as u64);
    call.output = call.output.saturating_sub(cut);
}

/// Makes runs of input bytes 0, long ones first.
fn zeroed_input(calls: &mut [Call], place: usize, fails: &impl Fn(&[Call]) -> bool) {
    let length = calls[place].input.len();
    let mut run = length;
    while run > 0 {
        for start in (0..length).step_by(run) {
            let end = length.min(start + run);
            keep(calls, place, fails, |call| call.input[start..end].fill(0));
        }
        run /= 2;
    }
}

/// Makes the unusual numbers of a call 0, or else smaller.
fn smaller_numbers(calls: &mut [Call], place: usize, fails: &impl Fn(&[Call]) -> bool) {
    reduce(calls, place, fails, |call| Some(&mut call.elapsed));
    reduce(calls, place, fails, |call| Some(&mut call.ticks_per_byte));
    reduce(calls, place, fails, |call| {
        let usual = 8 * call.input.len() as u64;
        Some(&mut call.bits).filter(|bits| **bits != usual)
    });
    reduce(calls, place, fails, |call| call.record.as_mut().map(|record| &mut record.busy));
    for (kind, usual) in usual_durations().into_iter().enumerate() {
        reduce(calls, place, fails, |call| {
            Some(&mut call.durations[kind]).filter(|duration| **duration != usual)
        });
    }
    for clear in CLEAR {
        keep(calls, place, fails, |call| {
            if let Some(record) = &mut call.record {
                clear(record);
            }
        });
    }
    reduce(calls, place, fails, |call| call.account.as_mut());
    smaller_ledger(calls, place, fails);
}

/// Empties the ledger that a call hands over, part by part, or else makes its numbers smaller.
fn smaller_ledger(calls: &mut [Call], place: usize, fails: &impl Fn(&[Call]) -> bool) {
    keep(calls, place, fails, |call| {
        if let Some(ledger) = &mut call.ledger {
            ledger.running = Running::NOBODY;
        }
    });
    reduce(calls, place, fails, |call| Some(&mut call.ledger.as_mut()?.running.billed));
    for table in TABLES {
        keep(calls, place, fails, |call| {
            if let Some(ledger) = &mut call.ledger {
                table(ledger).fill(0);
            }
        });
        for account in 0..Ledger::ACCOUNTS {
            reduce(calls, place, fails, |call| Some(&mut table(call.ledger.as_mut()?)[account]));
        }
    }
}

/// The tables of a ledger.
const TABLES: [fn(&mut Ledger) -> &mut [u64; Ledger::ACCOUNTS]; 3] =
    [|ledger| &mut ledger.totals, |ledger| &mut ledger.most, |ledger| &mut ledger.numbers];

/// What makes a record plainer.
const CLEAR: [fn(&mut Record); 6] = [
    |record| record.bpl = false,
    |record| record.bp0 = false,
    |record| record.wel = false,
    |record| record.rste = false,
    |record| record.otp_used = false,
    |record| record.mode = Mode::Awake,
];

/// Takes as much off a number as will do, in steps that halve, beginning with the whole of it.
fn reduce(calls: &mut [Call], place: usize, fails: &impl Fn(&[Call]) -> bool, number: impl Fn(&mut Call) -> Option<&mut u64>) {
    let mut step = number(&mut calls[place]).map_or(0, |number| *number);
    while step > 0 {
        keep(calls, place, fails, |call| {
            if let Some(number) = number(call) {
                *number = number.saturating_sub(step);
            }
        });
        step /= 2;
    }
}

#[cfg(test)]
mod tests {
    use super::*;
    use crate::generator::Generator;
    use crate::ledger;
    use crate::random::Random;
    use std::cell::Cell;

    #[test]
    fn what_a_failure_needs_remains_and_nothing_else() {
        let mut generator = Generator::new(Random::seeded(3), 131_072);
        let record = Record::fresh(false, false, false);
        let mut calls: Vec<Call> = (0..300).map(|_| generator.call(&record)).collect();
        calls[100] = Call {
            elapsed: 1 << 40,
            ticks_per_byte: 1_000,
            wp_high: false,
            ..Call::of(&[0x02, 1, 2, 3, 4, 5, 6])
        };
        calls[200] = Call {
            bits: 31,
            ticks_per_byte: u64::MAX,
            record: Some(Record { busy: 99, ..record }),
            ..Call::of(&[0x20, 0x77, 0x77, 0x77])
        };
        let shrunk = shrink(calls, |calls| {
            let program = calls.iter().position(|call| call.opcode() == Some(0x02) && call.elapsed >= 1_000);
            let erase = calls
                .iter()
                .rposition(|call| call.opcode() == Some(0x20) && call.bits % 8 > 2 && call.ticks_per_byte >= 7);
            program.zip(erase).is_some_and(|(program, erase)| program < erase)
        });
        let program = Call {
            elapsed: 1_000,
            ..Call::of(&[0x02])
        };
        let erase = Call {
            bits: 3,
            ticks_per_byte: 7,
            ..Call::of(&[0x20])
        };
        assert_eq!(shrunk, [program, erase]);
    }

    #[test]
    fn of_a_ledger_only_what_a_failure_needs_remains() {
        let mut generator = ledger::Generator::new(Random::seeded(4), 65_536);
        let record = Record::fresh(false, false, false);
        let mut calls: Vec<Call> = (0..50).map(|_| generator.call(&record, &Ledger::empty())).collect();
        let mut handed = Ledger {
            totals: [77; Ledger::ACCOUNTS],
            most: [78; Ledger::ACCOUNTS],
            numbers: [79; Ledger::ACCOUNTS],
            running: Running {
                account: 5,
                billed: 1 << 40,
            },
        };
        handed.most[9] = u64::MAX;
        calls[30].account = Some(255);
        calls[30].ledger = Some(Box::new(handed));
        let shrunk = shrink(calls, |calls| {
            let needed = |ledger: &Ledger| ledger.most[9] >= 1_000 && ledger.running.billed >= 20;
            calls
                .iter()
                .any(|call| call.account >= Some(7) && call.ledger.as_deref().is_some_and(needed))
        });
        let mut left = Ledger::empty();
        left.most[9] = 1_000;
        left.running = Running { account: 5, billed: 20 };
        let call = Call {
            account: Some(7),
            ledger: Some(Box::new(left)),
            ..Call::of(&[])
        };
        assert_eq!(shrunk, [call]);
    }

    /// Busy that has to end inside a frame ties the ticks elapsed and the busy ticks: each keeps the other from going down far.
    #[test]
    fn numbers_that_are_tied_to_each_other_take_few_tries() {
        let poll = Call {
            elapsed: 50_000_000,
            record: Some(Record {
                busy: 50_000_003,
                ..Record::fresh(false, false, false)
            }),
            ..Call::of(&[0x05])
        };
        let is_tied = |calls: &[Call]| {
            let left = |call: &Call| call.record.map_or(0, |record| call.busy_at_first_bit(&record));
            calls.iter().any(|call| (2..6).contains(&left(call)))
        };
        let tries = Cell::new(0);
        let shrunk = shrink(vec![poll.clone()], |calls| {
            tries.set(tries.get() + 1);
            is_tied(calls)
        });
        assert!(is_tied(&shrunk));
        assert!(shrunk[0].elapsed < poll.elapsed);
        assert!(tries.get() < 10_000, "{}", tries.get());
    }
}
