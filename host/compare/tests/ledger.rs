//! Calls through a ledger by hand: what each account is billed, at and beside every tick and every limit; and that a refused call changes no
//! word of the ledger.
use compare::ledger::{LIMIT, REFUSAL};
use compare::{text, Call, Care, Reply, Trial};
use oxterin::{Ledger, Line, Record, Refusal, Running};

/// What each opcode that begins an operation needs behind it, and how long its operation typically takes.
const OPERATIONS: [(&[u8], u64); 11] = [
    (&[0x02, 0, 0, 0, 0x5A], 12),
    (&[0x02, 0, 0, 0, 0x5A, 0x5A], 2_000),
    (&[0x81, 0, 0, 0], 7_000),
    (&[0x20, 0, 0, 0], 50_000),
    (&[0x52, 0, 0, 0], 400_000),
    (&[0xD8, 0, 0, 0], 400_000),
    (&[0x60], 1_600_000),
    (&[0x62], 1_600_000),
    (&[0xC7], 1_600_000),
    (&[0x9B, 0, 0, 0, 0x5A], 400),
    (&[0x01, 0x00], 20_000),
];

/// Runs a call on all sides, which have to agree.
fn agreed(trial: &mut Trial, call: &Call) -> Reply {
    trial
        .run(call)
        .unwrap_or_else(|difference| panic!("{difference}\n{}", text::write(std::slice::from_ref(call))))
}

/// Runs the calls of these lines, which have to be accepted, and gives the last one's outcome.
fn run(trial: &mut Trial, lines: &str) -> &'static str {
    let calls = text::read(lines).unwrap_or_else(|wrong| panic!("{wrong}"));
    let mut outcome = "";
    for call in &calls {
        let reply = agreed(trial, call);
        assert_eq!(reply.refusal, 0, "{call:?}");
        outcome = reply.outcome;
    }
    outcome
}

/// A trial that has run these lines.
fn after(lines: &str) -> Trial {
    let mut trial = Trial::new(Care::Always);
    run(&mut trial, lines);
    trial
}

/// The ledger in which these accounts have these lines, total, most and number, and all others nothing.
fn ledger_of(lines: &[(usize, [u64; 3])], running: Running) -> Ledger {
    let mut ledger = Ledger {
        running,
        ..Ledger::empty()
    };
    for &(account, [total, most, number]) in lines {
        (ledger.totals[account], ledger.most[account], ledger.numbers[account]) = (total, most, number);
    }
    ledger
}

/// An operation of this account that was billed so much.
fn running(account: u64, billed: u64) -> Running {
    Running { account, billed }
}

/// A part that is ready to be programmed once these ticks have passed.
fn ready(busy: u64) -> Record {
    Record {
        wel: true,
        busy,
        ..Record::fresh(false, false, false)
    }
}

/// All bits of these bytes for an account, to a part with this record and this ledger.
fn handed(input: &[u8], account: u64, record: Record, ledger: &Ledger) -> Call {
    Call {
        record: Some(record),
        account: Some(account),
        ledger: Some(Box::new(ledger.clone())),
        ..Call::of(input)
    }
}

/// Who is billed.
mod bills {
    use super::*;

    #[test]
    fn busy_time_is_billed_to_the_account_whose_frame_began_it() {
        let mut trial = after("06 account=7\n20 00*3 account=7\n05 00*2 account=9 elapsed=30000");
        assert_eq!(trial.ledger(), &ledger_of(&[(7, [30_000, 30_000, 1])], running(7, 30_000)));
        run(&mut trial, "03 00*4 account=0 elapsed=19999\n05 00*2 account=255");
        assert_eq!(trial.ledger(), &ledger_of(&[(7, [49_999, 49_999, 1])], running(7, 49_999)));
        run(&mut trial, "05 00*2 account=9 elapsed=70000");
        assert_eq!(trial.ledger(), &ledger_of(&[(7, [50_000, 50_000, 1])], Running::NOBODY));
    }

    #[test]
    fn the_ticks_of_a_frame_are_billed_too_and_a_partial_byte_is_a_position() {
        let mut trial = after("06 account=7\n20 00*3 account=7");
        run(&mut trial, "05 00*4 account=9 ticks-per-byte=8");
        assert_eq!(trial.ledger(), &ledger_of(&[(7, [40, 40, 1])], running(7, 40)));
        run(&mut trial, "05 00*2 bits=17 elapsed=2 account=9 ticks-per-byte=1000");
        assert_eq!(trial.ledger(), &ledger_of(&[(7, [3_042, 3_042, 1])], running(7, 3_042)));
        run(&mut trial, "- account=9 elapsed=3 ticks-per-byte=1000");
        assert_eq!(trial.ledger(), &ledger_of(&[(7, [3_045, 3_045, 1])], running(7, 3_045)));
    }

    #[test]
    fn an_operation_is_not_billed_for_the_frame_that_begins_it() {
        let trial = after("06 account=7\n20 00*3 account=7 elapsed=18446744073709551615 ticks-per-byte=1000");
        assert_eq!(trial.ledger(), &ledger_of(&[(7, [0, 0, 1])], running(7, 0)));
    }

    #[test]
    fn the_write_enable_is_not_what_counts() {
        let trial = after("06 account=3\n20 00*3 account=7\n05 00 account=3 elapsed=5");
        assert_eq!(trial.ledger(), &ledger_of(&[(7, [5, 5, 1])], running(7, 5)));
    }

    #[test]
    fn the_ticks_left_in_the_first_record_are_nobodys() {
        let mut trial = after("05 00 account=7 elapsed=60 record=0,0,1,0,0,0,100");
        assert_eq!(trial.ledger(), &Ledger::empty());
        run(&mut trial, "20 00*3 account=7 elapsed=40\n05 00 account=8 elapsed=1");
        assert_eq!(trial.ledger(), &ledger_of(&[(7, [1, 1, 1])], running(7, 1)));
    }

    #[test]
    fn the_total_adds_up_and_the_most_is_of_one_operation() {
        let mut trial = after("06 account=7\n20 00*3 account=7\n05 00 account=7 elapsed=50000");
        run(&mut trial, "06 account=7\n02 00*4 account=7\n05 00 account=7 elapsed=50000");
        assert_eq!(trial.ledger(), &ledger_of(&[(7, [50_012, 50_000, 2])], Running::NOBODY));
        run(&mut trial, "06 account=7\n52 00*3 account=7\n05 00 account=7 elapsed=50001");
        assert_eq!(trial.ledger(), &ledger_of(&[(7, [100_013, 50_001, 3])], running(7, 50_001)));
    }

    #[test]
    fn each_account_has_its_own_operations() {
        let series = |account: usize| {
            format!(
                "06 account=0\n81 00*3 account={account}\n05 00 account=0 elapsed={}\n",
                7_000 + account
            )
        };
        let lines: String = (0..256).map(series).collect();
        let all: Vec<(usize, [u64; 3])> = (0..256).map(|account| (account, [7_000, 7_000, 1])).collect();
        assert_eq!(after(&lines).ledger(), &ledger_of(&all, Running::NOBODY));
    }

    #[test]
    fn every_kind_of_operation_is_billed_its_duration() {
        for (input, duration) in OPERATIONS {
            for (elapsed, billed) in [(duration - 1, duration - 1), (duration, duration), (duration + 1, duration)] {
                let mut trial = after("06 account=3");
                let begin = Call {
                    account: Some(3),
                    ..Call::of(input)
                };
                assert_eq!(agreed(&mut trial, &begin).outcome, "begun");
                run(&mut trial, &format!("05 00 account=4 elapsed={elapsed}"));
                let runs = if billed < duration { running(3, billed) } else { Running::NOBODY };
                assert_eq!(trial.ledger(), &ledger_of(&[(3, [billed, billed, 1])], runs), "{input:02X?}");
            }
        }
    }

    #[test]
    fn what_does_not_begin_is_no_operation() {
        for (outcome, lines) in [
            ("nothing", "02 00*4 account=7"),
            ("nothing", "20 00*3 account=7 record=0,0,1,0,0,0,5"),
            ("read", "05 00 account=7"),
            ("control", "06 account=7"),
            ("control", "31 10 account=7 record=0,0,1,0,0,0,0"),
            ("control", "F0 D0 account=7 record=0,0,1,1,0,0,0"),
            ("control", "B9 account=7"),
            ("aborted", "02 00*4 bits=39 account=7 record=0,0,1,0,0,0,0"),
            ("aborted", "20 00*3 account=7 record=0,1,1,0,0,0,0"),
            ("aborted", "01 00 account=7 wp=0 record=1,1,1,0,0,0,0"),
        ] {
            let mut trial = Trial::new(Care::Always);
            assert_eq!(run(&mut trial, lines), outcome, "{lines}");
            assert_eq!(trial.ledger(), &Ledger::empty(), "{lines}");
        }
    }

    #[test]
    fn one_operation_can_end_in_the_frame_that_begins_another() {
        let ledger = ledger_of(&[(3, [7, 7, 1])], running(3, 7));
        for (account, lines) in [(8, &[(3, [12, 12, 1]), (8, [0, 0, 1])][..]), (3, &[(3, [12, 12, 2])])] {
            let mut trial = Trial::new(Care::Always);
            let call = Call {
                elapsed: 60,
                ticks_per_byte: 9,
                ..handed(&[0x20, 0, 0, 0], account, ready(5), &ledger)
            };
            assert_eq!(agreed(&mut trial, &call).outcome, "begun");
            assert_eq!(trial.ledger(), &ledger_of(lines, running(account, 0)));
        }
    }
}

/// Operations that a reset stops.
mod resets {
    use super::*;

    /// An erase by account 7, the reset being enabled through 31h.
    const ERASE: &str = "06 account=1\n31 10 account=1\n06 account=1\n20 00*3 account=7\n";

    #[test]
    fn what_passed_to_the_end_of_the_reset_is_billed_and_no_more() {
        for (reset, billed) in [
            ("F0 D0 account=9", 0),
            ("F0 D0 account=9 elapsed=100", 100),
            ("F0 D0 account=9 elapsed=100 ticks-per-byte=3", 106),
            ("F0 D0 account=7 elapsed=49999", 49_999),
            ("F0 D0 account=9 elapsed=49999 ticks-per-byte=1", 50_000),
            ("F0 D0 account=9 elapsed=50000", 50_000),
            ("F0 D0 account=9 elapsed=18446744073709551615 ticks-per-byte=1000", 50_000),
        ] {
            let mut trial = after(ERASE);
            assert_eq!(run(&mut trial, reset), "control");
            assert_eq!(trial.record().busy, 0);
            assert_eq!(trial.ledger(), &ledger_of(&[(7, [billed, billed, 1])], Running::NOBODY), "{reset}");
            run(&mut trial, "05 00 account=9 elapsed=50000");
            assert_eq!(trial.ledger(), &ledger_of(&[(7, [billed, billed, 1])], Running::NOBODY), "{reset}");
        }
    }

    #[test]
    fn the_next_operation_is_billed_anew() {
        let mut trial = after(ERASE);
        run(
            &mut trial,
            "F0 D0 account=9 elapsed=100\n06 account=9\n02 00*4 account=9\n05 00 account=7 elapsed=11",
        );
        assert_eq!(trial.ledger(), &ledger_of(&[(7, [100, 100, 1]), (9, [11, 11, 1])], running(9, 11)));
    }

    #[test]
    fn a_reset_that_is_not_enabled_stops_nothing() {
        let mut trial = after("06 account=7\n20 00*3 account=7");
        assert_eq!(run(&mut trial, "F0 D0 account=9 elapsed=100 ticks-per-byte=3"), "nothing");
        assert_eq!(trial.ledger(), &ledger_of(&[(7, [106, 106, 1])], running(7, 106)));
    }

    #[test]
    fn every_kind_of_operation_can_be_stopped() {
        for (input, duration) in OPERATIONS {
            let mut trial = after("06 account=1\n31 10 account=1\n06 account=1");
            let begin = Call {
                account: Some(7),
                ..Call::of(input)
            };
            assert_eq!(agreed(&mut trial, &begin).outcome, "begun");
            let half = duration / 2;
            run(&mut trial, &format!("F0 D0 account=9 elapsed={half}"));
            assert_eq!(trial.record().busy, 0);
            assert_eq!(trial.ledger(), &ledger_of(&[(7, [half, half, 1])], Running::NOBODY), "{input:02X?}");
        }
    }
}

/// What comes off, at and beside every tick.
mod ticks {
    use super::*;

    #[test]
    fn the_lesser_of_the_busy_ticks_and_those_that_pass_is_billed() {
        let mut trial = Trial::new(Care::WhenDue);
        let ledger = ledger_of(&[(7, [5, 3, 2])], running(7, 1));
        for busy in [0, 1, 7, 8, 9, 15, 16, 17, 24, 60_000_000] {
            for elapsed in [0, 1, 7, 8, 9, 59_999_999, 60_000_000, u64::MAX - 15, u64::MAX - 1, u64::MAX] {
                for ticks_per_byte in [0, 1, 8, 1_000] {
                    for positions in 0..4u64 {
                        let call = Call {
                            elapsed,
                            ticks_per_byte,
                            bits: 8 * positions - positions.min(7),
                            ..handed(&[0x05, 0, 0][..positions as usize], 9, ready(busy), &ledger)
                        };
                        assert_eq!(agreed(&mut trial, &call).refusal, 0);
                        let passed = u128::from(elapsed) + u128::from(positions * ticks_per_byte);
                        let off = passed.min(busy.into()) as u64;
                        let runs = if off < busy { running(7, 1 + off) } else { Running::NOBODY };
                        let expected = ledger_of(&[(7, [5 + off, 3.max(1 + off), 2])], runs);
                        assert_eq!(trial.ledger(), &expected, "{busy} {elapsed} {ticks_per_byte} {positions}");
                    }
                }
            }
        }
    }
}

/// Months that are closed.
mod months {
    use super::*;

    /// Account 7's erase takes 50,000 ticks: 20,000 pass in the first month, 1 in the second, none in the third, and the others later.
    #[test]
    fn an_operation_is_billed_in_each_month_for_its_ticks_there() {
        let mut trial = after("06 account=7\n20 00*3 account=7\n05 00 account=9 elapsed=20000");
        run(&mut trial, "05 00 account=9 elapsed=1 close=1");
        assert_eq!(trial.ledger(), &ledger_of(&[(7, [1, 1, 0])], running(7, 1)));
        run(&mut trial, "05 00 account=9 close=1");
        assert_eq!(trial.ledger(), &ledger_of(&[], running(7, 0)));
        run(&mut trial, "05 00 account=9 elapsed=29998 close=1");
        assert_eq!(trial.ledger(), &ledger_of(&[(7, [29_998, 29_998, 0])], running(7, 29_998)));
        run(&mut trial, "06 account=9 elapsed=7\n02 00*4 account=9");
        assert_eq!(
            trial.ledger(),
            &ledger_of(&[(7, [29_999, 29_999, 0]), (9, [0, 0, 1])], running(9, 0))
        );
        run(&mut trial, "05 00 account=7 elapsed=100 close=1");
        assert_eq!(trial.ledger(), &ledger_of(&[(9, [12, 12, 0])], Running::NOBODY));
    }

    /// Of the new month's most an operation's ticks in the old one are no part, and a shorter one may have more.
    #[test]
    fn the_most_is_of_the_ticks_of_the_month() {
        let mut trial = after("06 account=7\n20 00*3 account=7\n05 00 account=7 elapsed=49990");
        run(
            &mut trial,
            "06 account=7 elapsed=10 close=1\n02 00*4 account=7\n05 00 account=7 elapsed=12",
        );
        assert_eq!(trial.ledger(), &ledger_of(&[(7, [22, 12, 1])], Running::NOBODY));
    }

    /// A reset after the close bills the new month's ticks alone.
    #[test]
    fn what_a_reset_stops_was_billed_before_it() {
        let mut trial = after("06 account=1\n31 10 account=1\n06 account=1\n20 00*3 account=7\n05 00 account=7 elapsed=100");
        assert_eq!(run(&mut trial, "F0 D0 account=9 elapsed=5 close=1"), "control");
        assert_eq!(trial.ledger(), &ledger_of(&[(7, [5, 5, 0])], Running::NOBODY));
    }

    /// Whatever a ledger holds, and whether the frame after it is accepted or not.
    #[test]
    fn every_ledger_can_be_closed() {
        let table = |first: u64| std::array::from_fn(|account| first - 3 * account as u64);
        for account in [0, 7, 255, 256, 300, u64::MAX] {
            let ledger = Ledger {
                totals: table(u64::MAX),
                most: table(u64::MAX / 2),
                numbers: table(u64::MAX - 1),
                running: running(account, u64::MAX),
            };
            for (caller, refusal) in [(9, 0), (256, REFUSAL)] {
                let mut trial = Trial::new(Care::Always);
                let call = Call {
                    close: true,
                    ..handed(&[0x05, 0], caller, ready(30), &ledger)
                };
                assert_eq!(agreed(&mut trial, &call).refusal, refusal);
                assert_eq!(trial.ledger(), &ledger_of(&[], running(account, 0)), "{account} {caller}");
            }
        }
    }
}

/// Ledgers that no series could have left.
mod hostile {
    use super::*;

    /// What a ledger becomes when 10 of 30 busy ticks pass, and when all do.
    fn polled(ledger: &Ledger) -> [Ledger; 2] {
        [10, 30].map(|elapsed| {
            let mut trial = Trial::new(Care::Always);
            let call = Call {
                elapsed,
                ..handed(&[0x05, 0], 9, ready(30), ledger)
            };
            assert_eq!(agreed(&mut trial, &call).refusal, 0);
            trial.ledger().clone()
        })
    }

    #[test]
    fn an_account_over_255_is_nobody() {
        for account in [256, 257, 300, 1 << 32, (1 << 32) + 7, 1 << 63, u64::MAX] {
            for billed in [0, 5, u64::MAX] {
                let lines = [(7, [1, 2, 3]), (44, [4, 5, 6])];
                let ledger = ledger_of(&lines, running(account, billed));
                let ended = ledger_of(&lines, Running::NOBODY);
                assert_eq!(polled(&ledger), [ledger, ended]);
            }
        }
    }

    #[test]
    fn account_255_is_the_last() {
        let ledger = ledger_of(&[(255, [1, 2, 3])], running(255, 4));
        let expected = [(11, 14, running(255, 14)), (31, 34, Running::NOBODY)];
        assert_eq!(
            polled(&ledger),
            expected.map(|(total, most, runs)| ledger_of(&[(255, [total, most, 3])], runs))
        );
    }

    #[test]
    fn what_was_billed_stops_at_the_largest_number() {
        for (billed, after_10) in [
            (u64::MAX - 11, u64::MAX - 1),
            (u64::MAX - 10, u64::MAX),
            (u64::MAX - 9, u64::MAX),
            (u64::MAX, u64::MAX),
        ] {
            for most in [0, u64::MAX - 1, u64::MAX] {
                let ledger = ledger_of(&[(7, [1, most, 3])], running(7, billed));
                let expected = [
                    ledger_of(&[(7, [11, most.max(after_10), 3])], running(7, after_10)),
                    ledger_of(&[(7, [31, u64::MAX, 3])], Running::NOBODY),
                ];
                assert_eq!(polled(&ledger), expected, "{billed} {most}");
            }
        }
    }

    #[test]
    fn the_most_never_falls_and_takes_over_what_was_billed() {
        for (most, billed, expected) in [(50, 4, [50, 50]), (0, 90, [100, 120]), (100, 90, [100, 120]), (101, 90, [101, 120])] {
            let ledger = ledger_of(&[(7, [1, most, 3])], running(7, billed));
            let left = polled(&ledger).map(|ledger| ledger.most[7]);
            assert_eq!(left, expected, "{most} {billed}");
        }
    }

    #[test]
    fn a_running_part_of_an_idle_part_ends_with_nothing_billed() {
        let mut trial = Trial::new(Care::Always);
        let ledger = ledger_of(&[(7, [1, 2, 3])], running(7, 40));
        assert_eq!(agreed(&mut trial, &handed(&[0x05, 0], 9, ready(0), &ledger)).refusal, 0);
        assert_eq!(trial.ledger(), &ledger_of(&[(7, [1, 40, 3])], Running::NOBODY));
        let call = handed(&[0x20, 0, 0, 0], 9, ready(0), &ledger);
        assert_eq!(agreed(&mut trial, &call).outcome, "begun");
        assert_eq!(trial.ledger(), &ledger_of(&[(7, [1, 40, 3]), (9, [0, 0, 1])], running(9, 0)));
    }
}

/// Refusal 9, at and beside its limits, and that a refused call leaves every word as it was.
mod refusals {
    use super::*;

    /// A ledger in which no two words are alike, and an operation of account 7 runs.
    fn distinct() -> Ledger {
        let table = |first: u64| std::array::from_fn(|account| first + 3 * account as u64);
        Ledger {
            totals: table(1_000_000),
            most: table(2_000_000),
            numbers: table(3_000_000),
            running: running(7, 77),
        }
    }

    /// The number that a program for an account is answered with, given this ledger; a refused one has to leave it.
    fn number(trial: &mut Trial, account: u64, ledger: &Ledger) -> u64 {
        let call = Call {
            elapsed: 60,
            ..handed(&[0x02, 0, 0, 0, 0], account, ready(50), ledger)
        };
        let reply = agreed(trial, &call);
        if reply.refusal != 0 {
            assert_eq!(reply, Reply::refused(reply.refusal, &ready(50)));
            assert_eq!(trial.ledger(), ledger);
        }
        reply.refusal
    }

    #[test]
    fn an_account_over_255() {
        let mut trial = Trial::new(Care::WhenDue);
        for account in [0, 1, 7, 254, 255] {
            assert_eq!(number(&mut trial, account, &distinct()), 0, "{account}");
        }
        for account in [256, 257, 300, 511, 512, 1 << 32, (1 << 32) + 7, 1 << 63, u64::MAX - 255, u64::MAX] {
            assert_eq!(number(&mut trial, account, &distinct()), REFUSAL, "{account}");
        }
    }

    #[test]
    fn a_total_or_a_number_above_the_limit() {
        let mut trial = Trial::new(Care::WhenDue);
        let tables: [fn(&mut Ledger) -> &mut [u64; 256]; 2] = [|ledger| &mut ledger.totals, |ledger| &mut ledger.numbers];
        for table in tables {
            for account in 0..256 {
                for (word, refusal) in [
                    (LIMIT - 1, 0),
                    (LIMIT, 0),
                    (LIMIT + 1, REFUSAL),
                    (1 << 63, REFUSAL),
                    (u64::MAX, REFUSAL),
                ] {
                    let mut ledger = distinct();
                    table(&mut ledger)[account] = word;
                    assert_eq!(number(&mut trial, 9, &ledger), refusal, "account {account} with {word}");
                }
            }
        }
    }

    #[test]
    fn all_at_the_limit_are_accepted_once() {
        assert_eq!((Ledger::LIMIT, u64::from(Refusal::Account.number())), (LIMIT, REFUSAL));
        let mut trial = Trial::new(Care::Always);
        let ledger = Ledger {
            totals: [LIMIT; 256],
            most: [u64::MAX; 256],
            numbers: [LIMIT; 256],
            running: running(7, 0),
        };
        assert_eq!(number(&mut trial, 9, &ledger), 0);
        let mut expected = Ledger {
            running: running(9, 0),
            ..ledger
        };
        expected.totals[7] += 50;
        expected.numbers[9] += 1;
        assert_eq!(trial.ledger(), &expected);
        let next = Call {
            account: Some(9),
            elapsed: 5,
            ..Call::of(&[0x05, 0])
        };
        assert_eq!(agreed(&mut trial, &next).refusal, REFUSAL);
        assert_eq!(trial.ledger(), &expected);
    }

    #[test]
    fn neither_the_most_nor_the_running_part_is_refused() {
        let mut trial = Trial::new(Care::WhenDue);
        for word in [LIMIT + 1, u64::MAX] {
            let mut ledger = distinct();
            ledger.most = [word; 256];
            assert_eq!(number(&mut trial, 9, &ledger), 0);
            for account in [0, 255, 256, 300, u64::MAX] {
                ledger.running = running(account, word);
                assert_eq!(number(&mut trial, 9, &ledger), 0);
            }
        }
    }

    #[test]
    fn a_refused_call_leaves_every_word_and_its_ticks_do_not_pass() {
        let spoil: [fn(&mut Call); 9] = [
            |call| call.array = 65_537,
            |call| call.register = 127,
            |call| {
                *call = Call {
                    bits: 8 * 8_193,
                    input: vec![0; 8_193],
                    output: 8_193,
                    ..call.clone()
                }
            },
            |call| call.bits += 1,
            |call| call.output = 1,
            |call| call.record = Some(ready(60_000_001)),
            |call| call.durations[0] = 0,
            |call| call.ticks_per_byte = 1_001,
            |call| call.account = Some(256),
        ];
        for (place, spoil) in spoil.into_iter().enumerate() {
            let mut trial = Trial::new(Care::Always);
            for elapsed in [0, 20, 50, u64::MAX] {
                let mut call = Call {
                    elapsed,
                    ..handed(&[0x05, 0], 9, ready(50), &distinct())
                };
                spoil(&mut call);
                assert_eq!(agreed(&mut trial, &call).refusal, place as u64 + 1);
                assert_eq!(trial.ledger(), &distinct());
            }
            let accepted = Call {
                elapsed: 20,
                record: Some(ready(50)),
                account: Some(9),
                ..Call::of(&[0x05, 0])
            };
            assert_eq!(agreed(&mut trial, &accepted).refusal, 0);
            assert_eq!(trial.ledger().running, running(7, 97));
            assert_eq!(trial.ledger().totals[7], distinct().totals[7] + 20);
        }
    }

    #[test]
    fn every_account_has_its_line_and_no_other_number_has_one() {
        let ledger = distinct();
        for (account, line) in ledger.lines() {
            let place = usize::from(account);
            let expected = Line {
                total: ledger.totals[place],
                most: ledger.most[place],
                number: ledger.numbers[place],
            };
            assert_eq!((line, ledger.line(account.into())), (expected, Ok(expected)));
        }
        assert_eq!(
            ledger.lines().map(|(account, _)| account).collect::<Vec<u8>>(),
            (0..=255).collect::<Vec<u8>>()
        );
        for account in [256, 300, (1 << 32) + 7, u64::MAX] {
            assert_eq!(ledger.line(account), Err(Refusal::Account));
        }
        let full = Ledger {
            totals: [u64::MAX; 256],
            ..distinct()
        };
        assert_eq!(full.line(0).map(|line| line.total), Ok(u64::MAX));
    }
}
