//! Bills worked out by hand from the rules of request R-4.

use model::{Answer, Books, Outcome, Pins, Record, Running, Settings, Tables};

/// The largest total and number with which calls are accepted.
const LIMIT: u64 = 9_000_000_000_000_000_000;

/// What the output buffer holds before a call.
const UNTOUCHED: u8 = 0xA5;

/// A program of one byte, which takes 101 ticks.
const PROGRAM: &[u8] = &[0x02, 0x00, 0x00, 0x00, 0x55];

/// A page erase, which takes 303 ticks.
const PAGE_ERASE: &[u8] = &[0x81, 0x00, 0x00, 0x00];

/// A chip erase, which takes 606 ticks.
const CHIP_ERASE: &[u8] = &[0x60];

/// A program of the security register, which takes 707 ticks.
const OTP_PROGRAM: &[u8] = &[0x9B, 0x00, 0x00, 0x00, 0x55];

/// A write of status byte 1, which takes 808 ticks.
const STATUS_WRITE: &[u8] = &[0x01, 0x00];

/// A reset.
const RESET: &[u8] = &[0xF0, 0xD0];

/// A part with its books, and all that the next call is given.
#[derive(Clone)]
struct Bench {
    books: Books,
    record: Record,
    settings: Settings,
    array: Vec<u8>,
    register: Vec<u8>,
    input: Vec<u8>,
    pins: Pins,
    output: Vec<u8>,
}

impl Bench {
    /// A part with that many ticks left, on these books. Resets are enabled
    /// and frames take no time.
    fn open(tables: Tables, running: Running, busy: u64) -> Bench {
        let record = Record {
            rste: true,
            busy,
            ..Record::fresh(false, false, false)
        };
        Bench {
            books: Books::open(tables, running, &record),
            record,
            settings: Settings {
                durations: [101, 202, 303, 404, 505, 606, 707, 808],
            },
            array: vec![0xFF; 65_536],
            register: vec![0xFF; 128],
            input: Vec::new(),
            pins: Pins {
                bits: 0,
                wp_high: true,
                elapsed: 0,
                ticks_per_byte: 0,
            },
            output: Vec::new(),
        }
    }

    /// An idle part on empty books.
    fn empty() -> Bench {
        Bench::open(Tables::empty(), Running::NOBODY, 0)
    }

    /// A part on empty books but for its running operation.
    fn running(account: u64, billed: u64, busy: u64) -> Bench {
        Bench::open(Tables::empty(), Running { account, billed }, busy)
    }

    /// The same part, each byte position taking that many ticks.
    fn at_pace(mut self, ticks_per_byte: u64) -> Bench {
        self.pins.ticks_per_byte = ticks_per_byte;
        self
    }

    /// Readies a frame of whole bytes after some ticks.
    fn ready(&mut self, elapsed: u64, input: &[u8]) {
        self.input = input.to_vec();
        self.output = vec![UNTOUCHED; input.len()];
        self.pins.bits = 8 * input.len() as u64;
        self.pins.elapsed = elapsed;
    }

    /// Makes the call that is ready.
    fn call(&mut self, account: u64) -> Answer {
        self.books.frame(
            self.record,
            &self.settings,
            &mut self.array,
            &mut self.register,
            &self.input,
            self.pins,
            &mut self.output,
            account,
        )
    }

    /// Makes the call that is ready and must be accepted; the record follows.
    fn accepts(&mut self, account: u64) -> Outcome {
        let answer = self.call(account);
        assert_eq!(answer.refusal, 0);
        self.record = answer.record;
        answer.outcome
    }

    /// Sends whole bytes after some ticks.
    fn send(&mut self, account: u64, elapsed: u64, input: &[u8]) -> Outcome {
        self.ready(elapsed, input);
        self.accepts(account)
    }

    /// Sends a frame without a bit after some ticks.
    fn wait(&mut self, account: u64, elapsed: u64) {
        assert_eq!(self.send(account, elapsed, &[]), Outcome::Nothing);
    }

    /// Begins an operation after some ticks, the latch being set.
    fn begin(&mut self, account: u64, elapsed: u64, input: &[u8]) {
        self.record.wel = true;
        assert_eq!(self.send(account, elapsed, input), Outcome::Begun);
    }

    /// A poll of 1 tick, spoilt in some way, is refused with that number and
    /// changes nothing.
    fn refuses(&mut self, account: u64, number: u8, spoil: impl FnOnce(&mut Bench)) {
        let mut spoilt = self.clone();
        spoilt.ready(1, &[0x05, 0x00]);
        spoil(&mut spoilt);
        let before = spoilt.clone();
        let refused = Answer {
            refusal: number,
            outcome: Outcome::Nothing,
            cause: None,
            first: 0,
            driven: 0,
            record: before.record,
        };
        assert_eq!(spoilt.call(account), refused);
        assert!(spoilt.array == before.array && spoilt.register == before.register);
        assert_eq!(spoilt.output, before.output);
        assert_eq!(spoilt.books.tables(), before.books.tables());
        assert_eq!(spoilt.books.running(), before.books.running());
        self.books = spoilt.books;
    }

    /// These accounts have that total, most and number, and no others any.
    fn owes(&self, lines: &[(usize, [u64; 3])]) {
        assert_eq!(self.books.tables(), of_lines(lines));
    }

    /// Closes a month in which these accounts have that, and no others any.
    /// Afterwards none has.
    fn closes(&mut self, lines: &[(usize, [u64; 3])]) {
        assert_eq!(self.books.close(), of_lines(lines));
        self.owes(&[]);
    }

    /// An operation of this account runs, billed that much so far.
    fn runs(&self, account: u64, billed: u64) {
        assert_eq!(self.books.running(), Running { account, billed });
    }

    /// Nobody's operation runs.
    fn rests(&self) {
        self.runs(256, 0);
    }
}

/// Tables in which these accounts have that total, most and number.
fn of_lines(lines: &[(usize, [u64; 3])]) -> Tables {
    tables(|tables| {
        for &(account, [total, most, number]) in lines {
            tables.totals[account] = total;
            tables.most[account] = most;
            tables.numbers[account] = number;
        }
    })
}

/// Tables that an adjustment has made of the empty ones.
fn tables(adjust: impl FnOnce(&mut Tables)) -> Tables {
    let mut tables = Tables::empty();
    adjust(&mut tables);
    tables
}

#[test]
fn an_operation_handed_over_stays_with_who_began_it() {
    // 3 erases a page. 100 of the 303 ticks pass, then 5 takes over: 203 are
    // left, and of 5's 250 ticks no more than these are 3's.
    let mut bench = Bench::empty();
    bench.begin(3, 0, PAGE_ERASE);
    bench.wait(3, 100);
    bench.owes(&[(3, [100, 100, 1])]);
    bench.runs(3, 100);
    bench.wait(5, 250);
    bench.owes(&[(3, [303, 303, 1])]);
    bench.rests();
}

#[test]
fn polls_by_others_cost_them_nothing() {
    // A poll of 3 positions at 2 ticks, 10 ticks after the last: 16 each.
    let mut bench = Bench::empty().at_pace(2);
    bench.begin(9, 0, CHIP_ERASE);
    for (poller, billed) in [(0, 16), (255, 32), (10, 48)] {
        assert_eq!(bench.send(poller, 10, &[0x05, 0x00, 0x00]), Outcome::Read);
        bench.owes(&[(9, [billed, billed, 1])]);
        bench.runs(9, billed);
    }
}

#[test]
fn an_operation_is_not_billed_for_the_frame_that_begins_it() {
    // The 1,000 ticks before the frame and its own 4 * 9 are nobody's. Then
    // one position after 1 tick: 1 + 9.
    let mut bench = Bench::empty().at_pace(9);
    bench.begin(2, 1_000, PAGE_ERASE);
    bench.owes(&[(2, [0, 0, 1])]);
    bench.runs(2, 0);
    bench.send(2, 1, &[0x05]);
    bench.owes(&[(2, [10, 10, 1])]);
    bench.runs(2, 10);
}

#[test]
fn a_frame_that_begins_bills_the_end_of_the_operation_before() {
    // Of 1's 101 ticks 40 pass; the other 61 pass before 2's frame.
    let mut bench = Bench::empty();
    bench.begin(1, 0, PROGRAM);
    bench.wait(2, 40);
    bench.begin(2, 61, CHIP_ERASE);
    bench.owes(&[(1, [101, 101, 1]), (2, [0, 0, 1])]);
    bench.runs(2, 0);
    bench.wait(1, 30);
    bench.owes(&[(1, [101, 101, 1]), (2, [30, 30, 1])]);
    bench.runs(2, 30);
}

#[test]
fn a_frame_a_tick_too_early_begins_nothing() {
    // 1 has one tick left when 2's frame comes. The part does not hear 2, and
    // the tick passes in the frame.
    let mut bench = Bench::empty().at_pace(5);
    bench.begin(1, 0, PROGRAM);
    bench.record.wel = true;
    assert_eq!(bench.send(2, 100, CHIP_ERASE), Outcome::Nothing);
    bench.owes(&[(1, [101, 101, 1])]);
    bench.rests();
}

#[test]
fn a_reset_bills_its_own_ticks_to_what_it_stops() {
    // 40 ticks before the reset and 2 positions at 5 in it: 50 of 606. The
    // 1,000 ticks after it are nobody's.
    let mut bench = Bench::empty().at_pace(5);
    bench.begin(1, 0, CHIP_ERASE);
    assert_eq!(bench.send(2, 40, RESET), Outcome::Control);
    bench.owes(&[(1, [50, 50, 1])]);
    bench.rests();
    bench.wait(1, 1_000);
    bench.send(1, 0, RESET);
    bench.owes(&[(1, [50, 50, 1])]);
    bench.rests();
}

#[test]
fn a_reset_bills_no_more_than_the_duration() {
    // 95 before it and 2 * 5 in it are 105; the program takes 101.
    let mut bench = Bench::empty().at_pace(5);
    bench.begin(1, 0, PROGRAM);
    assert_eq!(bench.send(1, 95, RESET), Outcome::Control);
    bench.owes(&[(1, [101, 101, 1])]);
    bench.rests();
}

#[test]
fn a_reset_cut_short_stops_nothing() {
    // 15 bits are 2 positions, at 7 ticks each: 14. Then 6 more.
    let mut bench = Bench::empty().at_pace(7);
    bench.begin(1, 0, CHIP_ERASE);
    bench.ready(0, RESET);
    bench.pins.bits = 15;
    assert_eq!(bench.accepts(2), Outcome::Nothing);
    bench.runs(1, 14);
    bench.wait(2, 6);
    bench.owes(&[(1, [20, 20, 1])]);
    bench.runs(1, 20);
}

#[test]
fn ticks_left_in_the_first_record_belong_to_nobody() {
    // 500 ticks are left. 200 pass, then the other 300 before 4's program,
    // which is billed 50.
    let mut bench = Bench::running(256, 0, 500);
    bench.wait(4, 200);
    bench.owes(&[]);
    bench.rests();
    bench.begin(4, 300, PROGRAM);
    bench.owes(&[(4, [0, 0, 1])]);
    bench.wait(4, 50);
    bench.owes(&[(4, [50, 50, 1])]);
    bench.runs(4, 50);
}

#[test]
fn a_reset_of_what_the_first_record_runs_bills_nobody() {
    let mut bench = Bench::running(256, 0, 500);
    bench.send(4, 200, RESET);
    bench.owes(&[]);
    bench.rests();
}

#[test]
fn refused_calls_pass_no_ticks() {
    // 100 ticks pass in accepted calls; each refused poll's 1 tick does not.
    // 303 - 100 = 203 more end the erase.
    let mut bench = Bench::empty();
    bench.begin(3, 0, PAGE_ERASE);
    bench.wait(5, 60);
    for refused in [256, u64::MAX] {
        bench.refuses(refused, 9, |_| ());
    }
    bench.wait(5, 40);
    bench.refuses(5, 4, |call| call.pins.bits = 0);
    bench.refuses(5, 8, |call| call.pins.ticks_per_byte = 1_001);
    bench.owes(&[(3, [100, 100, 1])]);
    bench.runs(3, 100);
    bench.wait(5, 203);
    bench.owes(&[(3, [303, 303, 1])]);
    bench.rests();
}

#[test]
fn the_other_refusals_come_before_the_account() {
    let mut bench = Bench::empty();
    bench.begin(3, 0, PAGE_ERASE);
    for account in [3, 256] {
        bench.refuses(account, 1, |call| call.array.truncate(65_535));
        bench.refuses(account, 2, |call| call.register.truncate(127));
        bench.refuses(account, 3, |call| call.ready(1, &[0x05; 8_193]));
        bench.refuses(account, 4, |call| call.pins.bits = 17);
        bench.refuses(account, 5, |call| call.output.truncate(1));
        bench.refuses(account, 6, |call| call.record.busy = 60_000_001);
        bench.refuses(account, 7, |call| call.settings.durations[7] = 0);
        bench.refuses(account, 8, |call| call.pins.ticks_per_byte = 1_001);
    }
    bench.owes(&[(3, [0, 0, 1])]);
    bench.runs(3, 0);
}

#[test]
fn a_status_write_and_a_register_program_begin() {
    // Of 8's 808 ticks 800 and 8 pass, and of 9's 707 ticks 700.
    let mut bench = Bench::empty();
    bench.begin(8, 0, STATUS_WRITE);
    bench.wait(9, 800);
    bench.runs(8, 800);
    bench.wait(9, 8);
    bench.rests();
    bench.begin(9, 0, OTP_PROGRAM);
    bench.wait(8, 700);
    bench.owes(&[(8, [808, 808, 1]), (9, [700, 700, 1])]);
    bench.runs(9, 700);
}

#[test]
fn programs_and_erases_begin() {
    // 101 + 202 + 303 + 404 + 2 * 505 + 3 * 606: 1,010 + 1,010 + 1,818.
    let mut bench = Bench::empty();
    bench.begin(6, 0, PROGRAM);
    bench.begin(6, 101, &[0x02, 0x00, 0x00, 0x00, 0x55, 0xAA]);
    bench.begin(6, 202, PAGE_ERASE);
    bench.begin(6, 303, &[0x20, 0x00, 0x00, 0x00]);
    bench.begin(6, 404, &[0x52, 0x00, 0x00, 0x00]);
    bench.begin(6, 505, &[0xD8, 0x00, 0x00, 0x00]);
    bench.begin(6, 505, CHIP_ERASE);
    bench.begin(6, 606, &[0x62]);
    bench.begin(6, 606, &[0xC7]);
    bench.wait(6, 606);
    bench.owes(&[(6, [3_838, 606, 9])]);
    bench.rests();
}

#[test]
fn control_commands_do_not_begin() {
    let mut bench = Bench::empty().at_pace(3);
    for input in [&[0x06][..], &[0x04], &[0x06], &[0x31, 0x10], RESET, &[0xB9], &[0xAB], &[0x79], &[]] {
        assert_eq!(bench.send(1, 20, input), Outcome::Control, "{input:02X?}");
        bench.owes(&[]);
        bench.rests();
    }
}

#[test]
fn other_outcomes_do_not_begin() {
    let mut bench = Bench::empty().at_pace(3);
    assert_eq!(bench.send(1, 20, &[0x03, 0x00, 0x00, 0x00, 0x00]), Outcome::Read);
    assert_eq!(bench.send(1, 20, PROGRAM), Outcome::Nothing);
    bench.record.wel = true;
    assert_eq!(bench.send(1, 20, &[0x02, 0x00, 0x00]), Outcome::Aborted);
    bench.owes(&[]);
    bench.rests();
}

#[test]
fn the_most_is_the_larger_of_two_operations() {
    // 4 erases a page (303), then programs (101): 404 in all, 303 at most.
    // Its chip erase is stopped after 350 of 606 ticks: 754 in all.
    let mut bench = Bench::empty();
    bench.begin(4, 0, PAGE_ERASE);
    bench.wait(4, 303);
    bench.begin(4, 0, PROGRAM);
    bench.wait(4, 101);
    bench.owes(&[(4, [404, 303, 2])]);
    bench.begin(4, 0, CHIP_ERASE);
    bench.wait(4, 300);
    bench.owes(&[(4, [704, 303, 3])]);
    bench.send(4, 50, RESET);
    bench.owes(&[(4, [754, 350, 3])]);
}

#[test]
fn a_total_may_be_at_the_limit_but_not_above() {
    for account in [0, 128, 255] {
        let at = tables(|tables| tables.totals[account] = LIMIT);
        let mut bench = Bench::open(at, Running::NOBODY, 0);
        bench.begin(7, 0, PROGRAM);

        let above = tables(|tables| tables.totals[account] = LIMIT + 1);
        Bench::open(above, Running::NOBODY, 0).refuses(7, 9, |_| ());
    }
}

#[test]
fn a_number_may_be_at_the_limit_but_not_above() {
    // At the limit an operation still begins; the number is then 1 above.
    for account in [0, 128, 255] {
        let at = tables(|tables| tables.numbers[account] = LIMIT);
        let mut bench = Bench::open(at, Running::NOBODY, 0);
        bench.begin(account as u64, 0, PROGRAM);
        bench.owes(&[(account, [0, 0, LIMIT + 1])]);
        bench.refuses(7, 9, |_| ());
    }
}

#[test]
fn a_total_passes_the_limit_in_the_last_call_accepted() {
    // From 1 below the limit, 1 tick goes up to it and 60 more go past it.
    let near = tables(|tables| tables.totals[7] = LIMIT - 1);
    let running = Running { account: 7, billed: 0 };
    let mut bench = Bench::open(near, running, 100);
    bench.wait(3, 1);
    bench.wait(3, 60);
    bench.owes(&[(7, [LIMIT + 60, 61, 0])]);
    bench.runs(7, 61);
    bench.refuses(3, 9, |_| ());
    bench.refuses(7, 9, |_| ());
}

#[test]
fn the_most_and_the_running_part_refuse_nothing() {
    let high = tables(|tables| tables.most = [u64::MAX; 256]);
    let running = Running {
        account: u64::MAX,
        billed: u64::MAX,
    };
    let mut bench = Bench::open(high.clone(), running, 50);
    bench.wait(0, 20);
    bench.runs(u64::MAX, u64::MAX);
    bench.wait(0, 30);
    bench.rests();
    assert_eq!(bench.books.tables(), high);
}

#[test]
fn the_last_account_is_255() {
    let mut bench = Bench::empty();
    bench.begin(255, 0, PROGRAM);
    for account in [256, 256 + 255, 1 << 32, 1 << 63, u64::MAX] {
        bench.refuses(account, 9, |_| ());
    }
    bench.wait(0, 7);
    bench.owes(&[(255, [7, 7, 1])]);
}

#[test]
fn time_runs_on_past_64_bits() {
    // 2^64 - 1 ticks and one position of 100 pass 64 bits: all of 303 is
    // billed. After as many again, 3 ticks and a position of 100 are.
    let mut bench = Bench::empty().at_pace(100);
    bench.begin(1, 0, PAGE_ERASE);
    bench.send(2, u64::MAX, &[0x05]);
    bench.owes(&[(1, [303, 303, 1])]);
    bench.begin(1, u64::MAX, PAGE_ERASE);
    bench.send(2, 3, &[0x05]);
    bench.owes(&[(1, [406, 303, 2])]);
    bench.runs(1, 103);
}

#[test]
fn what_is_billed_stops_at_64_bits() {
    // 10 below the end 60 ticks pass, and then 40: the total is their sum.
    let mut bench = Bench::running(7, u64::MAX - 10, 100);
    bench.wait(3, 60);
    bench.owes(&[(7, [60, u64::MAX, 0])]);
    bench.runs(7, u64::MAX);
    bench.wait(3, 40);
    bench.owes(&[(7, [100, u64::MAX, 0])]);
    bench.rests();
}

#[test]
fn a_call_raises_the_most_even_if_no_tick_comes_off() {
    // The ledger says 50 billed and 20 at most, and the part is idle.
    let odd = tables(|tables| tables.most[7] = 20);
    let running = Running { account: 7, billed: 50 };
    let mut bench = Bench::open(odd, running, 0);
    bench.refuses(256, 9, |_| ());
    bench.owes(&[(7, [0, 20, 0])]);
    bench.runs(7, 50);

    let mut other = bench.clone();
    other.wait(3, 5);
    other.owes(&[(7, [0, 50, 0])]);
    other.rests();

    bench.begin(3, 5, PROGRAM);
    bench.owes(&[(3, [0, 0, 1]), (7, [0, 50, 0])]);
    bench.runs(3, 0);
}

#[test]
fn what_was_billed_before_counts_for_the_most_only() {
    // 50 were billed before, 10 come off: 60 for one operation, below the 65
    // that were the most. With 10 more it is 70.
    let before = tables(|tables| tables.most[7] = 65);
    let running = Running { account: 7, billed: 50 };
    let mut bench = Bench::open(before, running, 90);
    bench.wait(7, 10);
    bench.owes(&[(7, [10, 65, 0])]);
    bench.runs(7, 60);
    bench.send(7, 10, RESET);
    bench.owes(&[(7, [20, 70, 0])]);
    bench.rests();
}

#[test]
fn a_running_part_of_no_account_stays_until_it_is_over() {
    // Of 40 ticks 15 pass, then 25. Or a reset or a program ends them.
    let mut bench = Bench::running(300, 77, 40);
    bench.wait(44, 15);
    bench.owes(&[]);
    bench.runs(300, 77);

    let mut stopped = bench.clone();
    stopped.send(44, 1, RESET);
    stopped.owes(&[]);
    stopped.rests();

    let mut followed = bench.clone();
    followed.begin(44, 25, PROGRAM);
    followed.owes(&[(44, [0, 0, 1])]);
    followed.runs(44, 0);

    bench.wait(44, 25);
    bench.owes(&[]);
    bench.rests();
}

#[test]
fn books_follow_a_record_that_is_not_the_last() {
    // 100 of 303 ticks are billed. With 20 ticks left, 20 of 50 come off;
    // with 1,000 left, 600 of 600; with none left, none of 50.
    let mut bench = Bench::empty();
    bench.begin(3, 0, PAGE_ERASE);
    bench.wait(5, 100);

    let mut fewer = bench.clone();
    fewer.record.busy = 20;
    fewer.wait(5, 50);
    fewer.owes(&[(3, [120, 120, 1])]);
    fewer.rests();

    let mut more = bench.clone();
    more.record.busy = 1_000;
    more.wait(5, 600);
    more.owes(&[(3, [700, 700, 1])]);
    more.runs(3, 700);

    bench.record.busy = 0;
    bench.wait(5, 50);
    bench.owes(&[(3, [100, 100, 1])]);
    bench.rests();
}

#[test]
fn ticks_that_come_from_nowhere_belong_to_nobody() {
    // 3's program is over, billed 101, when a record with 500 ticks is given.
    let mut bench = Bench::empty();
    bench.begin(3, 0, PROGRAM);
    bench.wait(3, 101);
    bench.record.busy = 500;
    bench.wait(3, 200);
    bench.owes(&[(3, [101, 101, 1])]);
    bench.rests();
}

#[test]
fn a_refused_record_is_not_followed() {
    // 100 of 303 are billed. Whatever is left in refused records, 203 are to
    // come.
    let mut bench = Bench::empty();
    bench.begin(3, 0, PAGE_ERASE);
    bench.wait(5, 100);
    bench.refuses(5, 6, |call| call.record.busy = u64::MAX);
    bench.refuses(256, 9, |call| call.record.busy = 5);
    bench.runs(3, 100);
    bench.wait(5, 202);
    bench.runs(3, 302);
    bench.wait(5, 202);
    bench.owes(&[(3, [303, 303, 1])]);
    bench.rests();
}

#[test]
fn any_ledger_opens_as_it_is() {
    let full = Tables {
        totals: [u64::MAX; 256],
        most: [u64::MAX; 256],
        numbers: [u64::MAX; 256],
    };
    for account in [7, 300] {
        let mut bench = Bench::open(full.clone(), Running { account, billed: 9 }, u64::MAX);
        bench.refuses(7, 6, |_| ());
        bench.refuses(7, 9, |call| call.record.busy = 5);
        assert_eq!(bench.books.tables(), full);
        bench.runs(account, 9);
    }
}

#[test]
fn books_opened_anew_go_on_the_same() {
    // A page erase is stopped after 30 + 40 + 2 * 2 ticks, and the next one
    // runs for 80. The books are closed and opened between all calls.
    let mut bench = Bench::empty().at_pace(2);
    let reopen = |bench: &mut Bench| bench.books = Books::open(bench.books.tables(), bench.books.running(), &bench.record);
    bench.begin(3, 0, PAGE_ERASE);
    reopen(&mut bench);
    bench.wait(5, 30);
    reopen(&mut bench);
    bench.send(5, 40, RESET);
    reopen(&mut bench);
    bench.begin(3, 9, PAGE_ERASE);
    reopen(&mut bench);
    bench.wait(5, 80);
    bench.owes(&[(3, [154, 80, 2])]);
    bench.runs(3, 80);
}

#[test]
fn an_operation_is_billed_in_each_month_for_its_ticks_there() {
    // Of 3's 606 ticks 200 pass in the first month, 50 in the second and none
    // in the third. In the fourth 100 pass, and then the last 256; 5 begins
    // a program, 101, of which 1 passes.
    let mut bench = Bench::empty();
    bench.begin(3, 0, CHIP_ERASE);
    bench.wait(5, 200);
    bench.closes(&[(3, [200, 200, 1])]);
    bench.runs(3, 0);
    bench.wait(5, 50);
    bench.runs(3, 50);
    bench.closes(&[(3, [50, 50, 0])]);
    bench.closes(&[]);
    bench.runs(3, 0);
    bench.wait(5, 100);
    bench.begin(5, 300, PROGRAM);
    bench.wait(3, 1);
    bench.runs(5, 1);
    bench.closes(&[(3, [356, 356, 0]), (5, [1, 1, 1])]);
}

#[test]
fn an_operation_that_has_just_begun_is_counted_before_the_close() {
    let mut bench = Bench::empty();
    bench.begin(3, 7, PROGRAM);
    bench.closes(&[(3, [0, 0, 1])]);
    bench.send(3, 1, RESET);
    bench.closes(&[(3, [1, 1, 0])]);
    bench.rests();
}

#[test]
fn what_ran_and_was_owed_at_the_opening_is_the_first_months() {
    // 250 of 500 ticks are left of an operation that was billed 250. 50 pass,
    // and 200 in the new month, where the most is of these.
    let owed = of_lines(&[(3, [1_000, 260, 4]), (9, [LIMIT + 1, 5, LIMIT + 1])]);
    let mut bench = Bench::open(of_lines(&[(3, [1_000, 260, 4])]), Running { account: 3, billed: 250 }, 250);
    bench.wait(5, 50);
    bench.closes(&[(3, [1_050, 300, 4])]);
    bench.wait(5, 1_000);
    bench.owes(&[(3, [200, 200, 0])]);
    bench.rests();

    // Books that admit no call can be closed, and then admit one.
    let mut bench = Bench::open(owed, Running { account: 3, billed: 250 }, 0);
    bench.refuses(3, 9, |_| ());
    bench.closes(&[(3, [1_000, 260, 4]), (9, [LIMIT + 1, 5, LIMIT + 1])]);
    bench.runs(3, 0);
    bench.wait(3, 1);
    bench.owes(&[]);
    bench.rests();
}

#[test]
fn what_is_nobodys_stays_so_after_a_close() {
    let mut bench = Bench::running(300, 77, 500);
    bench.closes(&[]);
    bench.runs(300, 0);
    bench.wait(3, 100);
    bench.runs(300, 0);
    bench.wait(3, 400);
    bench.owes(&[]);
    bench.rests();
}
