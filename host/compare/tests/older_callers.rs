//! Callers built for older versions, by words: signals of three words, which knew no ticks per byte, and answers of three, which knew no
//! cause. Each is compared with the call of today, and that one with the model.
use compare::{ledger, Call, Care, Generator, Random, Trial};
use oxterin::{raw, Record, Running};

/// What words hold that are lent to be written to.
const UNWRITTEN: u64 = 99;

/// The memories and the ledger of a caller, and what the last call gave.
#[derive(Clone, PartialEq, Eq)]
struct Caller {
    array: Vec<u8>,
    register: Vec<u8>,
    record: [u64; raw::RECORD],
    answer: [u64; raw::ANSWER],
    output: Vec<u8>,
    running: [u64; raw::RUNNING],
    tables: [[u64; raw::ACCOUNTS]; 3],
    number: u64,
}

impl Caller {
    /// The memories of a blank part, and an empty ledger.
    fn blank() -> Caller {
        let Running { account, billed } = Running::NOBODY;
        Caller {
            array: vec![0xFF; compare::ARRAY_ROOM],
            register: vec![0xFF; compare::REGISTER_ROOM],
            record: [0; raw::RECORD],
            answer: [0; raw::ANSWER],
            output: Vec::new(),
            running: [account, billed],
            tables: [[0; raw::ACCOUNTS]; 3],
            number: 0,
        }
    }

    /// Makes a call, with so many words of its signals and of its answer; through the ledger, if it is for an account.
    fn send(&mut self, call: &Call, record: &Record, signals: usize, answer: usize) {
        self.record = record.words();
        self.answer = [UNWRITTEN; raw::ANSWER];
        self.output = vec![0x77; call.output];
        let signals = &[call.bits, call.wp_high.into(), call.elapsed, call.ticks_per_byte][..signals];
        let answer = &mut self.answer[..answer];
        let (array, register) = (&mut self.array[..call.array], &mut self.register[..call.register]);
        let (record, durations, output) = (&mut self.record, &call.durations, &mut self.output);
        let [totals, most, numbers] = &mut self.tables;
        self.number = match call.account {
            None => raw::frame(record, durations, signals, array, register, &call.input, output, answer),
            Some(account) => raw::ledger_frame(
                record,
                durations,
                signals,
                array,
                register,
                &call.input,
                output,
                answer,
                account,
                &mut self.running,
                totals,
                most,
                numbers,
            ),
        };
    }

    /// Takes over a ledger that a call hands over, and closes a month if it does.
    fn prepare(&mut self, call: &Call) {
        if let Some(ledger) = &call.ledger {
            self.running = [ledger.running.account, ledger.running.billed];
            self.tables = [ledger.totals, ledger.most, ledger.numbers];
        }
        if call.close {
            self.running[1] = 0;
            self.tables = [[0; raw::ACCOUNTS]; 3];
        }
    }
}

/// A call as a line.
fn line(call: &Call) -> String {
    compare::text::write(std::slice::from_ref(call))
}

/// An awake part that is busy for 20 ticks.
fn busy() -> Record {
    Record {
        busy: 20,
        ..Record::fresh(false, false, false)
    }
}

#[test]
fn signals_of_three_words_are_four_with_no_ticks_per_byte() {
    let mut generator = Generator::new(Random::seeded(5), 131_072);
    let mut trial = Trial::new(Care::WhenDue);
    let (mut three, mut four) = (Caller::blank(), Caller::blank());
    for _ in 0..20_000 {
        let last = *trial.record();
        let call = Call {
            ticks_per_byte: 0,
            ..generator.call(&last)
        };
        let record = call.record.unwrap_or(last);
        three.send(&call, &record, 3, 4);
        four.send(&call, &record, 4, 4);
        assert!(three == four, "{}", line(&call));
        let reply = trial.run(&call).expect("the sides agree");
        assert_eq!((three.number, three.record), (reply.refusal, reply.record));
    }
}

#[test]
fn signals_of_three_words_let_no_time_pass_in_a_poll() {
    let mut caller = Caller::blank();
    let poll = Call {
        ticks_per_byte: 8,
        ..Call::of(&[0x05, 0, 0, 0, 0])
    };
    caller.send(&poll, &busy(), 3, 4);
    assert_eq!((caller.number, caller.answer, caller.record[6]), (0, [1, 1, 4, 0], 20));
    assert_eq!(caller.output[..5], [0xFF, 0x11, 0x01, 0x11, 0x01]);
    caller.send(&poll, &busy(), 4, 4);
    assert_eq!((caller.number, caller.answer, caller.record[6]), (0, [1, 1, 4, 0], 0));
    assert_eq!(caller.output[..5], [0xFF, 0x11, 0x01, 0x10, 0x00]);
}

#[test]
fn an_answer_of_three_words_is_told_no_cause() {
    let mut caller = Caller::blank();
    let erase = Call::of(&[0x20, 0, 0, 0]);
    for account in [None, Some(7)] {
        let erase = Call { account, ..erase.clone() };
        caller.send(&erase, &busy(), 4, 4);
        assert_eq!((caller.number, caller.answer), (0, [0, 0, 0, 3]));
        caller.send(&erase, &busy(), 4, 3);
        assert_eq!((caller.number, caller.answer), (0, [0, 0, 0, UNWRITTEN]));
    }
}

/// Random calls on which an answer of three words changes nothing but that the fourth is not written.
fn answers_of_three_words_begin_those_of_four(is_billed: bool) {
    let mut generator = ledger::Generator::new(Random::seeded(6), 65_536);
    let mut trial = Trial::new(Care::WhenDue);
    let (mut three, mut four) = (Caller::blank(), Caller::blank());
    let mut told = 0;
    for _ in 0..20_000 {
        let last = *trial.record();
        let mut call = generator.call(&last, trial.ledger());
        if !is_billed {
            (call.account, call.ledger, call.close) = (None, None, false);
        }
        let record = call.record.unwrap_or(last);
        for (caller, words) in [(&mut three, 3), (&mut four, 4)] {
            caller.prepare(&call);
            caller.send(&call, &record, 4, words);
        }
        assert_eq!(three.answer[3], UNWRITTEN, "{}", line(&call));
        three.answer[3] = four.answer[3];
        assert!(three == four, "{}", line(&call));
        let reply = trial.run(&call).expect("the sides agree");
        assert_eq!((three.number, three.record), (reply.refusal, reply.record));
        told += u64::from(reply.cause != "none");
    }
    assert!(told > 1_000, "{told}");
}

#[test]
fn an_answer_of_three_words_is_the_beginning_of_one_of_four() {
    answers_of_three_words_begin_those_of_four(false);
}

#[test]
fn so_it_is_through_a_ledger() {
    answers_of_three_words_begin_those_of_four(true);
}
