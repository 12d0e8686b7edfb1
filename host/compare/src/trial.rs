//! A trial: the three sides on memories that began alike, call after call.
use crate::call::Call;
use crate::difference::Difference;
use crate::holds;
use crate::opcodes::CHANGES;
use crate::reply::{record_of, Reply};
use crate::side::{by_model, by_words, by_wrapper, close_by_model, close_by_words, close_by_wrapper};
use crate::side::{Close, Memories, Run, Side, CANARY};
use oxterin::{Ledger, Mode, Record};

/// How often the memories are compared whole.
#[derive(Clone, Copy, Debug, PartialEq, Eq)]
pub enum Care {
    /// After every call.
    Always,
    /// Before and after a call that may begin an operation, and when asked. Nothing else may change a byte, so no difference can be
    /// wiped out unseen, but it may be seen some calls late.
    WhenDue,
}

/// The place of the model among the sides.
const MODEL: usize = 2;

/// Three sides, the memories as they have to stand, and the record and the ledger that the next call is given.
pub struct Trial {
    /// The face, the wrapper and the model.
    sides: [Side; 3],
    /// The memories as the last operation left them.
    kept: Memories,
    /// What memories begin with.
    pattern: Memories,
    /// The record that the last call gave back.
    record: Record,
    /// The ledger as the calls through it left it.
    ledger: Ledger,
    /// How many output bytes the last call wrote.
    written: usize,
    /// How often the memories are compared.
    care: Care,
}

impl Trial {
    /// A trial whose memories hold a pattern, whose record is fresh and whose ledger is empty.
    #[must_use]
    pub fn new(care: Care) -> Trial {
        Trial::of(("the face", by_words, close_by_words), care)
    }

    /// A trial of this side, the wrapper and the model.
    fn of(first: (&'static str, Run, Close), care: Care) -> Trial {
        let sides = [
            first,
            ("the wrapper", by_wrapper, close_by_wrapper),
            ("the model", by_model, close_by_model),
        ];
        Trial {
            sides: sides.map(|(name, run, close)| Side::new(name, run, close)),
            kept: Memories::patterned(),
            pattern: Memories::patterned(),
            record: Record::fresh(false, false, false),
            ledger: Ledger::empty(),
            written: 0,
            care,
        }
    }

    /// The record that the last call gave back.
    #[must_use]
    pub fn record(&self) -> &Record {
        &self.record
    }

    /// The ledger as the calls through it left it.
    #[must_use]
    pub fn ledger(&self) -> &Ledger {
        &self.ledger
    }

    /// The output bytes that the last call wrote, on which the sides agree.
    #[must_use]
    pub fn output(&self) -> &[u8] {
        &self.sides[MODEL].output[..self.written]
    }

    /// Runs a call on all sides, and gives what they agree on.
    ///
    /// # Errors
    ///
    /// The sides differ, in this call or, with [`Care::WhenDue`], in the memories that an earlier one left.
    pub fn run(&mut self, call: &Call) -> Result<Reply, Difference> {
        let before = call.record.unwrap_or(self.record);
        if self.care == Care::WhenDue && may_begin(&before, call) {
            self.check()?;
        }
        if let Some(ledger) = &call.ledger {
            self.put(ledger);
        }
        if call.close {
            self.close(&before)?;
        }
        let replies = self.sides.each_mut().map(|side| side.answer(call, &before));
        let Some(reply) = replies[MODEL] else {
            return Err(Difference::panic(self.sides[MODEL].name));
        };
        let mut found = Difference::default();
        let owed = owed(&reply, &before, call);
        for (side, reply) in self.sides.iter().zip(replies) {
            found.reply(side.name, reply, &owed);
        }
        self.written = if reply.refusal == 0 { call.input.len().min(call.output) } else { 0 };
        self.compare_outputs(&mut found);
        if call.account.is_some() {
            if reply.refusal == 0 {
                self.ledger = self.sides[MODEL].ledger.ledger();
            }
            self.compare_ledgers(&mut found);
        }
        if reply.outcome == "begun" {
            self.kept.copy(&self.sides[MODEL].memories);
        }
        if self.care == Care::Always || reply.outcome == "begun" || !found.is_empty() {
            self.compare_memories(&mut found);
        }
        found.verdict()?;
        self.record = record_of(&reply.record).expect("the model's record has words");
        Ok(reply)
    }

    /// Compares the memories of all sides whole with what they have to be.
    ///
    /// # Errors
    ///
    /// A byte differs.
    pub fn check(&self) -> Result<(), Difference> {
        let mut found = Difference::default();
        self.compare_memories(&mut found);
        found.verdict()
    }

    /// Begins anew with patterned memories, a fresh record and an empty ledger, the old memories having been compared.
    ///
    /// # Errors
    ///
    /// A byte of the old memories differs.
    pub fn reset(&mut self) -> Result<(), Difference> {
        self.check()?;
        for side in &mut self.sides {
            side.memories.copy(&self.pattern);
        }
        self.kept.copy(&self.pattern);
        self.record = Record::fresh(false, false, false);
        self.put(&Ledger::empty());
        Ok(())
    }

    /// Hands a ledger to every side.
    fn put(&mut self, ledger: &Ledger) {
        for side in &mut self.sides {
            side.ledger.put(ledger);
        }
        self.ledger.clone_from(ledger);
    }

    /// Closes a month on every side. What is handed out has to be the ledger as it was, and what is left the model's.
    fn close(&mut self, record: &Record) -> Result<(), Difference> {
        for side in &mut self.sides {
            side.closed(record).ok_or_else(|| Difference::panic(side.name))?;
        }
        let mut found = Difference::default();
        for side in &self.sides {
            side.ledger.compare_month(side.name, &self.ledger, &mut found);
        }
        self.ledger = self.sides[MODEL].ledger.ledger();
        self.compare_ledgers(&mut found);
        found.verdict()
    }

    /// The written bytes are the model's, and all others are as before the call.
    fn compare_outputs(&self, found: &mut Difference) {
        for side in &self.sides {
            let (output, rest) = side.output.split_at(self.written);
            found.bytes(side.name, "output", output, self.output());
            found.bytes(side.name, "byte past the output", rest, &CANARY[self.written..side.output.len()]);
        }
    }

    /// Every word of every ledger is as it has to be, the guards too.
    fn compare_ledgers(&self, found: &mut Difference) {
        for side in &self.sides {
            side.ledger.compare(side.name, &self.ledger, found);
        }
    }

    /// Every byte of every memory is as it has to be, the guards too.
    fn compare_memories(&self, found: &mut Difference) {
        for side in &self.sides {
            found.bytes(side.name, "array", &side.memories.array, &self.kept.array);
            found.bytes(side.name, "register", &side.memories.register, &self.kept.register);
        }
    }
}

/// What the model's answer obliges every side to, itself too: the cause is the first that holds; a refusal has none, and gives the record
/// back as it came.
fn owed(model: &Reply, before: &Record, call: &Call) -> Reply {
    if model.refusal == 0 {
        Reply {
            cause: holds::first(before, call),
            ..*model
        }
    } else {
        Reply::refused(model.refusal, before)
    }
}

/// Whether an operation may begin, and cover up what a call before it did wrong. A part that is busy at the first bit begins none.
fn may_begin(record: &Record, call: &Call) -> bool {
    let is_idle = record.mode == Mode::Awake && call.busy_at_first_bit(record) == 0;
    record.wel && is_idle && call.opcode().is_some_and(|opcode| CHANGES.contains(&opcode))
}

#[cfg(test)]
mod tests {
    use super::*;
    use crate::ledger::Kept;
    use crate::side::Lent;
    use oxterin::Running;

    /// A write enable, an aborted program, a refused call, a read, an erase of the page that the program aimed at, and a poll of it.
    fn calls() -> Vec<Call> {
        let enable = Call::of(&[0x06]);
        let aborted = Call {
            bits: 39,
            ..Call::of(&[0x02, 0, 0x10, 0, 0])
        };
        let refused = Call {
            register: 127,
            ..Call::of(&[0x06])
        };
        let read = Call::of(&[0x03, 0, 0, 0, 0, 0]);
        let erase = Call::of(&[0x81, 0, 0x10, 0]);
        let poll = Call {
            elapsed: 6_980,
            ticks_per_byte: 8,
            ..Call::of(&[0x05, 0, 0, 0, 0])
        };
        vec![enable.clone(), aborted, refused, read, enable, erase, poll]
    }

    /// A write of RSTE and a program by account 3, a poll of account 7, two refused ones, and a reset by account 9.
    fn calls_for_accounts() -> Vec<Call> {
        let enable = Call::of(&[0x06]);
        let program = Call {
            elapsed: 4,
            ..Call::of(&[0x02, 0, 0x10, 0, 0, 0])
        };
        let poll = Call {
            elapsed: 5,
            ticks_per_byte: 2,
            ..Call::of(&[0x05, 0])
        };
        let refused = Call {
            register: 127,
            ..poll.clone()
        };
        let reset = Call {
            elapsed: 100,
            ..Call::of(&[0xF0, 0xD0])
        };
        let calls = [
            (3, enable.clone()),
            (3, Call::of(&[0x31, 0x10])),
            (3, enable),
            (3, program),
            (7, poll.clone()),
            (7, refused),
            (256, poll),
            (9, reset),
        ];
        let with_accounts = calls.map(|(account, call)| Call {
            account: Some(account),
            ..call
        });
        with_accounts.to_vec()
    }

    /// The place of the first call that shows a difference when the face is replaced by this run.
    fn first_difference(face: Run, care: Care) -> Option<usize> {
        first_difference_in(&calls(), face, care)
    }

    /// The same with these calls.
    fn first_difference_in(calls: &[Call], face: Run, care: Care) -> Option<usize> {
        let mut trial = Trial::of(("a sham", face, close_by_words), care);
        calls.iter().position(|call| trial.run(call).is_err())
    }

    /// The same with calls through a ledger.
    fn first_difference_in_ledgers(face: Run) -> Option<usize> {
        first_difference_in(&calls_for_accounts(), face, Care::WhenDue)
    }

    #[test]
    fn the_sides_agree() {
        assert_eq!(first_difference(by_words, Care::Always), None);
        assert_eq!(first_difference(by_words, Care::WhenDue), None);
        assert_eq!(first_difference_in_ledgers(by_words), None);
    }

    #[test]
    fn the_ledger_is_what_the_calls_left() {
        let mut trial = Trial::new(Care::Always);
        let calls = calls_for_accounts();
        for call in &calls[..7] {
            trial.run(call).expect("the sides agree");
        }
        let mut ledger = Ledger::empty();
        (ledger.totals[3], ledger.most[3], ledger.numbers[3]) = (9, 9, 1);
        ledger.running = Running { account: 3, billed: 9 };
        assert_eq!(trial.ledger(), &ledger);
        trial.run(&calls[7]).expect("the sides agree");
        (ledger.totals[3], ledger.most[3], ledger.running) = (109, 109, Running::NOBODY);
        assert_eq!(trial.ledger(), &ledger);

        ledger.totals[3] = 5;
        let handed = Call {
            ledger: Some(Box::new(ledger.clone())),
            ..calls[6].clone()
        };
        assert_eq!(trial.run(&handed).map(|reply| reply.refusal), Ok(9));
        assert_eq!(trial.ledger(), &ledger);
        trial.reset().expect("the memories agree");
        assert_eq!(trial.ledger(), &Ledger::empty());
    }

    #[test]
    fn a_wrong_word_of_a_ledger_or_beside_it_is_a_difference() {
        let spoil: [fn(&mut Kept); 8] = [
            |ledger| ledger.totals.words[255] += 1,
            |ledger| ledger.most.words[0] += 1,
            |ledger| ledger.numbers.words[77] += 1,
            |ledger| ledger.running.words[0] = 300,
            |ledger| ledger.running.words[1] = 1,
            |ledger| ledger.totals.before[3] = 0,
            |ledger| ledger.numbers.behind[0] = 0,
            |ledger| ledger.running.behind[0] = 0,
        ];
        for spoil in spoil {
            let mut trial = Trial::new(Care::WhenDue);
            let call = Call {
                account: Some(0),
                register: 127,
                ..Call::of(&[0x06])
            };
            assert!(trial.run(&call).is_ok());
            spoil(&mut trial.sides[0].ledger);
            assert!(trial.run(&call).is_err());
        }
    }

    #[test]
    fn a_ledger_that_bills_wrongly_is_a_difference() {
        let the_caller: Run = |call, record, lent| {
            let running = &mut lent.ledger.running.words;
            running[0] = call.account.filter(|_| running[0] < 256).unwrap_or(running[0]);
            by_words(call, record, lent)
        };
        assert_eq!(first_difference_in_ledgers(the_caller), Some(4));
        let refused_calls: Run = |call, record, mut lent| {
            let reply = by_words(call, record, whole(&mut lent));
            lent.ledger.totals.words[3] += if reply.refusal == 0 { 0 } else { call.elapsed };
            reply
        };
        assert_eq!(first_difference_in_ledgers(refused_calls), Some(5));
        let only_refusal_9: Run = |call, record, mut lent| {
            let reply = by_words(call, record, whole(&mut lent));
            lent.ledger.running.words[1] += u64::from(reply.refusal == 9);
            reply
        };
        assert_eq!(first_difference_in_ledgers(only_refusal_9), Some(6));
        let the_frame_that_begins: Run = |call, record, mut lent| {
            let reply = by_words(call, record, whole(&mut lent));
            lent.ledger.totals.words[3] += if reply.outcome == "begun" { call.elapsed } else { 0 };
            reply
        };
        assert_eq!(first_difference_in_ledgers(the_frame_that_begins), Some(3));
        let the_rest_after_a_reset: Run = |call, record, mut lent| {
            let reply = by_words(call, record, whole(&mut lent));
            if call.opcode() == Some(0xF0) {
                lent.ledger.totals.words[3] += record.busy - call.elapsed;
            }
            reply
        };
        assert_eq!(first_difference_in_ledgers(the_rest_after_a_reset), Some(7));
    }

    /// Account 3 is billed 9 ticks of a program, and the month is closed before a poll in which 9 more pass.
    #[test]
    fn a_month_closed_wrongly_is_a_difference() {
        let mut calls = calls_for_accounts();
        let poll = calls[4].clone();
        calls.splice(5.., [Call { close: true, ..poll }]);
        let first_difference_with = |close: Close| {
            let mut trial = Trial::of(("a sham", by_words, close), Care::WhenDue);
            calls.iter().position(|call| trial.run(call).is_err())
        };
        assert_eq!(first_difference_with(close_by_words), None);
        let shams: [Close; 6] = [
            |_, _| (),
            |_, _| panic!("a sham's panic"),
            |record, ledger| {
                let billed = ledger.running.words[1];
                close_by_words(record, ledger);
                ledger.running.words[1] = billed;
            },
            |record, ledger| {
                let numbers = ledger.numbers.words;
                close_by_words(record, ledger);
                ledger.numbers.words = numbers;
            },
            |record, ledger| {
                close_by_words(record, ledger);
                ledger.month.swap(0, 2);
            },
            |record, ledger| {
                close_by_words(record, ledger);
                ledger.month[1].behind[0] = 0;
            },
        ];
        for sham in shams {
            assert_eq!(first_difference_with(sham), Some(5));
        }
    }

    #[test]
    fn a_wrong_field_is_a_difference() {
        let shams: [Run; 6] = [
            |call, record, lent| Reply {
                cause: "busy",
                ..by_words(call, record, lent)
            },
            |call, record, lent| Reply {
                refusal: 7,
                ..by_words(call, record, lent)
            },
            |call, record, lent| Reply {
                outcome: "read",
                ..by_words(call, record, lent)
            },
            |call, record, lent| Reply {
                first: 1,
                ..by_words(call, record, lent)
            },
            |call, record, lent| Reply {
                driven: 1,
                ..by_words(call, record, lent)
            },
            |call, record, lent| Reply {
                record: [0; 7],
                ..by_words(call, record, lent)
            },
        ];
        for sham in shams {
            assert_eq!(first_difference(sham, Care::WhenDue), Some(0));
        }
    }

    #[test]
    fn a_cause_left_out_or_given_to_a_refused_call_is_a_difference() {
        let no_cause: Run = |call, record, lent| Reply {
            cause: "none",
            ..by_words(call, record, lent)
        };
        assert_eq!(first_difference(no_cause, Care::WhenDue), Some(1));
        let refused_too: Run = |call, record, lent| match by_words(call, record, lent) {
            reply if reply.refusal == 0 => reply,
            reply => Reply { cause: "busy", ..reply },
        };
        assert_eq!(first_difference(refused_too, Care::WhenDue), Some(2));
        assert_eq!(first_difference_in_ledgers(refused_too), Some(5));
        let mut trial = Trial::of(("a sham", no_cause, close_by_words), Care::WhenDue);
        let said = trial.run(&Call::of(&[0x60])).map_err(|difference| difference.to_string());
        let wanted = "a sham answers refusal 0, nothing, cause none, driven 0 from 0, record [0, 0, 0, 0, 0, 0, 0]\n  \
                      against refusal 0, nothing, cause latch clear, driven 0 from 0, record [0, 0, 0, 0, 0, 0, 0]";
        assert_eq!(said, Err(wanted.to_string()));
    }

    #[test]
    fn what_is_owed_has_the_first_cause_that_holds_whatever_the_model_tells() {
        let protected = Record::fresh(false, true, false);
        let erase = Call::of(&[0x60]);
        for told in ["none", "latch clear", "protected"] {
            let model = Reply {
                cause: told,
                ..Reply::refused(0, &protected)
            };
            assert_eq!(owed(&model, &protected, &erase).cause, "latch clear");
            let refused = Reply { refusal: 7, ..model };
            assert_eq!(owed(&refused, &protected, &erase), Reply::refused(7, &protected));
        }
    }

    #[test]
    fn a_frame_that_takes_no_time_is_a_difference() {
        let sham: Run = |call, record, lent| {
            let hasty = Call {
                ticks_per_byte: 0,
                ..call.clone()
            };
            by_words(&hasty, record, lent)
        };
        assert_eq!(first_difference(sham, Care::WhenDue), Some(6));
    }

    #[test]
    fn the_output_is_what_the_last_call_wrote() {
        let mut trial = Trial::new(Care::WhenDue);
        for call in calls() {
            trial.run(&call).expect("the sides agree");
        }
        // 7,000 ticks less 6,980 are 20: more than 8 and 16, fewer than 24.
        assert_eq!(trial.output(), [0xFF, 0x11, 0x01, 0x10, 0x00]);
        trial.run(&calls()[2]).expect("the sides agree");
        assert_eq!(trial.output(), []);
    }

    #[test]
    fn a_panic_is_a_difference() {
        assert_eq!(first_difference(|_, _, _| panic!("a sham's panic"), Care::WhenDue), Some(0));
    }

    #[test]
    fn a_byte_written_past_the_output_is_a_difference() {
        let sham: Run = |call, record, mut lent| {
            lent.output[call.input.len()] = 0;
            by_words(call, record, whole(&mut lent))
        };
        assert_eq!(first_difference(sham, Care::WhenDue), Some(0));
    }

    #[test]
    fn a_refused_call_that_changes_a_byte_is_a_difference() {
        let sham: Run = |call, record, mut lent| {
            let reply = by_words(call, record, whole(&mut lent));
            if reply.refusal != 0 {
                lent.array[0x1_FFFF] ^= 1;
            }
            reply
        };
        assert_eq!(first_difference(sham, Care::Always), Some(2));
        assert_eq!(first_difference(sham, Care::WhenDue), Some(5));
    }

    #[test]
    fn a_change_that_an_erase_would_cover_up_is_seen_before_it() {
        let sham: Run = |call, record, mut lent| {
            let reply = by_words(call, record, whole(&mut lent));
            if reply.outcome == "read" {
                lent.array[0x1000] ^= 1;
            }
            reply
        };
        assert_eq!(first_difference(sham, Care::Always), Some(3));
        assert_eq!(first_difference(sham, Care::WhenDue), Some(5));
    }

    #[test]
    fn a_reset_sees_the_old_memories() {
        let mut trial = Trial::new(Care::WhenDue);
        trial.sides[0].memories.register[127] ^= 1;
        assert!(trial.reset().is_err());
        trial.sides[0].memories.register[127] ^= 1;
        assert_eq!(trial.reset(), Ok(()));
    }

    /// The same lent parts, lent on.
    fn whole<'a>(lent: &'a mut Lent<'_>) -> Lent<'a> {
        Lent {
            array: lent.array,
            register: lent.register,
            output: lent.output,
            ledger: lent.ledger,
        }
    }
}
