//! The three sides: the proved face by words, the wrapper over it, the model. Each has memories and an output buffer of its own.
use crate::call::{Call, ARRAY_ROOM, GUARD, OUTPUT_ROOM, REGISTER_ROOM};
use crate::ledger::Kept;
use crate::reply::{cause_words, outcome_word, words_of, Reply, CAUSES};
use oxterin::{raw, Ledger, Record, Settings, Signals};
use std::panic::{catch_unwind, AssertUnwindSafe};

/// What an output buffer holds before a call: it tells places apart, and is never FFh, which an undriven position reads.
pub(crate) static CANARY: [u8; OUTPUT_ROOM + GUARD] = canary();

/// The bytes of [`CANARY`].
const fn canary() -> [u8; OUTPUT_ROOM + GUARD] {
    let mut bytes = [0; OUTPUT_ROOM + GUARD];
    let mut place = 0;
    while place < bytes.len() {
        bytes[place] = 1 + (place % 251) as u8;
        place += 1;
    }
    bytes
}

/// An array and a register, each with a guard past the longest part that is lent.
#[derive(Clone, Debug, PartialEq, Eq)]
pub(crate) struct Memories {
    /// The array and its guard.
    pub(crate) array: Vec<u8>,
    /// The register and its guard.
    pub(crate) register: Vec<u8>,
}

impl Memories {
    /// Memories whose bytes tell places, pages, blocks and the two memories apart, so that an erase, a wrong program or a misplaced
    /// read shows.
    pub(crate) fn patterned() -> Memories {
        Memories {
            array: pattern(0, ARRAY_ROOM + GUARD),
            register: pattern(0x40_0000, REGISTER_ROOM + GUARD),
        }
    }

    /// Takes over the bytes of others.
    pub(crate) fn copy(&mut self, others: &Memories) {
        self.array.copy_from_slice(&others.array);
        self.register.copy_from_slice(&others.register);
    }
}

/// So many bytes that seem to follow no order, each given by its place, counted from `first`.
pub(crate) fn pattern(first: u32, length: usize) -> Vec<u8> {
    (first..first + length as u32)
        .map(|place| (place.wrapping_mul(0x9E37_79B1) >> 24) as u8)
        .collect()
}

/// What a call lends to a side.
pub(crate) struct Lent<'a> {
    /// The array.
    pub(crate) array: &'a mut [u8],
    /// The register.
    pub(crate) register: &'a mut [u8],
    /// The output buffer.
    pub(crate) output: &'a mut [u8],
    /// The ledger, for a call that goes through it.
    pub(crate) ledger: &'a mut Kept,
}

/// How a side carries a call out.
pub(crate) type Run = fn(&Call, &Record, Lent<'_>) -> Reply;

/// How a side closes a month in its ledger, the record being this.
pub(crate) type Close = fn(&Record, &mut Kept);

/// One side with what it works on.
pub(crate) struct Side {
    /// What a difference calls it.
    pub(crate) name: &'static str,
    /// How it carries a call out.
    pub(crate) run: Run,
    /// How it closes a month.
    pub(crate) close: Close,
    /// Its own memories.
    pub(crate) memories: Memories,
    /// Its output buffer after the last call, with a guard.
    pub(crate) output: Vec<u8>,
    /// Its own ledger.
    pub(crate) ledger: Kept,
}

impl Side {
    /// A side that has not run yet.
    pub(crate) fn new(name: &'static str, run: Run, close: Close) -> Side {
        Side {
            name,
            run,
            close,
            memories: Memories::patterned(),
            output: Vec::with_capacity(CANARY.len()),
            ledger: Kept::empty(),
        }
    }

    /// Carries a call out on a fresh output buffer. None if the side panicked.
    pub(crate) fn answer(&mut self, call: &Call, record: &Record) -> Option<Reply> {
        self.output.clear();
        self.output.extend_from_slice(&CANARY[..call.output + GUARD]);
        let lent = Lent {
            array: &mut self.memories.array[..call.array],
            register: &mut self.memories.register[..call.register],
            output: &mut self.output[..call.output],
            ledger: &mut self.ledger,
        };
        let run = self.run;
        catch_unwind(AssertUnwindSafe(|| run(call, record, lent))).ok()
    }

    /// Closes a month. None if the side panicked.
    pub(crate) fn closed(&mut self, record: &Record) -> Option<()> {
        let (close, ledger) = (self.close, &mut self.ledger);
        catch_unwind(AssertUnwindSafe(|| close(record, ledger))).ok()
    }
}

/// The proved face, by words.
pub(crate) fn by_words(call: &Call, record: &Record, lent: Lent<'_>) -> Reply {
    let mut words = words_of(record);
    let mut answer = [u64::MAX; raw::ANSWER];
    let signals = [call.bits, call.wp_high.into(), call.elapsed, call.ticks_per_byte];
    let refusal = match call.account {
        None => raw::frame(
            &mut words,
            &call.durations,
            &signals,
            lent.array,
            lent.register,
            &call.input,
            lent.output,
            &mut answer,
        ),
        Some(account) => raw::ledger_frame(
            &mut words,
            &call.durations,
            &signals,
            lent.array,
            lent.register,
            &call.input,
            lent.output,
            &mut answer,
            account,
            &mut lent.ledger.running.words,
            &mut lent.ledger.totals.words,
            &mut lent.ledger.most.words,
            &mut lent.ledger.numbers.words,
        ),
    };
    let [outcome, first, driven, cause] = answer;
    Reply {
        refusal,
        outcome: outcome_word(outcome),
        cause: cause_words(cause),
        first,
        driven,
        record: words,
    }
}

/// A month closed by the proved face, by words.
pub(crate) fn close_by_words(_: &Record, ledger: &mut Kept) {
    let [totals, most, numbers] = &mut ledger.month;
    let number = raw::close(
        &mut ledger.running.words,
        &mut ledger.totals.words,
        &mut ledger.most.words,
        &mut ledger.numbers.words,
        &mut totals.words,
        &mut most.words,
        &mut numbers.words,
    );
    assert_eq!(number, 0, "every running part of two words is accepted");
}

/// The proved part, through the safe wrapper.
pub(crate) fn by_wrapper(call: &Call, record: &Record, lent: Lent<'_>) -> Reply {
    let mut after = *record;
    let signals = Signals {
        bits: call.bits,
        wp_high: call.wp_high,
        elapsed: call.elapsed,
        ticks_per_byte: call.ticks_per_byte,
    };
    let settings = settings_of(&call.durations);
    let result = match call.account {
        None => oxterin::frame(&mut after, &settings, lent.array, lent.register, &call.input, signals, lent.output),
        Some(account) => lent.ledger.in_wrapper(|ledger| {
            oxterin::frame_for(
                account,
                ledger,
                &mut after,
                &settings,
                lent.array,
                lent.register,
                &call.input,
                signals,
                lent.output,
            )
        }),
    };
    match result {
        Err(refusal) => Reply::refused(refusal.number().into(), &after),
        Ok(answer) => Reply {
            refusal: 0,
            outcome: answer.outcome.word(),
            cause: answer.cause.map_or(CAUSES[0], oxterin::Cause::words),
            first: answer.first as u64,
            driven: answer.driven as u64,
            record: words_of(&after),
        },
    }
}

/// A month closed through the safe wrapper.
pub(crate) fn close_by_wrapper(_: &Record, ledger: &mut Kept) {
    let before = ledger.ledger();
    let month = ledger.in_wrapper(Ledger::close);
    assert_eq!(month.running, before.running, "what ran is handed out as it was");
    ledger.hand_out([month.totals, month.most, month.numbers]);
}

/// The wrapper's settings, named one by one without its help.
fn settings_of(durations: &[u64; 8]) -> Settings {
    Settings {
        byte_program: durations[0],
        longer_program: durations[1],
        page_erase: durations[2],
        erase_4k: durations[3],
        erase_32k: durations[4],
        chip_erase: durations[5],
        otp_program: durations[6],
        status_write: durations[7],
    }
}

/// The model.
pub(crate) fn by_model(call: &Call, record: &Record, lent: Lent<'_>) -> Reply {
    let settings = model::Settings { durations: call.durations };
    let pins = model::Pins {
        bits: call.bits,
        wp_high: call.wp_high,
        elapsed: call.elapsed,
        ticks_per_byte: call.ticks_per_byte,
    };
    let record = model_record(record);
    let answer = match call.account {
        None => model::frame(record, &settings, lent.array, lent.register, &call.input, pins, lent.output),
        Some(account) => lent.ledger.in_books(&record, |books| {
            books.frame(
                record,
                &settings,
                lent.array,
                lent.register,
                &call.input,
                pins,
                lent.output,
                account,
            )
        }),
    };
    Reply {
        refusal: answer.refusal.into(),
        outcome: model_word(answer.outcome),
        cause: answer.cause.map_or(CAUSES[0], model::Cause::words),
        first: answer.first as u64,
        driven: answer.driven as u64,
        record: model_words(&answer.record),
    }
}

/// A month closed by the model.
pub(crate) fn close_by_model(record: &Record, ledger: &mut Kept) {
    let model::Tables { totals, most, numbers } = ledger.in_books(&model_record(record), model::Books::close);
    ledger.hand_out([totals, most, numbers]);
}

/// The word for one of the model's outcomes.
#[must_use]
pub fn model_word(outcome: model::Outcome) -> &'static str {
    match outcome {
        model::Outcome::Nothing => "nothing",
        model::Outcome::Read => "read",
        model::Outcome::Control => "control",
        model::Outcome::Aborted => "aborted",
        model::Outcome::Begun => "begun",
    }
}

/// A record as the model has it.
fn model_record(record: &Record) -> model::Record {
    model::Record {
        bpl: record.bpl,
        bp0: record.bp0,
        wel: record.wel,
        rste: record.rste,
        otp_used: record.otp_used,
        mode: match record.mode {
            oxterin::Mode::Awake => model::Mode::Awake,
            oxterin::Mode::Deep => model::Mode::Deep,
            oxterin::Mode::UltraDeep => model::Mode::UltraDeep,
        },
        busy: record.busy,
    }
}

/// The words of a record of the model.
#[must_use]
pub fn model_words(record: &model::Record) -> [u64; 7] {
    let mode = match record.mode {
        model::Mode::Awake => 0,
        model::Mode::Deep => 1,
        model::Mode::UltraDeep => 2,
    };
    let [bpl, bp0, wel, rste, otp_used] = [record.bpl, record.bp0, record.wel, record.rste, record.otp_used].map(u64::from);
    [bpl, bp0, wel, rste, otp_used, mode, record.busy]
}

#[cfg(test)]
mod tests {
    use super::*;

    #[test]
    fn the_pattern_tells_places_apart() {
        let Memories { array, register } = Memories::patterned();
        for distance in [1, 2, 64, 128, 256, 4_096, 32_768, 65_536] {
            assert!(array.iter().zip(&array[distance..]).all(|(byte, other)| byte != other));
        }
        assert!(register.iter().zip(&register[64..]).all(|(byte, other)| byte != other));
        assert!(register.iter().zip(&array).all(|(byte, other)| byte != other));
    }

    #[test]
    fn the_canary_is_never_what_an_undriven_position_reads() {
        assert!(!CANARY.contains(&0xFF));
    }
}
