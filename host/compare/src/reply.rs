//! What a side answers, in one form for all sides.
use oxterin::{Mode, Record};
use std::fmt;

/// The words for the five outcomes, in the order of their numbers.
pub(crate) const OUTCOMES: [&str; 5] = ["nothing", "read", "control", "aborted", "begun"];

/// Request R-5's words for the twelve causes, in the order of their numbers; number 0 is none.
pub(crate) const CAUSES: [&str; 13] = [
    "none",
    "too few bits",
    "asleep",
    "busy",
    "unknown opcode",
    "latch clear",
    "reset not enabled or not confirmed",
    "off boundary",
    "incomplete",
    "protected",
    "locked",
    "already programmed",
    "already awake",
];

/// The answer to a call, beside the lent bytes.
#[derive(Clone, Copy, Debug, PartialEq, Eq)]
pub struct Reply {
    /// The refusal's number, 0 for an accepted call.
    pub refusal: u64,
    /// The outcome's word.
    pub outcome: &'static str,
    /// The cause's words, or `none`.
    pub cause: &'static str,
    /// The first driven position.
    pub first: u64,
    /// How many positions are driven.
    pub driven: u64,
    /// The record after the call, as words: BPL, BP0, WEL, RSTE, OTP used, mode, busy ticks.
    pub record: [u64; 7],
}

impl Reply {
    /// What a refused call has to answer.
    #[must_use]
    pub fn refused(refusal: u64, record: &Record) -> Reply {
        Reply {
            refusal,
            outcome: OUTCOMES[0],
            cause: CAUSES[0],
            first: 0,
            driven: 0,
            record: words_of(record),
        }
    }
}

impl fmt::Display for Reply {
    fn fmt(&self, f: &mut fmt::Formatter<'_>) -> fmt::Result {
        let Reply {
            refusal,
            outcome,
            cause,
            first,
            driven,
            record,
        } = self;
        write!(
            f,
            "refusal {refusal}, {outcome}, cause {cause}, driven {driven} from {first}, record {record:?}"
        )
    }
}

/// The word for an outcome's number.
pub(crate) fn outcome_word(number: u64) -> &'static str {
    named(&OUTCOMES, number).unwrap_or("an unknown outcome")
}

/// The words for a cause's number.
pub(crate) fn cause_words(number: u64) -> &'static str {
    named(&CAUSES, number).unwrap_or("an unknown cause")
}

/// What a list has at this number.
fn named(list: &[&'static str], number: u64) -> Option<&'static str> {
    list.get(usize::try_from(number).ok()?).copied()
}

/// The words of a record, packed without the wrapper's help.
pub(crate) fn words_of(record: &Record) -> [u64; 7] {
    let mode = match record.mode {
        Mode::Awake => 0,
        Mode::Deep => 1,
        Mode::UltraDeep => 2,
    };
    let flags = [record.bpl, record.bp0, record.wel, record.rste, record.otp_used].map(u64::from);
    let [bpl, bp0, wel, rste, otp_used] = flags;
    [bpl, bp0, wel, rste, otp_used, mode, record.busy]
}

/// The record of these words, if a flag is 0 or 1 and the mode is known.
pub(crate) fn record_of(words: &[u64; 7]) -> Option<Record> {
    let [flags @ .., mode, busy] = *words;
    let mode = match mode {
        0 => Mode::Awake,
        1 => Mode::Deep,
        2 => Mode::UltraDeep,
        _ => return None,
    };
    if flags.iter().any(|&flag| flag > 1) {
        return None;
    }
    let [bpl, bp0, wel, rste, otp_used] = flags.map(|flag| flag == 1);
    Some(Record {
        bpl,
        bp0,
        wel,
        rste,
        otp_used,
        mode,
        busy,
    })
}

#[cfg(test)]
mod tests {
    use super::*;

    #[test]
    fn words_and_records_are_one_to_one() {
        for flags in 0..32u64 {
            for mode in 0..3 {
                let words = [
                    flags & 1,
                    flags >> 1 & 1,
                    flags >> 2 & 1,
                    flags >> 3 & 1,
                    flags >> 4,
                    mode,
                    7 * flags,
                ];
                assert_eq!(record_of(&words).map(|record| words_of(&record)), Some(words));
            }
        }
        assert_eq!(record_of(&[0, 0, 2, 0, 0, 0, 0]), None);
        assert_eq!(record_of(&[0, 0, 0, 0, 0, 3, 0]), None);
    }

    #[test]
    fn an_outcome_past_the_last_has_no_word_of_theirs() {
        assert_eq!(outcome_word(4), "begun");
        assert!(!OUTCOMES.contains(&outcome_word(5)));
        assert!(!OUTCOMES.contains(&outcome_word(u64::MAX)));
    }

    #[test]
    fn a_cause_past_the_last_has_no_words_of_theirs() {
        assert_eq!((cause_words(0), cause_words(12)), ("none", "already awake"));
        assert!(!CAUSES.contains(&cause_words(13)));
        assert!(!CAUSES.contains(&cause_words(u64::MAX)));
    }

    #[test]
    fn a_reply_says_its_cause() {
        let reply = Reply {
            cause: "latch clear",
            ..Reply::refused(0, &Record::fresh(false, false, false))
        };
        let said = "refusal 0, nothing, cause latch clear, driven 0 from 0, record [0, 0, 0, 0, 0, 0, 0]";
        assert_eq!(reply.to_string(), said);
    }
}
