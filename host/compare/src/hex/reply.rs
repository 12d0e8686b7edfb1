//! What a side answers to a text, in one form for all sides.
use std::fmt;

/// The answer of the reader or the writer, beside the lent bytes.
#[derive(Clone, Copy, Debug, PartialEq, Eq)]
pub struct Reply {
    /// The refusal's number, 0 if the call was accepted.
    pub refusal: u64,
    /// The reader's place, or how many characters the writer wrote.
    pub word: u64,
}

impl Reply {
    /// What the model's answer obliges every side to, itself too, when a text is read: a place comes only with a fault of the text.
    pub(crate) fn owed_for_reading(self) -> Reply {
        match self.refusal {
            0 | 18 => Reply { word: 0, ..self },
            _ => self,
        }
    }

    /// The same when a text is written: a refused one has no characters.
    pub(crate) fn owed_for_writing(self) -> Reply {
        match self.refusal {
            0 => self,
            _ => Reply { word: 0, ..self },
        }
    }
}

impl fmt::Display for Reply {
    fn fmt(&self, f: &mut fmt::Formatter<'_>) -> fmt::Result {
        write!(f, "refusal {}, place or characters {}", self.refusal, self.word)
    }
}
