//! The three sides of a text: the proved face by words, the wrapper over it, the model. Each has an array and a text of its own.
use super::reply::Reply;
use oxterin::{raw, HexError};
use std::panic::{catch_unwind, AssertUnwindSafe};

/// What lies before every lent memory; no side may touch it.
pub(crate) const BEFORE: &[u8; 16] = b":00\r\xA0\xA1\xA2\xA3\xA4\xA5\xA6\xA7\xA8\xA9\r\n";

/// What lies behind every lent memory: an end record, so that a reader that goes on past its text does not see one missing.
pub(crate) const BEHIND: &[u8; 16] = b":00000001FF\n\xB0\xB1\xB2\xB3";

/// What a word holds before a call, and the words beside it after it.
const UNTOLD: u64 = 0xA5A5_A5A5_A5A5_A5A5;

/// How a side reads and writes texts.
#[derive(Clone, Copy)]
pub(crate) struct Way {
    /// What a difference calls the side.
    pub(crate) name: &'static str,
    /// Reads a text into an array.
    pub(crate) read: fn(&[u8], &mut [u8]) -> Reply,
    /// Writes an array as text.
    pub(crate) write: fn(&[u8], &mut [u8]) -> Reply,
}

/// The proved face, by words.
pub(crate) const BY_WORDS: Way = Way {
    name: "the face",
    read: |text, array| with_word(|word| raw::hex_read(text, array, word)),
    write: |array, text| with_word(|word| raw::hex_write(array, text, word)),
};

/// The proved functions, through the safe wrapper.
pub(crate) const BY_WRAPPER: Way = Way {
    name: "the wrapper",
    read: |text, array| told(oxterin::hex_read(text, array).map(|()| 0)),
    write: |array, text| told(oxterin::hex_write(array, text)),
};

/// The model.
pub(crate) const BY_MODEL: Way = Way {
    name: "the model",
    read: |text, array| reply(model::hex_read(text, array)),
    write: |array, text| reply(model::hex_write(array, text)),
};

/// A call of the face with one word for its answer, which lies between two others.
fn with_word(call: impl FnOnce(&mut [u64]) -> u64) -> Reply {
    let mut words = [UNTOLD; 3];
    let refusal = call(&mut words[1..2]);
    let [before, word, behind] = words;
    assert_eq!([before, behind], [UNTOLD; 2], "a word beside the answer has changed");
    Reply { refusal, word }
}

/// What the wrapper says, as a reply.
fn told(said: Result<usize, HexError>) -> Reply {
    match said {
        Ok(word) => reply((0, word)),
        Err(HexError { refusal, place }) => reply((refusal.number().into(), place)),
    }
}

/// A refusal and a word as a reply.
fn reply((refusal, word): (u64, usize)) -> Reply {
    Reply {
        refusal,
        word: word as u64,
    }
}

/// One side with what it works on, both memories between guards.
pub(crate) struct Side {
    /// How it reads and writes.
    pub(crate) way: Way,
    /// Its array.
    pub(crate) array: Vec<u8>,
    /// Its text, as the last call left it.
    pub(crate) text: Vec<u8>,
}

impl Side {
    /// Reads a text, which comes between guards, into so many bytes of the array. None if the side panicked.
    pub(crate) fn read(&mut self, text: &[u8], array: usize) -> Option<Reply> {
        self.text.clear();
        self.text.extend_from_slice(text);
        let (text, array) = (lent(&self.text, text.len() - guards()), lent_mut(&mut self.array, array));
        catch_unwind(AssertUnwindSafe(|| (self.way.read)(text, array))).ok()
    }

    /// Writes so many bytes of the array over a text, which comes between guards. None if the side panicked.
    pub(crate) fn write(&mut self, array: usize, text: &[u8]) -> Option<Reply> {
        self.text.clear();
        self.text.extend_from_slice(text);
        let (array, text) = (lent(&self.array, array), lent_mut(&mut self.text, text.len() - guards()));
        catch_unwind(AssertUnwindSafe(|| (self.way.write)(array, text))).ok()
    }
}

/// These bytes between guards.
pub(crate) fn guarded(bytes: &[u8]) -> Vec<u8> {
    [BEFORE, bytes, BEHIND].concat()
}

/// How many bytes the guards of a memory have.
pub(crate) const fn guards() -> usize {
    BEFORE.len() + BEHIND.len()
}

/// The first so many bytes between the guards.
pub(crate) fn lent(memory: &[u8], length: usize) -> &[u8] {
    &memory[BEFORE.len()..BEFORE.len() + length]
}

/// The same, to be written.
pub(crate) fn lent_mut(memory: &mut [u8], length: usize) -> &mut [u8] {
    &mut memory[BEFORE.len()..BEFORE.len() + length]
}
