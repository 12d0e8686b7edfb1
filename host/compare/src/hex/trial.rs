//! A trial of texts: the three sides on arrays that began alike, text after text.
use super::reply::Reply;
use super::side::{guarded, guards, lent, lent_mut, Side, Way, BEFORE, BY_MODEL, BY_WORDS, BY_WRAPPER};
use crate::difference::Difference;
use crate::side::pattern;
use std::hint::black_box;

/// The place of the model among the sides.
const MODEL: usize = 2;

/// Three sides, and what their memories have to hold.
pub struct Trial {
    /// The face, the wrapper and the model.
    sides: [Side; 3],
    /// The array between its guards.
    array: Vec<u8>,
    /// The text of the last call between its guards.
    text: Vec<u8>,
    /// Whether the last text that was read changed a byte of the array.
    has_changed: bool,
}

impl Trial {
    /// A trial that can lend so many bytes of an array, which hold a pattern.
    #[must_use]
    pub fn new(room: usize) -> Trial {
        Trial::of([BY_WORDS, BY_WRAPPER, BY_MODEL], room)
    }

    /// A trial of any sides, the last of which is the model.
    fn of(ways: [Way; 3], room: usize) -> Trial {
        let array = guarded(&pattern(0, room));
        Trial {
            sides: ways.map(|way| Side {
                way,
                array: array.clone(),
                text: Vec::new(),
            }),
            array,
            text: guarded(&[]),
            has_changed: false,
        }
    }

    /// Reads a text on all sides into so many bytes of the array, and gives what they agree on. Every byte of the array has to be what
    /// the model makes of it, as it was if the text is refused, and the text and all guards have to be as they were.
    ///
    /// # Errors
    ///
    /// The sides differ.
    pub fn read(&mut self, text: &[u8], array: usize) -> Result<Reply, Difference> {
        self.text = guarded(text);
        let replies = self.sides.each_mut().map(|side| side.read(&self.text, array));
        let reply = self.model_reply(&replies)?;
        let told = lent(&self.sides[MODEL].array, array);
        self.has_changed = reply.refusal == 0 && told != lent(&self.array, array);
        if self.has_changed {
            lent_mut(&mut self.array, array).copy_from_slice(told);
        }
        self.verdict(replies, reply.owed_for_reading(), array)
    }

    /// Writes so many bytes of the array on all sides, over a text with room for so many characters, and gives what they agree on. The
    /// characters have to be the model's, none if the call is refused, and those behind them, the array and all guards as they were.
    ///
    /// # Errors
    ///
    /// The sides differ.
    pub fn write(&mut self, array: usize, room: usize) -> Result<Reply, Difference> {
        self.text = guarded(&unwritten(room));
        let replies = self.sides.each_mut().map(|side| side.write(array, &self.text));
        let reply = self.model_reply(&replies)?;
        let characters = if reply.refusal == 0 { room.min(reply.word as usize) } else { 0 };
        lent_mut(&mut self.text, characters).copy_from_slice(lent(&self.sides[MODEL].text, characters));
        self.verdict(replies, reply.owed_for_writing(), array)
    }

    /// What the array holds, without its guards.
    #[must_use]
    pub fn array(&self) -> &[u8] {
        lent(&self.array, self.array.len() - guards())
    }

    /// The text of the last call, without its guards; if it was written, with all the room that there was for it.
    #[must_use]
    pub fn text(&self) -> &[u8] {
        lent(&self.text, self.text.len() - guards())
    }

    /// Whether the last text that was read changed a byte of the array.
    #[must_use]
    pub fn has_changed(&self) -> bool {
        self.has_changed
    }

    /// Has the array of every side begin with these bytes.
    pub fn put(&mut self, bytes: &[u8]) {
        for array in self.sides.iter_mut().map(|side| &mut side.array).chain([&mut self.array]) {
            lent_mut(array, bytes.len()).copy_from_slice(bytes);
        }
    }

    /// The model's reply, unless it panicked.
    fn model_reply(&self, replies: &[Option<Reply>; 3]) -> Result<Reply, Difference> {
        replies[MODEL].ok_or_else(|| Difference::panic(self.sides[MODEL].way.name))
    }

    /// Compares replies, and the memories of every side with what they have to hold; so many bytes of the array were lent.
    fn verdict(&self, replies: [Option<Reply>; 3], owed: Reply, array: usize) -> Result<Reply, Difference> {
        let mut found = Difference::default();
        let characters = self.text.len() - guards();
        for (side, reply) in self.sides.iter().zip(replies) {
            let name = side.way.name;
            found.reply(name, reply, &owed);
            compare(&mut found, name, "array", black_box(&side.array), &self.array, array);
            compare(&mut found, name, "text", black_box(&side.text), &self.text, characters);
        }
        found.verdict().map(|()| owed)
    }
}

/// Compares a memory of which so many bytes were lent: those, and all before and behind them.
fn compare(found: &mut Difference, name: &str, what: &str, memory: &[u8], expected: &[u8], length: usize) {
    let (start, end) = (BEFORE.len(), BEFORE.len() + length);
    found.bytes(name, &format!("byte before the {what}"), &memory[..start], &expected[..start]);
    found.bytes(name, what, &memory[start..end], &expected[start..end]);
    found.bytes(name, &format!("byte behind the {what}"), &memory[end..], &expected[end..]);
}

/// What a text holds before it is written: no character of a text, and a byte that tells places apart.
fn unwritten(room: usize) -> Vec<u8> {
    (0..room).map(|place| 0x80 | (place % 127) as u8).collect()
}

#[cfg(test)]
mod tests {
    use super::super::record::{record, written, DATA, END};
    use super::*;

    /// A text that changes a byte, and one that is refused at its second record.
    fn texts() -> [Vec<u8>; 2] {
        let [data, end] = [record(DATA, 0x1234, &[0xA5]), record(END, 0, &[])];
        [[&data[..], b"\n", &end].concat(), [&data[..], b"\nG\n", &end].concat()]
    }

    /// Whether a sham in the place of the face is seen when it reads each of the texts, and when it writes.
    fn is_seen(sham: Way) -> [bool; 3] {
        let trial = || Trial::of([sham, BY_WRAPPER, BY_MODEL], 65_600);
        let [accepted, refused] = texts().map(|text| trial().read(&text, 65_536).is_err());
        [accepted, refused, trial().write(65_536, 180_300).is_err()]
    }

    /// The face with another reader.
    fn reader(read: fn(&[u8], &mut [u8]) -> Reply) -> Way {
        Way { read, ..BY_WORDS }
    }

    /// The face with another writer.
    fn writer(write: fn(&[u8], &mut [u8]) -> Reply) -> Way {
        Way { write, ..BY_WORDS }
    }

    #[test]
    fn the_sides_agree() {
        assert_eq!(is_seen(BY_WORDS), [false; 3]);
    }

    #[test]
    fn the_texts_do_what_they_are_for() {
        let mut trial = Trial::new(65_600);
        let [accepted, refused] = texts();
        assert_eq!(trial.read(&refused, 65_536), Ok(Reply { refusal: 12, word: 14 }));
        assert!(!trial.has_changed());
        assert_eq!(trial.read(&accepted, 65_536), Ok(Reply { refusal: 0, word: 0 }));
        assert!(trial.has_changed());
        assert_eq!(trial.array()[0x1234], 0xA5);
        assert_eq!(trial.write(65_536, 180_300).map(|reply| reply.word), Ok(180_252));
        assert_eq!(trial.text()[..180_252], written(&trial.array()[..65_536]));
    }

    #[test]
    fn another_number_or_word_is_a_difference() {
        let shams = [
            reader(|text, array| Reply {
                refusal: 15,
                ..(BY_WORDS.read)(text, array)
            }),
            reader(|text, array| Reply {
                word: 1,
                ..(BY_WORDS.read)(text, array)
            }),
            reader(|_, _| panic!("a sham's panic")),
        ];
        for sham in shams {
            assert_eq!(is_seen(sham), [true, true, false]);
        }
        let sham = writer(|array, text| Reply {
            word: 180_251,
            ..(BY_WORDS.write)(array, text)
        });
        assert_eq!(is_seen(sham), [false, false, true]);
    }

    #[test]
    fn a_wrong_byte_of_the_array_is_a_difference() {
        let every = reader(|text, array| {
            array[65_535] ^= 1;
            (BY_WORDS.read)(text, array)
        });
        assert_eq!(is_seen(every), [true, true, false]);
        let refused = reader(|text, array| {
            let reply = (BY_WORDS.read)(text, array);
            array[0x1234] ^= u8::from(reply.refusal != 0);
            reply
        });
        assert_eq!(is_seen(refused), [false, true, false]);
    }

    #[test]
    fn a_wrong_character_or_one_behind_the_text_is_a_difference() {
        for sham in [
            writer(|array, text| {
                let reply = (BY_WORDS.write)(array, text);
                text[20] ^= 1;
                reply
            }),
            writer(|array, text| {
                text[180_252] = 0;
                (BY_WORDS.write)(array, text)
            }),
        ] {
            assert_eq!(is_seen(sham), [false, false, true]);
        }
    }

    #[test]
    fn a_byte_outside_of_what_was_lent_is_a_difference() {
        let spoil: [fn(&mut Side); 4] = [
            |side| side.array[BEFORE.len() - 1] ^= 1,
            |side| side.array[BEFORE.len() + 65_536] ^= 1,
            |side| *side.text.last_mut().expect("a text has guards") ^= 1,
            |side| side.text[0] ^= 1,
        ];
        for spoil in spoil {
            let mut trial = Trial::new(65_600);
            let reply = trial.read(b"", 65_536).expect("the sides agree");
            assert_eq!(trial.verdict([Some(reply); 3], reply, 65_536), Ok(reply));
            spoil(&mut trial.sides[0]);
            assert!(trial.verdict([Some(reply); 3], reply, 65_536).is_err());
        }
    }

    #[test]
    fn what_is_put_begins_the_array_of_every_side() {
        let mut trial = Trial::new(65_600);
        trial.put(&[0x5A; 65_536]);
        assert_eq!(trial.read(b"", 65_536), Ok(Reply { refusal: 16, word: 0 }));
        assert!(trial.array()[..65_536].iter().all(|&byte| byte == 0x5A));
    }
}
