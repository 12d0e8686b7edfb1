//! Where sides differ, in words.
use std::fmt;

/// Everything in which a call's answers or the memories differ; empty if they agree.
#[derive(Clone, Debug, Default, PartialEq, Eq)]
pub struct Difference {
    found: Vec<String>,
}

impl Difference {
    /// Fails with the difference unless it is empty.
    pub(crate) fn verdict(self) -> Result<(), Difference> {
        if self.is_empty() {
            Ok(())
        } else {
            Err(self)
        }
    }

    /// Whether nothing differs.
    pub(crate) fn is_empty(&self) -> bool {
        self.found.is_empty()
    }

    /// A side that panicked.
    pub(crate) fn panic(name: &str) -> Difference {
        Difference {
            found: vec![format!("{name} panicked")],
        }
    }

    /// Compares a reply, none being a panic.
    pub(crate) fn reply<R: PartialEq + fmt::Display>(&mut self, name: &str, reply: Option<R>, expected: &R) {
        match reply {
            Some(reply) if reply == *expected => {}
            Some(reply) => self.found.push(format!("{name} answers {reply}\n  against {expected}")),
            None => self.found.push(format!("{name} panicked\n  against {expected}")),
        }
    }

    /// Compares bytes of the same kind.
    pub(crate) fn bytes(&mut self, name: &str, what: &str, bytes: &[u8], expected: &[u8]) {
        if bytes != expected {
            self.found.push(format!("{name} has another {what}: {}", places(bytes, expected)));
        }
    }

    /// Compares as many words of the same kind.
    pub(crate) fn words<const COUNT: usize>(
        &mut self,
        name: &str,
        what: fmt::Arguments<'_>,
        words: &[u64; COUNT],
        expected: &[u64; COUNT],
    ) {
        if let Some(place) = (0..COUNT).find(|&place| words[place] != expected[place]) {
            let (word, expected) = (words[place], expected[place]);
            self.found
                .push(format!("{name} has another {what}: {word} at {place}, against {expected}"));
        }
    }
}

impl fmt::Display for Difference {
    fn fmt(&self, f: &mut fmt::Formatter<'_>) -> fmt::Result {
        f.write_str(&self.found.join("\n"))
    }
}

/// The first place where two runs of bytes differ, and how many there are.
fn places(bytes: &[u8], expected: &[u8]) -> String {
    let differing = || (0..bytes.len().min(expected.len())).filter(|&place| bytes[place] != expected[place]);
    match differing().next() {
        Some(place) => format!(
            "{:02X}h at {place:06X}h, against {:02X}h; {} in all",
            bytes[place],
            expected[place],
            differing().count()
        ),
        None => format!("{} bytes, against {}", bytes.len(), expected.len()),
    }
}
