//! What a run of texts came to, in numbers.
use super::reply::Reply;
use std::fmt;

/// The refusals that a reader can give.
const REFUSALS: [u64; 6] = [12, 13, 14, 15, 16, 18];

/// How many texts came to what.
#[derive(Clone, Debug, Default)]
pub struct Tally {
    /// All texts.
    texts: u64,
    /// Refused ones, in the order of [`REFUSALS`].
    refused: [u64; REFUSALS.len()],
    /// Accepted ones.
    accepted: u64,
    /// Accepted ones that changed the array.
    changed: u64,
}

impl Tally {
    /// Counts a text.
    pub fn note(&mut self, reply: &Reply, has_changed: bool) {
        self.texts += 1;
        match REFUSALS.iter().position(|&number| number == reply.refusal) {
            Some(place) => self.refused[place] += 1,
            None => {
                assert_eq!(reply.refusal, 0, "a reader does not give this refusal");
                self.accepted += 1;
                self.changed += u64::from(has_changed);
            }
        }
    }

    /// How many texts were counted.
    #[must_use]
    pub fn texts(&self) -> u64 {
        self.texts
    }

    /// What should have happened at least so many times and did not.
    #[must_use]
    pub fn gaps(&self, least: u64) -> Vec<String> {
        let refused = REFUSALS.into_iter().zip(self.refused);
        let refused = refused.map(|(number, count)| (format!("refusal {number}"), count));
        let all = refused.chain([("an array changed".to_string(), self.changed)]);
        all.filter(|(_, count)| *count < least)
            .map(|(what, count)| format!("{what}: {count}"))
            .collect()
    }
}

impl fmt::Display for Tally {
    fn fmt(&self, f: &mut fmt::Formatter<'_>) -> fmt::Result {
        write!(
            f,
            "{} texts: accepted {}, array changed {}",
            self.texts, self.accepted, self.changed
        )?;
        for (number, count) in REFUSALS.into_iter().zip(self.refused) {
            write!(f, ", refusal {number} {count}")?;
        }
        Ok(())
    }
}
