//! A series of calls that is run again, and what is said of it if the sides differ.
use crate::call::Call;
use crate::difference::Difference;
use crate::shrink::shrink;
use crate::text;
use crate::trial::{Care, Trial};
use std::fmt;
use std::panic;

/// The first call of a series that shows a difference.
#[derive(Clone, Debug, PartialEq, Eq)]
pub struct Mismatch {
    /// Its place in the series, from 0.
    pub place: usize,
    /// What differs.
    pub difference: Difference,
}

impl fmt::Display for Mismatch {
    fn fmt(&self, f: &mut fmt::Formatter<'_>) -> fmt::Result {
        write!(f, "at call {}:\n{}", self.place + 1, self.difference)
    }
}

/// Runs a series on fresh memories, which are compared whole after every call.
///
/// # Errors
///
/// The first call that shows a difference.
pub fn replay(calls: &[Call]) -> Result<(), Mismatch> {
    let mut trial = Trial::new(Care::Always);
    for (place, call) in calls.iter().enumerate() {
        trial.run(call).map_err(|difference| Mismatch { place, difference })?;
    }
    Ok(())
}

/// Shrinks a series that showed a difference, and says what differs and how to replay it.
#[must_use]
pub fn report(calls: Vec<Call>) -> String {
    if replay(&calls).is_ok() {
        return format!("a difference in {} calls did not show again\n{}", calls.len(), text::write(&calls));
    }
    let calls = quietly(|| shrink(calls, |calls| replay(calls).is_err()));
    let mismatch = replay(&calls).expect_err("a shrunk series still shows a difference");
    format!(
        "the sides differ {mismatch}\n\nreplay with COMPARE_REPLAY naming a file of these lines:\n{}",
        text::write(&calls)
    )
}

/// Does something without the message that every panic of a side would print.
pub(crate) fn quietly<T>(act: impl FnOnce() -> T) -> T {
    let hook = panic::take_hook();
    panic::set_hook(Box::new(|_| {}));
    let done = act();
    panic::set_hook(hook);
    done
}
