//! What the environment asks of a random run.
use std::env;
use std::time::{SystemTime, UNIX_EPOCH};

/// The number in an environment variable, if it is set.
///
/// # Panics
///
/// It is set to something else.
#[must_use]
pub fn asked(name: &str) -> Option<u64> {
    let value = env::var(name).ok()?;
    Some(value.parse().unwrap_or_else(|_| panic!("{name}={value} is no number")))
}

/// A seed that no other run has.
///
/// # Panics
///
/// The clock is before the year 1970.
#[must_use]
pub fn clock() -> u64 {
    let since = SystemTime::now()
        .duration_since(UNIX_EPOCH)
        .expect("the clock is past the year 1970");
    since.as_nanos() as u64
}
