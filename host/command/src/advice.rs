//! Why frames were not carried out, as a text: how many, a row for each cause, and what to do about it.
use crate::columns::{aligned, Side};
use crate::lines::{counted, thousands};
use crate::missed::{Kind, Missed};
use crate::remedy::{remedy, AFTER_AN_ABORT};
use oxterin::Cause;

/// What is said if every frame was carried out.
pub const NOTHING_MISSED: &str = "Every frame was carried out.\n";

/// By cause, for frames that came to nothing or were aborted.
pub fn by_cause(missed: &Missed) -> String {
    let head = ["frames", "cause", "first"].map(String::from);
    let row = |(cause, kind): (Cause, Kind)| [thousands(kind.frames), cause.to_string(), kind.place()];
    let rows: Vec<_> = [head].into_iter().chain(missed.by_cause().into_iter().map(row)).collect();
    let table = aligned([Side::Right, Side::Left, Side::Left], &rows);
    format!("{}\n\n{table}\n{}", headline(missed), remedies(missed))
}

/// By account and cause, for frames that came to nothing or were aborted, and whose frames were all carried out.
pub fn by_account(missed: &Missed) -> String {
    let head = ["account", "frames", "cause", "first"].map(String::from);
    let row = |(account, cause, kind): (u8, Cause, &Kind)| [account.to_string(), thousands(kind.frames), cause.to_string(), kind.place()];
    let rows: Vec<_> = [head].into_iter().chain(missed.by_account().map(row)).collect();
    let table = aligned([Side::Right, Side::Right, Side::Left, Side::Left], &rows);
    let flawless = flawless(missed).map_or_else(String::new, |words| format!("\n{words}\n"));
    format!("{}\n\n{table}\n{}{flawless}", headline(missed), remedies(missed))
}

/// How many frames came to nothing, and how many were aborted.
pub fn headline(missed: &Missed) -> String {
    let was = |number| if number == 1 { "was" } else { "were" };
    let came = match (missed.nothing, missed.aborted) {
        (0, aborted) => format!("{} {} aborted", thousands(aborted), was(aborted)),
        (nothing, 0) => format!("{} came to nothing", thousands(nothing)),
        (nothing, aborted) => format!(
            "{} came to nothing, and {} {} aborted",
            thousands(nothing),
            thousands(aborted),
            was(aborted)
        ),
    };
    format!("Of {}, {came}.", counted(missed.frames, "frame"))
}

/// Whose frames were all carried out, if some account's were.
pub fn flawless(missed: &Missed) -> Option<String> {
    let accounts: Vec<String> = missed.flawless().iter().map(u8::to_string).collect();
    let accounts = match &accounts[..] {
        [] => return None,
        [account] => format!("account {account}"),
        [others @ .., last] => format!("accounts {} and {last}", others.join(", ")),
    };
    Some(format!("Every frame of {accounts} was carried out."))
}

/// A line for each cause that says what to do about it, and one for aborts.
fn remedies(missed: &Missed) -> String {
    let causes = missed.by_cause().into_keys().map(|cause| format!("{cause}: {}\n", remedy(cause)));
    let aborted = (missed.aborted > 0).then(|| format!("aborted: {AFTER_AN_ABORT}\n"));
    causes.chain(aborted).collect()
}

#[cfg(test)]
mod tests {
    use super::*;

    #[test]
    fn the_headline_counts_both_outcomes() {
        for (frames, nothing, aborted, words) in [
            (600, 300, 0, "Of 600 frames, 300 came to nothing."),
            (1, 1, 0, "Of 1 frame, 1 came to nothing."),
            (1_204, 0, 1, "Of 1,204 frames, 1 was aborted."),
            (3, 0, 2, "Of 3 frames, 2 were aborted."),
            (4_000, 1_000, 1, "Of 4,000 frames, 1,000 came to nothing, and 1 was aborted."),
            (9, 1, 2, "Of 9 frames, 1 came to nothing, and 2 were aborted."),
        ] {
            let mut missed = Missed::none();
            (missed.frames, missed.nothing, missed.aborted) = (frames, nothing, aborted);
            assert_eq!(headline(&missed), words);
        }
    }
}
