//! A bill as a table for a terminal, and as comma-separated values.
use crate::advice;
use crate::columns::{aligned, Side, GAP};
use crate::desk::{All, Desk};
use crate::lines::{counted, thousands};
use crate::tally::{End, Tally};
use oxterin::Line;

/// The columns, of which the last is the bar.
const COLUMNS: [&str; 5] = ["account", "total ticks", "most for one operation", "operations", ""];
/// On which side their cells stand.
const SIDES: [Side; COLUMNS.len()] = [Side::Right, Side::Right, Side::Right, Side::Right, Side::Left];
/// How many marks the longest bar has.
const BAR: u128 = 30;

/// The table with a row for each account and one for all, what is still running, how many frames and ticks there were, and which frames were
/// not carried out.
pub fn table(tally: &Tally) -> String {
    let Tally { desk, .. } = tally;
    format!(
        "{}{}\n{}{}",
        accounts(desk),
        still_running(tally),
        counts(desk),
        not_carried_out(tally)
    )
}

/// A row for each account and one for all.
pub fn accounts(desk: &Desk) -> String {
    let accounts = desk.accounts();
    let runs = desk.part.record.busy > 0 && desk.ledger.running.owner().is_some();
    match (accounts.is_empty(), runs) {
        (false, _) => rows(&accounts, desk.all()),
        (true, false) => "Nothing was billed to anyone: no frame began an operation.\n".to_string(),
        (true, true) => "Nothing was billed to anyone yet.\n".to_string(),
    }
}

/// The rows under their heads.
fn rows(accounts: &[(u8, Line)], all: All) -> String {
    let largest = accounts.iter().map(|(_, line)| line.total).max().unwrap_or(0);
    let head = COLUMNS.map(String::from);
    let each = accounts.iter().map(|(account, line)| {
        [
            account.to_string(),
            thousands(line.total),
            thousands(line.most),
            thousands(line.number),
            bar(line.total, largest),
        ]
    });
    let last = [
        "all".into(),
        thousands(all.total),
        thousands(all.most),
        thousands(all.number),
        String::new(),
    ];
    aligned(SIDES, &[head].into_iter().chain(each).chain([last]).collect::<Vec<_>>())
}

/// Marks for a total, in proportion to the largest; at least one unless it is 0.
fn bar(total: u64, largest: u64) -> String {
    if total == 0 {
        return String::new();
    }
    let (total, largest) = (u128::from(total), u128::from(largest));
    let marks = (2 * BAR * total + largest) / (2 * largest);
    "#".repeat(marks.max(1) as usize)
}

/// A sentence on what is still running, if anything is.
fn still_running(tally: &Tally) -> String {
    match tally.operations.last() {
        Some(last) if last.end == End::Running => format!(
            "\nStill running: account {}'s {}{}, billed so far for {} of its {}.\n",
            last.account,
            last.name(),
            last.begun
                .as_ref()
                .map_or_else(String::new, |begun| format!(" of line {}", begun.line)),
            thousands(last.billed),
            counted(last.duration, "tick")
        ),
        _ => String::new(),
    }
}

/// How many frames were sent, how many ticks passed, and for how many of them the part was busy.
fn counts(desk: &Desk) -> String {
    let counts = [
        ("frames sent", thousands(desk.frames)),
        ("ticks passed", thousands(desk.passed())),
        ("of them busy", thousands(desk.all().total)),
    ];
    let width = counts.iter().map(|(_, number)| number.len()).max().unwrap_or(0);
    let line = |(what, number): &(&str, String)| format!("{what:<12}{GAP}{number:>width$}\n");
    counts.iter().map(line).collect()
}

/// By account and cause, the frames of this run that were not carried out, if there are any.
fn not_carried_out(tally: &Tally) -> String {
    let earlier = match tally.goes_on {
        true => "\nFrames of earlier runs are not counted here.\n",
        false => "",
    };
    match tally.missed.is_empty() {
        true => String::new(),
        false => format!("\n{}{earlier}", advice::by_account(&tally.missed)),
    }
}

/// The bill as comma-separated values: a line of heads, then one for each account, in numbers without commas of their own.
pub fn csv(desk: &Desk) -> String {
    let line = |(account, line): (u8, Line)| format!("{account},{},{},{}\n", line.total, line.most, line.number);
    let lines: String = desk.accounts().into_iter().map(line).collect();
    format!("account,total,most,operations\n{lines}")
}

#[cfg(test)]
mod tests {
    use super::*;

    #[test]
    fn bars_are_in_proportion() {
        let marks = |total, largest| bar(total, largest).len();
        assert_eq!(marks(0, 0), 0);
        assert_eq!(marks(0, 5), 0);
        assert_eq!(marks(5, 5), 30);
        assert_eq!(marks(1, 2), 15);
        assert_eq!(marks(1, 3_000_000), 1);
        assert_eq!(marks(2_999_999, 3_000_000), 30);
        assert_eq!(marks(u64::MAX / 3, u64::MAX), 10);
    }
}
