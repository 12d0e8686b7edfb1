//! What a server counts, for people who watch it.
use crate::desk::Desk;
use crate::lines::thousands;
use oxterin::{Cause, Refusal};
use std::time::{Duration, SystemTime};

/// Counters since the server started.
pub struct Counts {
    since: SystemTime,
    frames: u64,
    busy: u128,
    missed: [u64; Cause::ALL.len()],
    refused: [u64; Refusal::ALL.len()],
    clients: u64,
    present: u64,
    strangers: u64,
    let_go: u64,
}

impl Counts {
    /// Nothing has been counted; it is now.
    pub fn new() -> Counts {
        Counts {
            since: SystemTime::now(),
            frames: 0,
            busy: 0,
            missed: [0; Cause::ALL.len()],
            refused: [0; Refusal::ALL.len()],
            clients: 0,
            present: 0,
            strangers: 0,
            let_go: 0,
        }
    }

    /// A frame was accepted, and so many busy ticks were billed with it. If it was not carried out, there is a cause.
    pub fn frame(&mut self, busy: u64, cause: Option<Cause>) {
        self.frames += 1;
        self.busy += u128::from(busy);
        if let Some(cause) = cause {
            self.missed[cause.number() as usize - 1] += 1;
        }
    }

    /// A frame was refused.
    pub fn refusal(&mut self, refusal: Refusal) {
        self.refused[usize::from(refusal.number()) - 1] += 1;
    }

    /// A client is served from now on.
    pub fn come(&mut self) {
        self.clients += 1;
        self.present += 1;
    }

    /// It has left.
    pub fn leave(&mut self) {
        self.present = self.present.saturating_sub(1);
    }

    /// Somebody who does not speak the protocol was hung up on.
    pub fn stranger(&mut self) {
        self.strangers += 1;
    }

    /// A client was let go because it was silent.
    pub fn let_go(&mut self) {
        self.let_go += 1;
    }

    /// How many frames were accepted.
    pub fn frames(&self) -> u64 {
        self.frames
    }

    /// The page of counters. Causes and refusals that did not occur are left out.
    pub fn page(&self, desk: &Desk) -> String {
        let missed = Cause::ALL.iter().zip(self.missed).filter(|(_, count)| *count > 0);
        let missed = missed.map(|(cause, count)| (format!("not carried out, {cause}"), thousands(count)));
        let refused = Refusal::ALL.iter().zip(self.refused).filter(|(_, count)| *count > 0);
        let refused = refused.map(|(refusal, count)| (format!("refused, number {}", refusal.number()), thousands(count)));
        let first = [("since", date(self.since)), ("frames", thousands(self.frames))];
        let last = [
            ("busy ticks billed", thousands(self.busy)),
            ("busy ticks left", thousands(desk.part.record.busy)),
            ("tick", thousands(desk.tick)),
            ("clients served now", thousands(self.present)),
            ("clients served", thousands(self.clients)),
            ("silent ones dropped", thousands(self.let_go)),
            ("strangers hung up on", thousands(self.strangers)),
        ];
        let named = |(what, number): (&str, String)| (what.to_string(), number);
        let rows: Vec<(String, String)> = first
            .map(named)
            .into_iter()
            .chain(missed)
            .chain(refused)
            .chain(last.map(named))
            .collect();
        let width = 2 + rows.iter().map(|(what, _)| what.len()).max().unwrap_or(0);
        rows.iter().map(|(what, number)| format!("{what:<width$}{number}\n")).collect()
    }
}

/// A moment as date and time of day, UTC, as RFC 3339 has it.
pub fn date(moment: SystemTime) -> String {
    let since = moment.duration_since(SystemTime::UNIX_EPOCH).unwrap_or(Duration::ZERO).as_secs();
    let (year, month, day) = day_of(since / 86_400);
    let (hour, minute, second) = (since / 3_600 % 24, since / 60 % 60, since % 60);
    format!("{year}-{month:02}-{day:02}T{hour:02}:{minute:02}:{second:02}Z")
}

/// Year, month and day of so many days after 1 January 1970. Years are counted from March, so that a leap day is the last of its year.
fn day_of(days: u64) -> (u64, u64, u64) {
    const TO_EPOCH: u64 = 719_468; // days from 1 March of the year 0 to 1 January 1970
    const ERA: u64 = 146_097; // days of 400 years
    let days = days + TO_EPOCH;
    let (era, day) = (days / ERA, days % ERA);
    let year = (day - day / 1_460 + day / 36_524 - day / 146_096) / 365;
    let day = day - (365 * year + year / 4 - year / 100);
    let month = (5 * day + 2) / 153;
    let day = day - (153 * month + 2) / 5 + 1;
    let (month, next) = if month < 10 { (month + 3, 0) } else { (month - 9, 1) };
    (400 * era + year + next, month, day)
}

#[cfg(test)]
mod tests {
    use super::*;
    use oxterin::{Part, Size};

    /// Dates worked out with date(1): `date -u -d @SECONDS`.
    #[test]
    fn moments_have_their_dates() {
        for (seconds, text) in [
            (0, "1970-01-01T00:00:00Z"),
            (951_782_399, "2000-02-28T23:59:59Z"),
            (951_782_400, "2000-02-29T00:00:00Z"),
            (951_868_800, "2000-03-01T00:00:00Z"),
            (1_794_792_401, "2026-11-16T01:26:41Z"),
            (4_107_542_400, "2100-03-01T00:00:00Z"),
        ] {
            assert_eq!(date(SystemTime::UNIX_EPOCH + Duration::from_secs(seconds)), text);
        }
    }

    #[test]
    fn the_page_has_a_line_for_each_counter() {
        let mut counts = Counts::new();
        counts.since = SystemTime::UNIX_EPOCH;
        counts.frame(50_000, None);
        counts.frame(0, None);
        counts.refusal(Refusal::InputLength);
        counts.come();
        counts.come();
        counts.leave();
        counts.stranger();
        let wanted = "\
since                 1970-01-01T00:00:00Z
frames                2
refused, number 3     1
busy ticks billed     50,000
busy ticks left       0
tick                  0
clients served now    1
clients served        2
silent ones dropped   0
strangers hung up on  1
";
        assert_eq!(counts.page(&Desk::new(Part::blank(Size::Small))), wanted);
    }
    /// The numbers stand below each other, two blanks after the longest words.
    #[test]
    fn the_page_has_a_line_for_each_cause_that_occurred() {
        let mut counts = Counts::new();
        counts.since = SystemTime::UNIX_EPOCH;
        for cause in [Cause::AlreadyAwake, Cause::LatchClear, Cause::TooFewBits, Cause::LatchClear] {
            counts.frame(0, Some(cause));
        }
        counts.frame(0, None);
        counts.refusal(Refusal::InputLength);
        let wanted = "\
since                           1970-01-01T00:00:00Z
frames                          5
not carried out, too few bits   1
not carried out, latch clear    2
not carried out, already awake  1
refused, number 3               1
busy ticks billed               0
";
        let page = counts.page(&Desk::new(Part::blank(Size::Small)));
        assert!(page.starts_with(wanted), "{page}");
    }
}
