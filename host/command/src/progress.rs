//! How far a long file has been read, said on a terminal.
use crate::frames::Frames;
use crate::lines::{counted, thousands};
use std::io::{self, IsTerminal, Write};
use std::time::{Duration, Instant};

/// So long nothing is said, at first and between two times.
const PAUSE: Duration = Duration::from_secs(1);

/// Says every second how far it is, if standard error is a terminal and no frames are typed there. What was said is wiped out at the end.
pub struct Progress {
    /// When it is time to say something; never if there is none.
    next: Option<Instant>,
    said: bool,
}

impl Progress {
    /// Nothing has been read.
    pub fn begin(frames: &Frames) -> Progress {
        let typed = frames.whole.is_none() && io::stdin().is_terminal();
        let watched = io::stderr().is_terminal() && !typed;
        Progress {
            next: watched.then(|| Instant::now() + PAUSE),
            said: false,
        }
    }

    /// Says how far it is, if it is time to.
    pub fn tell(&mut self, frames: &Frames) {
        if self.next.is_some_and(|next| next <= Instant::now()) {
            show(&format!("\roxterin: {}\x1b[K", words(frames.line, frames.read, frames.whole)));
            self.next = Some(Instant::now() + PAUSE);
            self.said = true;
        }
    }
}

impl Drop for Progress {
    fn drop(&mut self) {
        if self.said {
            show("\r\x1b[K");
        }
    }
}

/// Writes to the terminal. If that fails, nobody misses it.
fn show(text: &str) {
    let mut terminal = io::stderr();
    let _ = terminal.write_all(text.as_bytes()).and_then(|()| terminal.flush());
}

/// How many lines and bytes have been read, in words; with how many bytes there are, as a share of the whole.
fn words(lines: usize, read: u64, whole: Option<u64>) -> String {
    let lines = counted(lines as u64, "line");
    match whole {
        Some(whole) if whole > 0 => format!("{lines}, {} %", thousands(100 * u128::from(read.min(whole)) / u128::from(whole))),
        _ => format!("{lines} so far"),
    }
}

#[cfg(test)]
mod tests {
    use super::*;

    #[test]
    fn the_share_is_said_where_the_whole_is_known() {
        assert_eq!(words(1, 10, None), "1 line so far");
        assert_eq!(words(120_000, 450, Some(1_000)), "120,000 lines, 45 %");
        assert_eq!(words(2, 1_001, Some(1_000)), "2 lines, 100 %");
        assert_eq!(words(2, 10, Some(0)), "2 lines so far");
    }
}
