//! What went wrong, in words for the one who typed the command.
use std::fmt;
use std::io::{self, Write};
use std::sync::mpsc::{channel, sync_channel, Receiver, Sender, SyncSender};
use std::sync::OnceLock;
use std::thread;
use std::time::Duration;

/// An error that names its place and, where there is one, the remedy.
#[derive(Clone, Debug, PartialEq, Eq)]
pub struct Complaint(pub String);

impl fmt::Display for Complaint {
    fn fmt(&self, f: &mut fmt::Formatter<'_>) -> fmt::Result {
        f.write_str(&self.0)
    }
}

/// A complaint of these words.
pub fn complaint(words: impl Into<String>) -> Complaint {
    Complaint(words.into())
}

/// Says on standard error what went wrong. If nobody listens there, nothing more can be done.
pub fn complain(what: impl fmt::Display) {
    let line = format!("oxterin: {what}\n");
    match ASIDE.get() {
        Some(aside) => drop(aside.try_send(Said::Line(line))),
        None => write(&line),
    }
}

/// Writes a line to standard error.
fn write(line: &str) {
    let _ = io::stderr().write_all(line.as_bytes());
}

/// What is said by a thread of its own.
enum Said {
    /// A line.
    Line(String),
    /// All lines before it have been written.
    All(Sender<()>),
}

/// The way to the thread that speaks, once there is one.
static ASIDE: OnceLock<SyncSender<Said>> = OnceLock::new();

/// From now on a thread of its own says what went wrong, so that nobody waits for a standard error that nobody reads. Of what it cannot get rid
/// of the first lines are kept.
pub fn speak_aside() {
    const KEPT: usize = 1_000;
    let (aside, said) = sync_channel(KEPT);
    if ASIDE.set(aside).is_ok() {
        thread::spawn(move || speak(&said));
    }
}

/// Says what comes, as long as something can come.
fn speak(said: &Receiver<Said>) {
    for said in said {
        match said {
            Said::Line(line) => write(&line),
            Said::All(written) => drop(written.send(())),
        }
    }
}

/// Waits until all that went wrong has been said, but not long.
pub fn settle() {
    const PATIENCE: Duration = Duration::from_secs(1);
    if let Some(aside) = ASIDE.get() {
        let (written, all) = channel();
        if aside.try_send(Said::All(written)).is_ok() {
            let _ = all.recv_timeout(PATIENCE);
        }
    }
}
