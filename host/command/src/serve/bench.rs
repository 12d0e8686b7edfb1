//! The one part that all clients of a server share, with its books, its logs and its counters.
use super::clock::Clock;
use super::counts::Counts;
use super::log::{Log, Refused, Told};
use crate::desk::{Desk, Sent};
use crate::missed::why_not;
use oxterin::{Refusal, Signals};
use std::sync::{Condvar, Mutex, MutexGuard, PoisonError};
use std::time::{Duration, Instant};

/// A part in a server. Frames reach it one at a time, in the order in which they become whole.
pub struct Bench {
    wp_high: bool,
    ticks_per_byte: u64,
    /// The machine's clock and the tick at which it started, if that is the part's time.
    clock: Option<(Clock, u128)>,
    /// Whether somebody watches the counters.
    pub watched: bool,
    shared: Mutex<Shared>,
    /// Told when something has changed after a quiet time, and when there is a reason to save at once.
    news: Condvar,
}

/// What one thread at a time may touch.
pub struct Shared {
    /// The part with its books.
    pub desk: Desk,
    /// `--log`.
    pub lines: Option<Log>,
    /// `--json`.
    pub json: Option<Log>,
    /// What is counted.
    pub counts: Counts,
    /// How many things have happened.
    events: u64,
    /// How many of them the keeper has seen.
    seen: u64,
    /// Whether it should not wait for a quiet moment.
    at_once: bool,
}

impl Bench {
    /// A bench with this desk, WP being held at a level, whose bytes take so many ticks. Time passes with the machine's clock, if there is
    /// one, so many ticks for each microsecond, and else by the clients' delays.
    pub fn new(desk: Desk, wp_high: bool, ticks_per_byte: u64, speed: Option<f64>) -> Bench {
        let now = desk.tick + u128::from(desk.waiting);
        Bench {
            wp_high,
            ticks_per_byte,
            clock: speed.map(|speed| (Clock::start(speed), now)),
            watched: false,
            shared: Mutex::new(Shared {
                desk,
                lines: None,
                json: None,
                counts: Counts::new(),
                events: 0,
                seen: 0,
                at_once: false,
            }),
            news: Condvar::new(),
        }
    }

    /// The same bench with these logs.
    pub fn with_logs(mut self, lines: Option<Log>, json: Option<Log>) -> Bench {
        let shared = self.shared.get_mut().unwrap_or_else(PoisonError::into_inner);
        shared.lines = lines;
        shared.json = json;
        self
    }

    /// All that is shared, for one thread. A thread that failed while it had it left it whole: a frame is one call.
    pub fn lock(&self) -> MutexGuard<'_, Shared> {
        self.shared.lock().unwrap_or_else(PoisonError::into_inner)
    }

    /// Sends a frame for an account, of which so many bytes were sent and the others are to be read. Answers what each position read.
    pub fn frame(&self, account: u8, input: &[u8], sent: usize) -> Result<Vec<u8>, Refusal> {
        let mut shared = self.lock();
        let sent = self.exchange(&mut shared, account, input).inspect_err(|refusal| {
            self.refused(&mut shared, account, sent, input.len() - sent, *refusal);
        })?;
        Ok(sent.exchange.output)
    }

    /// Sends a frame, and writes it down if the part accepts it.
    fn exchange(&self, shared: &mut Shared, account: u8, input: &[u8]) -> Result<Sent, Refusal> {
        let signals = Signals {
            wp_high: self.wp_high,
            elapsed: self.waiting(&shared.desk),
            ticks_per_byte: self.ticks_per_byte,
            ..Signals::whole(input)
        };
        let sent = shared.desk.exchange(account, input, signals)?;
        if shared.logs().next().is_some() {
            let told = Told {
                tick: shared.desk.tick,
                account,
                input,
                signals,
                status: shared.desk.part.status(self.wp_high)[0],
                sent: &sent,
            };
            shared.tell(|log| log.tell(|line| told.line(line)), |log| log.tell(|line| told.json(line)));
        }
        let cause = why_not(&sent.exchange.answer, signals.bits);
        shared.counts.frame(sent.billed.map_or(0, |billed| billed.ticks), cause);
        self.happened(shared);
        Ok(sent)
    }

    /// Lets the ticks since the last frame pass at once, if they come off an operation; that is written down as a frame of no bits. If the
    /// ledger is full, they go on waiting.
    pub fn settle(&self, shared: &mut Shared) {
        if self.snapshot(shared).owes() {
            let account = shared.desk.settling().account();
            let _ = self.exchange(shared, account, &[]);
        }
    }

    /// Writes down a frame that never reached the part.
    pub fn refuse(&self, account: u8, sent: usize, read: usize, refusal: Refusal) {
        self.refused(&mut self.lock(), account, sent, read, refusal);
    }

    /// Writes down a frame that was refused.
    fn refused(&self, shared: &mut Shared, account: u8, sent: usize, read: usize, refusal: Refusal) {
        let refused = Refused {
            tick: shared.desk.tick,
            account,
            sent,
            read,
            refusal,
        };
        shared.tell(|log| log.tell(|line| refused.line(line)), |log| log.tell(|line| refused.json(line)));
        shared.counts.refusal(refusal);
        self.happened(shared);
    }

    /// Lets ticks pass by a client's delay. With the machine's clock they pass by themselves: then it is said how long that takes.
    pub fn pass(&self, ticks: u64) -> Option<Duration> {
        if let Some((clock, _)) = self.clock {
            return Some(clock.time(ticks));
        }
        let mut shared = self.lock();
        shared.desk.waiting = shared.desk.waiting.saturating_add(ticks);
        self.happened(&mut shared);
        None
    }

    /// Ticks that have passed since the last frame. Those that a frame took with its bytes have passed already.
    pub fn waiting(&self, desk: &Desk) -> u64 {
        match self.clock {
            Some((clock, start)) => {
                let now = start + u128::from(clock.ticks());
                u64::try_from(now.saturating_sub(desk.tick)).unwrap_or(u64::MAX)
            }
            None => desk.waiting,
        }
    }

    /// The desk as it is saved: with the ticks that wait for the next frame.
    pub fn snapshot(&self, shared: &Shared) -> Desk {
        Desk {
            waiting: self.waiting(&shared.desk),
            ..shared.desk.clone()
        }
    }

    /// Counts a client or a stranger. If nobody watches the counters, nothing has happened.
    pub fn count(&self, how: impl FnOnce(&mut Counts)) {
        let mut shared = self.lock();
        how(&mut shared.counts);
        if self.watched {
            self.happened(&mut shared);
        }
    }

    /// One more thing has happened.
    fn happened(&self, shared: &mut Shared) {
        if shared.events == shared.seen {
            self.news.notify_all();
        }
        shared.events += 1;
    }

    /// A client has left, so what has changed is saved now.
    pub fn left(&self) {
        self.count(Counts::leave);
        let mut shared = self.lock();
        if shared.events != shared.seen {
            shared.at_once = true;
            self.news.notify_all();
        }
    }

    /// Waits until something has happened and then nothing for a while, or until that has taken too long, or until it is time again in any
    /// case. Answers whether this is a quiet moment.
    pub fn wait(&self, quiet: Duration, most: Duration, again: Option<Duration>) -> bool {
        let mut shared = self.lock();
        let (begun, again) = (Instant::now(), again.unwrap_or(Duration::MAX));
        while shared.events == shared.seen {
            let left = again.saturating_sub(begun.elapsed());
            if left.is_zero() {
                return true;
            }
            shared = self.news.wait_timeout(shared, left).unwrap_or_else(PoisonError::into_inner).0;
        }
        let begun = Instant::now();
        loop {
            let before = shared.events;
            if !shared.at_once {
                shared = self.news.wait_timeout(shared, quiet).unwrap_or_else(PoisonError::into_inner).0;
            }
            let is_quiet = shared.at_once || shared.events == before;
            if is_quiet || begun.elapsed() >= most {
                shared.at_once = false;
                shared.seen = shared.events;
                return is_quiet;
            }
        }
    }
}

impl Shared {
    /// Writes something to the logs there are.
    fn tell(&mut self, lines: impl FnOnce(&mut Log), json: impl FnOnce(&mut Log)) {
        if let Some(log) = &mut self.lines {
            lines(log);
        }
        if let Some(log) = &mut self.json {
            json(log);
        }
    }

    /// Writes what the logs have in their blocks.
    pub fn flush(&mut self) {
        self.tell(Log::flush, Log::flush);
    }

    /// The logs there are.
    pub fn logs(&self) -> impl Iterator<Item = &Log> {
        self.lines.iter().chain(&self.json)
    }
}
