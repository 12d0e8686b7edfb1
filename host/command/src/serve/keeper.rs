//! Saves what a server has to save: when it has changed and the clients are quiet, and on the way out.
use super::bench::{Bench, Shared};
use super::log::Log;
use crate::complaint::{complain, Complaint};
use crate::desk::Desk;
use crate::whole::Held;
use crate::{image, state};
use std::fs::File;
use std::mem;
use std::sync::{Arc, Mutex, PoisonError};
use std::time::{Duration, Instant};

/// So long nothing has to happen for a moment to be quiet.
const QUIET: Duration = Duration::from_millis(250);
/// Logs and counters are no older than this, however busy the server is.
const OFTEN: Duration = Duration::from_secs(1);
/// Array and state are no older than this, however busy the server is. A save that failed is tried again after it.
const SELDOM: Duration = Duration::from_secs(5);

/// The files of a server.
pub struct Keeper {
    array: Option<Kept>,
    state: Option<Kept>,
    status: Option<Kept>,
    /// What tells whether the desk has changed since it was saved.
    mark: Option<Mark>,
    /// When it was saved last.
    saved: Instant,
    /// When the counters were saved last.
    told: Instant,
}

/// Frames accepted and ticks that wait for the next: a desk changes with one of them.
type Mark = (u64, u64);

/// A file that is saved from time to time.
struct Kept {
    held: Held,
    /// What it holds, if that is known.
    holds: Option<Vec<u8>>,
    /// What was complained of when it could not be saved.
    wrong: Option<Complaint>,
}

impl Kept {
    /// Saves the bytes, unless the file holds them already.
    fn save(&mut self, bytes: Vec<u8>) -> Result<(), Complaint> {
        if self.holds.as_ref() == Some(&bytes) {
            return Ok(());
        }
        self.holds = None;
        self.held.save(&bytes)?;
        self.holds = Some(bytes);
        self.wrong = None;
        Ok(())
    }

    /// Saves the bytes. If that fails it is said once, and answered.
    fn try_save(&mut self, bytes: Vec<u8>) -> bool {
        match self.save(bytes) {
            Ok(()) => true,
            Err(wrong) => {
                if self.wrong.as_ref() != Some(&wrong) {
                    complain(&wrong);
                }
                self.wrong = Some(wrong);
                false
            }
        }
    }
}

impl Keeper {
    /// The keeper of these files. An array's file that is not there yet is made at once, and the page of counters is written.
    pub fn new(bench: &Bench, array: Option<Held>, state: Option<Held>, status: Option<Held>) -> Result<Mutex<Keeper>, Complaint> {
        let shared = bench.lock();
        let desk = &shared.desk;
        let kept = |held, holds| Kept { held, holds, wrong: None };
        let mut keeper = Keeper {
            array: array.map(|held| kept(held, None)),
            state: state.map(|held| kept(held, Some(state::encode(desk)))),
            status: status.map(|held| kept(held, None)),
            mark: Some(mark(&shared)),
            saved: Instant::now(),
            told: Instant::now(),
        };
        if let Some(kept) = &mut keeper.array {
            let bytes = image::written(kept.held.path(), desk.part.array());
            match kept.held.exists() {
                true => kept.holds = Some(bytes), // it is replaced when the array has changed, and not before
                false => kept.save(bytes)?,
            }
        }
        if let Some(kept) = &mut keeper.status {
            kept.save(shared.counts.page(desk).into_bytes())?;
        }
        Ok(Mutex::new(keeper))
    }

    /// Saves as long as the server runs.
    pub fn keep(keeper: &Mutex<Keeper>, bench: &Bench) -> ! {
        let mut again = None;
        loop {
            let quiet = bench.wait(QUIET, OFTEN, again);
            let mut keeper = keeper.lock().unwrap_or_else(PoisonError::into_inner);
            again = keeper.cycle(bench, quiet);
        }
    }

    /// Saves what has changed, if it is time to. Answers when to come again, though nothing happens.
    fn cycle(&mut self, bench: &Bench, quiet: bool) -> Option<Duration> {
        let mut shared = bench.lock();
        shared.flush();
        let page = self.status.as_ref().map(|_| shared.counts.page(&shared.desk));
        let mark = mark(&shared);
        let changed = self.mark != Some(mark) && (self.array.is_some() || self.state.is_some());
        let now = changed && (quiet || self.saved.elapsed() >= SELDOM);
        let desk = now.then(|| bench.snapshot(&shared));
        let logs: Vec<Arc<File>> = shared.logs().map(Log::file).collect();
        drop(shared);
        let files = match desk {
            Some(desk) => {
                sync(&logs);
                self.save(&desk, mark)
            }
            None => changed.then_some(QUIET),
        };
        let counters = page.and_then(|page| self.tell(page));
        files.into_iter().chain(counters).min()
    }

    /// Saves array and state. If that fails it is to be tried again.
    fn save(&mut self, desk: &Desk, mark: Mark) -> Option<Duration> {
        let array = self.array.as_mut();
        let array = array.is_none_or(|kept| kept.try_save(image::written(kept.held.path(), desk.part.array())));
        let state = self.state.as_mut().is_none_or(|kept| kept.try_save(state::encode(desk)));
        self.saved = Instant::now();
        self.mark = (array && state).then_some(mark);
        self.mark.is_none().then_some(SELDOM)
    }

    /// Saves the page of counters, unless that was done just now; then it is to be done later.
    fn tell(&mut self, page: String) -> Option<Duration> {
        if self.told.elapsed() < OFTEN {
            return Some(OFTEN);
        }
        self.told = Instant::now();
        self.status.as_mut().map(|kept| kept.try_save(page.into_bytes()));
        None
    }

    /// Saves everything a last time, and lets nobody touch the part any more. Answers how many frames there were.
    pub fn finish(keeper: &Mutex<Keeper>, bench: &Bench) -> Result<u64, Complaint> {
        let mut keeper = keeper.lock().unwrap_or_else(PoisonError::into_inner);
        let mut shared = bench.lock();
        bench.settle(&mut shared);
        shared.flush();
        sync(&shared.logs().map(Log::file).collect::<Vec<_>>());
        let desk = bench.snapshot(&shared);
        let (page, frames) = (shared.counts.page(&desk), shared.counts.frames());
        let Keeper { array, state, status, .. } = &mut *keeper;
        let saved = [
            array
                .as_mut()
                .map(|kept| kept.save(image::written(kept.held.path(), desk.part.array()))),
            state.as_mut().map(|kept| kept.save(state::encode(&desk))),
            status.as_mut().map(|kept| kept.save(page.into_bytes())),
        ];
        let logged = shared.logs().try_for_each(Log::is_whole);
        mem::forget((shared, keeper)); // the clients' threads wait from now on until the process has ended
        saved.into_iter().flatten().collect::<Result<(), Complaint>>()?;
        logged.map(|()| frames)
    }
}

/// Makes sure that logs are on the disk before the state that goes with them. What cannot be synced was said when it was written.
fn sync(logs: &[Arc<File>]) {
    for log in logs {
        let _ = log.sync_data();
    }
}

/// What tells whether the desk has changed.
fn mark(shared: &Shared) -> Mark {
    (shared.counts.frames(), shared.desk.waiting)
}
