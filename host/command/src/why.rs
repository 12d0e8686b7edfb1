//! `oxterin why`: frames from text, and why those came to nothing or were aborted that did.
use crate::advice::{self, NOTHING_MISSED};
use crate::complaint::{complaint, Complaint};
use crate::desk::Desk;
use crate::frames::{self, Frame, Frames, LINE_HELP, UNSAID_HELP, UNSAID_VALUED};
use crate::fresh::{PART_FLAGS, PART_HELP, PART_VALUED};
use crate::glimpse::Glimpse;
use crate::history::History;
use crate::lines::thousands;
use crate::missed::{why_not, Missed};
use crate::options::Given;
use crate::paths::apart;
use crate::progress::Progress;
use crate::{say, state};

/// So many frames are listed unless all are.
const LISTED: usize = 10;

/// `oxterin why --help`.
pub fn help() -> String {
    format!(
        "\
oxterin why: sends frames to a part and says why some came to nothing or were aborted

Usage: oxterin why [FILE] [OPTIONS]

Reads FILE, or standard input if there is none or it is -. The lines are those that run takes; the log of oxterin serve
is such a file. First comes a row for each cause: how many frames, and the line and the command of the first. Then comes
what to do about each, and then the frames themselves with what the part was doing:

  Of 4 frames, 1 came to nothing.

  frames   cause         first
       1   latch clear   line 4, chip erase

  latch clear: send 06h before each program, erase or status write; the latch drops after every one

  line 4: C7 > nothing: latch clear since line 2

A frame of no bits lets time pass and is never listed. A bad line or a refused frame is an error that names the line.
Nothing is saved.

{LINE_HELP}
Options:
{PART_HELP}  --state FILE        begins with the part in FILE, which oxterin state has made; it is only read. It goes with none
                      of --size, --image, --set, --bpl, --bp0 and --otp-used
{UNSAID_HELP}  --all               lists all such frames, as they are found, and then the causes; without it the first {LISTED}
"
    )
}

/// Says why frames came to nothing or were aborted.
pub fn why(words: &[String]) -> Result<(), Complaint> {
    let valued = [&PART_VALUED[..], &UNSAID_VALUED, &["--state"]].concat();
    let flags = [&PART_FLAGS[..], &["--all"]].concat();
    let given = Given::read(words, &valued, &flags)?;
    apart(&given, &[frames::source(&given)])?;
    let mut desk = state::seen(&given)?;
    let mut frames = Frames::open("why", &given)?;
    let mut list = List::begin(given.has("--all"));
    let missed = play(&mut desk, &mut frames, &mut list)?;
    list.end(&missed)
}

/// Sends all frames, and lists those that were not carried out. How far it is, is said where that disturbs no list.
fn play(desk: &mut Desk, frames: &mut Frames, list: &mut List) -> Result<Missed, Complaint> {
    let (mut history, mut missed) = (History::default(), Missed::none());
    let mut progress = (!list.all).then(|| Progress::begin(frames));
    while let Some(next) = frames.next() {
        let (line, frame) = next?;
        let sent = history.send(desk, line, &frame);
        let (sent, came_to) = sent.map_err(|words| complaint(format!("{}: {words}; put this line right first", frames.place())))?;
        missed.note(line, &frame, &sent.exchange.answer);
        if why_not(&sent.exchange.answer, frame.signals.bits).is_some() {
            list.add(&entry(line, &frame, &came_to))?;
        }
        if let Some(progress) = &mut progress {
            progress.tell(frames);
        }
    }
    Ok(missed)
}

/// The line of a list for a frame.
fn entry(line: usize, frame: &Frame, came_to: &str) -> String {
    let account = frame.named.map_or_else(String::new, |account| format!(" account={account}"));
    format!("line {line}: {}{account} > {came_to}\n", Glimpse::of(frame).bytes())
}

/// A list of frames that were not carried out.
struct List {
    /// Whether all are listed, as they are found and before the causes; else the first are kept, to be listed after them.
    all: bool,
    kept: String,
    /// How many there were.
    count: usize,
}

impl List {
    /// Of no frames.
    fn begin(all: bool) -> List {
        List {
            all,
            kept: String::new(),
            count: 0,
        }
    }

    /// One more.
    fn add(&mut self, entry: &str) -> Result<(), Complaint> {
        if self.all {
            return say(entry);
        }
        if self.count < LISTED {
            self.kept += entry;
        }
        self.count += 1;
        Ok(())
    }

    /// Says the causes, and what is still to be listed.
    fn end(&self, missed: &Missed) -> Result<(), Complaint> {
        if missed.is_empty() {
            return say(NOTHING_MISSED);
        }
        let causes = advice::by_cause(missed);
        match self.all {
            true => say(&format!("\n{causes}")),
            false => say(&format!("{causes}\n{}{}", self.kept, self.more())),
        }
    }

    /// How many are left out, if some are.
    fn more(&self) -> String {
        match self.count.saturating_sub(LISTED) {
            0 => String::new(),
            more => format!("and {} more; --all lists them\n", thousands(more as u64)),
        }
    }
}
