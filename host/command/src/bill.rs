//! `oxterin bill`: frames from text, and which account pays for the time that the part was busy.
use crate::complaint::{complaint, Complaint};
use crate::desk::Desk;
use crate::frames::{self, Frames, LINE_HELP, UNSAID_HELP, UNSAID_VALUED};
use crate::fresh::{PART_FLAGS, PART_HELP, PART_VALUED};
use crate::options::Given;
use crate::page::page;
use crate::paths::apart;
use crate::progress::Progress;
use crate::say;
use crate::state::{self, STATE_HELP};
use crate::table::{csv, table};
use crate::tally::Tally;
use crate::whole::{Held, Kind};

/// `oxterin bill --help`.
pub fn help() -> String {
    format!(
        "\
oxterin bill: sends frames to a part and says which account pays for the time that it was busy

Usage: oxterin bill [FILE] [OPTIONS]
       oxterin bill --state STATE [--close] [OPTIONS]

Reads FILE, or standard input if there is none or it is -. The lines are those that run takes, and account=N in a line
says whose frame it is; the log of oxterin serve is such a file. A bad line or a refused frame is an error that names
the line, and then there is no bill. With --state and no FILE nothing is sent: the bill is that of the books in STATE,
as they were last saved, also while a server uses them.

{LINE_HELP}
A tick for which the part is busy is billed to the account whose frame began the operation, whoever polls afterwards. It
is counted from the end of that frame to the end of the operation, or of the reset that stops it. Without --state the
bill begins with an empty ledger and an idle part. An operation that still runs at the end is billed up to there. The
bill has a row for each account that began an operation or was billed, with a bar in proportion to its total:

  account   total ticks   most for one operation   operations
        7     1,600,012                1,600,000            2   ##############################
       12        50,000                   50,000            1   #
      all     1,650,012                1,600,000            3

After it comes whose frames came to nothing or were aborted, if some did: by account and cause, with the first of them
and what to do. These are the frames read now; a state does not keep them.

Options:
{PART_HELP}{STATE_HELP}{UNSAID_HELP}  --close             closes a month: the bill is written, then the books of --state are emptied and saved. The state
                      as it was stays beside it, as FILE.closed-TICK. An operation that is running stays its
                      account's: its ticks before the close and its number are in the old bill, its ticks after it in
                      the new one, whose most for one operation counts these alone. If the bill cannot be written, the
                      books stay as they were. A server that uses the state has to be ended first
  --csv               comma-separated values in place of all this, with the heads account,total,most,operations
  --html OUT          beside the table or --csv, the bill as a page for a browser goes to OUT, whole: also a line for
                      each operation, with its frame, what it was billed, and who sent frames while it ran
"
    )
}

/// What `--html` writes.
const PAGE: Kind = Kind {
    word: "page",
    such_as: "bill.html",
};

/// Adds up what frames cost, and whom.
pub fn bill(words: &[String]) -> Result<(), Complaint> {
    let valued = [&PART_VALUED[..], &UNSAID_VALUED, &["--state", "--html"]].concat();
    let flags = [&PART_FLAGS[..], &["--csv", "--close"]].concat();
    let given = Given::read(words, &valued, &flags)?;
    match state::path(&given)? {
        Some(path) if given.words.is_empty() => of_books(path, &given),
        None if given.has("--close") => Err(complaint(
            "--close empties the books of a state; name it: oxterin bill --state FILE --close",
        )),
        _ => of_frames(&given),
    }
}

/// The bill of the books in a state, with the ticks that have passed since the last frame. It is only read, unless the books are closed.
fn of_books(path: &str, given: &Given) -> Result<(), Complaint> {
    apart(given, &[])?;
    let page = hold_page(given)?;
    let (mut desk, held) = match given.has("--close") {
        true => state::open(path).map(|(desk, held)| (desk, Some(held)))?,
        false => (state::load(path)?, None),
    };
    desk.settle();
    let tally = Tally::new(desk, true);
    hand_out(&tally, path, given, page)?;
    held.map_or(Ok(()), |held| close(tally.desk, held))
}

/// The bill of frames, on a fresh part or in the books of a state. These are saved after the bill was written, so that frames whose bill nobody
/// got can be sent again.
fn of_frames(given: &Given) -> Result<(), Complaint> {
    apart(given, &[frames::source(given)])?;
    let page = hold_page(given)?;
    let (desk, kept) = state::desk(given)?;
    let mut tally = Tally::new(desk, page.is_some());
    let mut frames = Frames::open("bill", given)?;
    add_up(&mut tally, &mut frames)?;
    hand_out(&tally, frames.name(), given, page)?;
    match kept {
        Some(held) if given.has("--close") => close(tally.desk, held),
        Some(mut held) => held.save(&state::encode(&tally.desk)),
        None => Ok(()),
    }
}

/// Takes hold of the page's file, if there is to be one.
fn hold_page(given: &Given) -> Result<Option<Held>, Complaint> {
    given.value("--html").map(|path| PAGE.hold(path)).transpose()
}

/// Writes the bill, with the name of what it is a bill of.
fn hand_out(tally: &Tally, name: &str, given: &Given, page_file: Option<Held>) -> Result<(), Complaint> {
    if let Some(mut held) = page_file {
        held.save(page(name, tally).as_bytes())?;
    }
    match given.has("--csv") {
        true => say(&csv(&tally.desk)),
        false => say(&table(tally)),
    }
}

/// Closes the month in the books and saves them, having kept a copy of what they were.
fn close(mut desk: Desk, mut held: Held) -> Result<(), Complaint> {
    state::keep_closed(held.path(), &desk)?;
    desk.close();
    held.save(&state::encode(&desk))
}

/// Sends all frames.
fn add_up(tally: &mut Tally, frames: &mut Frames) -> Result<(), Complaint> {
    let mut progress = Progress::begin(frames);
    while let Some(next) = frames.next() {
        let (line, frame) = next?;
        tally
            .send(line, &frame)
            .map_err(|words| complaint(format!("{}: {words}; so there is no bill", frames.place())))?;
        progress.tell(frames);
    }
    Ok(())
}
