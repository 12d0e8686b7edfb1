//! `oxterin run`: frames from text, answered line by line.
use crate::complaint::{complain, complaint, Complaint};
use crate::desk::{Desk, Sent};
use crate::frames::{self, Frame, Frames, LINE_HELP, UNSAID_HELP, UNSAID_VALUED};
use crate::fresh::{PART_FLAGS, PART_HELP, PART_VALUED};
use crate::history::History;
use crate::lines::{answered, counted};
use crate::missed::Missed;
use crate::options::Given;
use crate::paths::apart;
use crate::state::{self, STATE_HELP};
use crate::{advice, image, say};
use oxterin::Answer;
use std::io::{self, IsTerminal};

/// `oxterin run --help`.
pub fn help() -> String {
    format!(
        "\
oxterin run: sends frames to a part and answers each with a line

Usage: oxterin run [FILE] [OPTIONS]

Reads FILE, or standard input if there is none or it is -. A line is a frame; what comes after # is a comment. A bad
line or a refused frame ends the run with an error that names the line, and then nothing is saved.

{LINE_HELP}
Each is answered by the bytes sent, what the output read, and status byte 1 after the call:

  05 00 00 > FF 11 01 ST 11

Options:
{PART_HELP}{STATE_HELP}{UNSAID_HELP}  --save FILE         afterwards the array's content goes to FILE, whole; to a name in .hex or .ihex as Intel HEX
  --explain           each line also says the outcome, why the frame came to nothing or was aborted, if it was, the
                      driven positions, the ticks that the frame lasts, if any, and the busy ticks left; and, once
                      --account or a line has named an account, the ticks billed, if any, and to whom. oxterin
                      bill adds them up. After the last line comes how often each cause occurred, where first,
                      and what to do about it; oxterin why says that alone. Without --explain a run that is
                      started at a terminal says in the end how many frames were not carried out
"
    )
}

/// Answers frames line by line.
pub fn run(words: &[String]) -> Result<(), Complaint> {
    let valued = [&PART_VALUED[..], &UNSAID_VALUED, &["--state", "--save"]].concat();
    let flags = [&PART_FLAGS[..], &["--explain"]].concat();
    let given = Given::read(words, &valued, &flags)?;
    apart(&given, &[frames::source(&given)])?;
    let mut saved = given.value("--save").map(image::hold).transpose()?;
    let (mut desk, mut kept) = state::desk(&given)?;
    let mut frames = Frames::open("run", &given)?;
    match given.has("--explain") {
        true => explain_all(&mut desk, &mut frames)?,
        false => answer_all(&mut desk, &mut frames)?,
    }
    if let Some(held) = &mut saved {
        image::save(held, desk.part.array())?;
    }
    kept.as_mut().map_or(Ok(()), |held| held.save(&state::encode(&desk)))
}

/// Answers all frames.
fn answer_all(desk: &mut Desk, frames: &mut Frames) -> Result<(), Complaint> {
    let mut missed = Missed::none();
    while let Some(next) = frames.next() {
        let (line, frame) = next?;
        let sent = desk.send(&frame).map_err(|words| refused(&frames.place(), &words))?;
        missed.note(line, &frame, &sent.exchange.answer);
        say(&format!("{}\n", answer(desk, &frame, &sent)))?;
    }
    hint(&missed);
    Ok(())
}

/// Answers and explains all frames, and says at the end why some were not carried out.
fn explain_all(desk: &mut Desk, frames: &mut Frames) -> Result<(), Complaint> {
    let (mut history, mut missed) = (History::default(), Missed::none());
    let mut accounts = false;
    while let Some(next) = frames.next() {
        let (line, frame) = next?;
        let sent = history.send(desk, line, &frame);
        let (sent, came_to) = sent.map_err(|words| refused(&frames.place(), &words))?;
        missed.note(line, &frame, &sent.exchange.answer);
        accounts |= frame.named.is_some();
        let more = explained(&came_to, &frame, &sent, desk.part.record.busy, accounts);
        say(&format!("{}{more}\n", answer(desk, &frame, &sent)))?;
    }
    match missed.is_empty() {
        true => Ok(()),
        false => say(&format!("\n{}", advice::by_cause(&missed))),
    }
}

/// The line that answers a frame.
fn answer(desk: &Desk, frame: &Frame, sent: &Sent) -> String {
    answered(&frame.input, &sent.exchange.output, desk.part.status(frame.signals.wp_high)[0])
}

/// The complaint of a refused frame.
fn refused(place: &str, words: &str) -> Complaint {
    complaint(format!(
        "{place}: {words}; the frames before it were answered, and nothing is saved"
    ))
}

/// Says on a terminal that frames were not carried out, and how to know why. What goes to a file or a program stays as it is.
fn hint(missed: &Missed) {
    if !missed.is_empty() && io::stderr().is_terminal() {
        complain(format!("{} --explain says why, and so does oxterin why", advice::headline(missed)));
    }
}

/// What a frame came to, the driven positions, the ticks that it lasted, if any, the busy ticks left, and, once an account has been named,
/// what was billed, if anything, in words.
fn explained(came_to: &str, frame: &Frame, sent: &Sent, busy: u64, accounts: bool) -> String {
    let driven = driven(&sent.exchange.answer);
    let lasted = match frame.signals.frame_ticks() {
        0 => String::new(),
        ticks => format!("lasts {}, ", counted(ticks, "tick")),
    };
    let busy = match busy {
        0 => "idle".to_string(),
        ticks => format!("busy for {}", counted(ticks, "tick")),
    };
    let billed = sent.billed.filter(|_| accounts).map_or_else(String::new, |billed| {
        format!(", {} billed to account {}", counted(billed.ticks, "tick"), billed.account)
    });
    format!(" ({came_to}, {driven}, {lasted}{busy}{billed})")
}

/// The driven positions, in words.
fn driven(answer: &Answer) -> String {
    match answer.driven {
        0 => "drives nothing".to_string(),
        1 => format!("drives position {}", answer.first),
        driven => format!("drives positions {} to {}", answer.first, answer.first + driven - 1),
    }
}
