//! `oxterin state`: the state of a desk in words, and fresh ones.
use crate::complaint::{complaint, Complaint};
use crate::desk::Desk;
use crate::fresh::{self, PART_FLAGS, PART_HELP, PART_VALUED};
use crate::lines::{counted, hex, thousands};
use crate::options::Given;
use crate::paths::{apart, Use};
use crate::source::Source;
use crate::{image, say, state, table};
use oxterin::{Mode, Part, Record, Settings};

/// `oxterin state --help`.
pub fn help() -> String {
    format!(
        "\
oxterin state: a part with its books in one file, shown or made

Usage: oxterin state FILE [--save OUT]
       oxterin state FILE --new [OPTIONS]

Without --new FILE is shown: the record, the busy ticks left and whose they are, the pages in use, the durations, the
time, and what each account was billed. It is only read, also while a server uses it; then it is what that last saved.

  --save OUT          the array's content goes to OUT, whole; to a name in .hex or .ihex as Intel HEX

With --new a fresh one is made: an empty ledger, tick 0, and the part that the options describe. FILE must not exist.

{PART_HELP}  --register FILE     the security register's first content, 128 bytes; without it every byte is FFh

run, bill and serve go on from it with --state FILE and save it whole: if they are killed at any moment, it is the old
one or the new one. docs/STATE.md gives its layout.
"
    )
}

/// Shows a state or makes one.
pub fn state(words: &[String]) -> Result<(), Complaint> {
    let valued = [&PART_VALUED[..], &["--register", "--save"]].concat();
    let flags = [&PART_FLAGS[..], &["--new"]].concat();
    let given = Given::read(words, &valued, &flags)?;
    let path = match &given.words[..] {
        [path] => path,
        [] => return Err(complaint("state wants a file after it: oxterin state FILE")),
        [_, second, ..] => return Err(complaint(format!("state takes one file, and {second} is a second one"))),
    };
    match given.has("--new") {
        true => make(path, &given),
        false => show(path, &given),
    }
}

/// Makes a fresh state.
fn make(path: &str, given: &Given) -> Result<(), Complaint> {
    if let Some(out) = given.value("--save") {
        return Err(complaint(format!("--save {out} does not go with --new; save the array afterwards")));
    }
    apart(given, &[("the state", path, Use::Written)])?;
    let mut held = state::make(path)?;
    let mut part = fresh::part(given)?;
    if let Some(path) = given.value("--register") {
        part = with_register(part, path)?;
    }
    held.save(&state::encode(&Desk::new(part)))
}

/// The part with the register of this file.
fn with_register(part: Part, path: &str) -> Result<Part, Complaint> {
    let register = Source::File(path).read()?;
    let length = register.len() as u64;
    Part::resumed(part.array().to_vec(), register, part.record, part.settings).map_err(|_| {
        complaint(format!(
            "--register {path}: the security register has 128 bytes, and this file {}",
            thousands(length)
        ))
    })
}

/// Shows a state.
fn show(path: &str, given: &Given) -> Result<(), Complaint> {
    let options = PART_VALUED.iter().chain(&PART_FLAGS).chain(&["--register"]);
    if let Some(option) = options.copied().find(|option| given.has(option) || given.value(option).is_some()) {
        return Err(complaint(format!(
            "{option} describes a fresh part; to make one, write: oxterin state FILE --new {option} .."
        )));
    }
    apart(given, &[("the state", path, Use::Read)])?;
    let mut saved = given.value("--save").map(image::hold).transpose()?;
    let desk = state::load(path)?;
    if let Some(held) = &mut saved {
        image::save(held, desk.part.array())?;
    }
    say(&words(&desk))
}

/// What a state says, in words.
fn words(desk: &Desk) -> String {
    let part = &desk.part;
    let facts = [
        ("array", array(part)),
        ("register", register(part)),
        ("record", record(&part.record)),
        ("busy", busy(desk)),
        ("durations", durations(&part.settings)),
        ("time", time(desk)),
        ("books", books(desk)),
    ];
    let facts: String = facts.map(|(what, words)| format!("{what:<12}{words}\n")).concat();
    format!("{facts}\n{}", table::accounts(desk))
}

/// How large the array is, and how many of its pages are not blank.
fn array(part: &Part) -> String {
    const PAGE: usize = 256;
    let pages = part.array().chunks(PAGE);
    let (all, used) = (
        pages.len() as u64,
        pages.filter(|page| page.iter().any(|byte| *byte != 0xFF)).count() as u64,
    );
    format!(
        "{}, {} of {} in use",
        counted(part.array().len() as u64, "byte"),
        thousands(used),
        counted(all, "page")
    )
}

/// Which of the register's halves are blank.
fn register(part: &Part) -> String {
    let half = |bytes: &[u8]| match bytes.iter().all(|byte| *byte == 0xFF) {
        true => "blank".to_string(),
        false => hex(bytes),
    };
    let (user, factory) = part.register().split_at(Part::REGISTER / 2);
    format!("user bytes {}; factory bytes {}", half(user), half(factory))
}

/// The record, its busy ticks left out.
fn record(record: &Record) -> String {
    let mode = match record.mode {
        Mode::Awake => "awake",
        Mode::Deep => "in deep power-down",
        Mode::UltraDeep => "in ultra-deep power-down",
    };
    let bits = [("BPL", record.bpl), ("BP0", record.bp0), ("WEL", record.wel), ("RSTE", record.rste)];
    let bits = bits.map(|(name, bit)| format!("{name} {}", u8::from(bit))).join(", ");
    let otp = match record.otp_used {
        true => "used",
        false => "not used",
    };
    format!("{mode}; {bits}; one-time-programmable bytes {otp}")
}

/// The busy ticks left, and whose they are.
fn busy(desk: &Desk) -> String {
    let running = desk.ledger.running;
    match (desk.part.record.busy, running.owner()) {
        (0, _) => "idle".to_string(),
        (left, Some(account)) => format!(
            "{} left of an operation of account {account}, billed so far for {}",
            counted(left, "tick"),
            thousands(running.billed)
        ),
        (left, None) => format!("{} left, billed to nobody", counted(left, "tick")),
    }
}

/// The eight durations.
fn durations(settings: &Settings) -> String {
    let each = Settings::NAMES.iter().zip(settings.words());
    each.map(|(name, ticks)| format!("{name} {}", thousands(ticks)))
        .collect::<Vec<_>>()
        .join("; ")
}

/// The ticks that have passed.
fn time(desk: &Desk) -> String {
    let passed = format!("{} passed", counted(desk.tick, "tick"));
    match desk.waiting {
        0 => passed,
        waiting => format!("{passed}, and {} since the last frame", thousands(waiting)),
    }
}

/// Since when the books count, and what.
fn books(desk: &Desk) -> String {
    format!("since tick {}, {}", thousands(desk.opened), counted(desk.frames, "frame"))
}
