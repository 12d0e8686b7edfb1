//! `oxterin serve`: the part behind ports that speak the serial flasher protocol.
mod bench;
mod clock;
mod counts;
mod keeper;
mod log;
mod port;
mod serprog;

use crate::begin::{At, Begin};
use crate::complaint::{complain, complaint, speak_aside, Complaint};
use crate::desk::Desk;
use crate::fresh::{PART_FLAGS, PART_HELP, PART_VALUED};
use crate::image;
use crate::lines::counted;
use crate::options::{self, Given};
use crate::paths::apart;
use crate::source::quoted;
use crate::state::{self, STATE_HELP};
use crate::whole::Kind;
use bench::Bench;
use counts::date;
use keeper::Keeper;
use log::Log;
use oxterin::{Part, Record, Settings, Size};
use oxterin_signals::{Awaited, Signal};
use port::{Port, Service};
use std::borrow::Cow;
use std::io::{self, Write};
use std::sync::mpsc::{channel, Receiver, Sender};
use std::sync::Arc;
use std::thread;
use std::time::{Duration, SystemTime};

/// `oxterin serve --help`.
pub fn help() -> String {
    format!(
        "\
oxterin serve: the part behind the serprog protocol, for flashrom and other clients, billed by account

Usage: oxterin serve [OPTIONS]

Where clients come from, and who pays:
  --port N            the TCP port, at the loopback address only; 8025 (default), or 0 for any free one
  --account N         whose frames they are, 0 (default) to 255
  --listen N=ACCOUNT  in place of the two: a port and whose frames come from it; once for each port
  --idle SECONDS      a client that sends no frame for so long is hung up on; 60 is the default, 0 never
  --once              stop when the first client that sent a frame has left

The part:
{PART_HELP}{STATE_HELP}  --wp low|high       the level of WP; high is the default

Time:
  --clock             a tick is a microsecond of the machine's clock; or --clock=SPEED, so many ticks for each
                      microsecond, such as 10 or 0.5
  --ticks-per-byte N  ticks that pass with each byte of a frame, 0 (default) to 1000

What is written:
  --save OUT          the array, as Intel HEX if the name ends in .hex or .ihex; OUT may be the --image file
  --log FILE          a line for each frame, added to FILE; oxterin bill FILE gives the bill
  --json FILE         the same as JSON, an object a line, with output, cause and ticks billed
  --status FILE       counters to watch, in words

When the server is ready, it prints a line for each port, 'listening on 127.0.0.1:PORT', with 'for account N' after it
if that was said. Then, for a part of 131,072 bytes with flashrom 1.4 or later, and for one of 65,536 bytes:

  flashrom -p serprog:ip=127.0.0.1:PORT -c AT25DF011 ...
  flashrom -p serprog:ip=127.0.0.1:PORT -c AT25F512A ...

One SPI operation (13h) is one chip-select frame: the bytes sent, then a zero for each byte to be read. It reaches the
part when the request is whole, so a client that stops in the middle of one keeps no other port waiting. At one port
the part is one client's at a time, from its first frame or delay until it leaves; the first frame of the next one
waits. Clients of different ports are served at the same time, frame by frame. A frame has at most 8,192
bytes; a longer one is answered with NAK. A connection whose first byte is no command that is served, such as a
browser's, is hung up on, and so is one that speaks STUN, or that later sends a byte above 15h in place of a command.
There is no password: whoever may open a connection on this machine may send frames.

Busy ticks are billed to the account whose frame began the operation, whoever polls afterwards. oxterin bill --state
FILE shows the bill at any time; oxterin bill LOG shows it from a log.

What time is. Without --clock time passes by the clients' delays (0Eh, carried out by 0Fh): their microseconds are the
ticks that elapse before the next frame of any client, and nobody sleeps. A client that waits for the end of an
operation has to send delays between its status reads, as flashrom does. With --clock time passes by itself, so that a
client that only polls sees busy fall, and a delay is really waited for. While no server runs, no time passes. With
--ticks-per-byte time also passes while bytes are clocked, so that a client that polls with chip select held low, by
one long status read, sees busy fall. The clock that a client sets (14h) is not heeded: choose N for it, such as 8 for
1 MHz if a tick is a microsecond.

OUT and the state are saved whole, beside the old one, which is then replaced: when they have changed and no frame has
come for a quarter of a second, when a client leaves, every five seconds under load, and on the way out. SIGTERM, SIGINT
and SIGHUP end the server after that. OUT is made at once if it is missing; an older one stays until the array has
changed. No other oxterin can save them meanwhile.

A line of the log is one that oxterin run takes: the bytes, +TICKS elapsed before it, @TICKS of each byte, wp=low,
account=N, and as a comment status byte 1 afterwards, the outcome and, if that is nothing or aborted, the cause:

  C7 account=7 # ST 10 nothing: latch clear

oxterin why LOG says what to do about each. A refused frame is a comment. Each server begins with a comment that says
from where it goes on, and for a fresh part with which options oxterin bill gives the same bill; oxterin bill complains
if frames are missing in between. The log of a fresh part must be without other frames. Logs are written in blocks, and
when no frame has come for a quarter of a second. On the way out the ticks since the last frame are billed by a frame of
no bits, if the part is busy.

SIGUSR1 writes the counters to standard error: since when, frames, those not carried out by cause, refusals by number,
busy ticks, clients.
"
    )
}

/// The port that is taken unless another is given.
const PORT: u16 = 8025;
/// The seconds of `--idle` unless others are given.
const IDLE: f64 = 60.0;

/// The options beside those of the part that take a value.
const VALUED: [&str; 12] = [
    "--port",
    "--account",
    "--listen",
    "--idle",
    "--state",
    "--wp",
    "--clock",
    "--ticks-per-byte",
    "--save",
    "--log",
    "--json",
    "--status",
];
/// Those that take none.
const FLAGS: [&str; 2] = ["--once", "--clock"];

/// What `--status` writes.
const STATUS: Kind = Kind {
    word: "page of counters",
    such_as: "bench.status",
};

/// Serves the part to clients until the server is asked to end.
pub fn serve(words: &[String]) -> Result<(), Complaint> {
    let given = read(words)?;
    apart(&given, &[])?;
    let (wp_high, ticks_per_byte) = (options::wp_high(&given)?, options::ticks_per_byte(&given)?);
    let (idle, speed) = (idle(&given)?, speed(&given)?);
    let wanted = wanted(&given)?;
    let array = given.value("--save").map(image::hold).transpose()?;
    let status = given.value("--status").map(|path| STATUS.hold(path)).transpose()?;
    let (desk, state) = state::desk(&given)?;
    let ports = wanted.iter().map(|door| door.open()).collect::<Result<Vec<_>, _>>()?;
    let (lines, json) = logs(&given, &desk)?;
    let awaited = oxterin_signals::block();
    speak_aside();
    let (reasons, ended) = channel();
    let mut bench = Bench::new(desk, wp_high, ticks_per_byte, speed).with_logs(lines, json);
    bench.watched = status.is_some();
    let service = Arc::new(Service {
        bench,
        idle,
        left: when_left(given.has("--once"), &reasons),
    });
    let keeper = Arc::new(Keeper::new(&service.bench, array, state, status)?);
    announce(&wanted, &ports)?;
    listen(awaited, &reasons);
    for port in ports {
        let service = Arc::clone(&service);
        thread::spawn(move || port.serve(&service));
    }
    let (files, watched) = (Arc::clone(&keeper), Arc::clone(&service));
    thread::spawn(move || Keeper::keep(&files, &watched.bench));
    let reason = wait(&ended, &service.bench);
    let frames = Keeper::finish(&keeper, &service.bench)?;
    if let Reason::Asked(signal) = reason {
        complain(format!("ended by {signal} after {}; all is saved", counted(frames, "frame")));
    }
    Ok(())
}

/// The options, and nothing beside them.
fn read(words: &[String]) -> Result<Given, Complaint> {
    let given = Given::read(words, &[&PART_VALUED[..], &VALUED].concat(), &[&PART_FLAGS[..], &FLAGS].concat())?;
    match given.words.first() {
        Some(word) if given.has("--clock") && decimal(word).is_some() => Err(complaint(format!(
            "serve takes only options, and was given {word}; write --clock={word}"
        ))),
        Some(word) => Err(complaint(format!(
            "serve takes only options, and was given {word}; --help lists them"
        ))),
        None => Ok(given),
    }
}

/// `--idle SECONDS`: how long a client may send no frame; for ever if there is no time.
fn idle(given: &Given) -> Result<Option<Duration>, Complaint> {
    let seconds = match given.value("--idle") {
        Some(text) => decimal(text)
            .filter(|seconds| *seconds == 0.0 || (0.01..=1e9).contains(seconds))
            .ok_or_else(|| {
                complaint(format!(
                    "--idle {text}: a number of seconds from 0.01, such as 60 or 0.5, or 0 for ever"
                ))
            })?,
        None => IDLE,
    };
    Ok((seconds > 0.0).then(|| Duration::from_secs_f64(seconds)))
}

/// `--clock` or `--clock=SPEED`: how many ticks pass with each microsecond of the machine's clock, if it is said.
fn speed(given: &Given) -> Result<Option<f64>, Complaint> {
    match given.value("--clock") {
        Some(text) => decimal(text).filter(|speed| (1e-6..=1e6).contains(speed)).map(Some).ok_or_else(|| {
            complaint(format!(
                "--clock={text}: a number of ticks for each microsecond, from 0.000001 to 1000000, such as 10 or 0.5"
            ))
        }),
        None => Ok(given.has("--clock").then_some(1.0)),
    }
}

/// A number of digits with perhaps a point.
fn decimal(text: &str) -> Option<f64> {
    let plain = text.bytes().all(|byte| byte.is_ascii_digit() || byte == b'.');
    text.parse().ok().filter(|_| plain)
}

/// A port that is asked for, and whose frames come from it.
struct Door {
    number: u16,
    /// The account that was named, if any.
    account: Option<u8>,
    /// The words that asked for it.
    words: String,
}

impl Door {
    /// Takes the port.
    fn open(&self) -> Result<Arc<Port>, Complaint> {
        Port::open(self.number, self.account.unwrap_or(0)).map(Arc::new).map_err(|error| {
            complaint(format!(
                "{}: port {}: {error}; choose another, or 0 for any free one",
                self.words, self.number
            ))
        })
    }
}

/// The ports that the options ask for.
fn wanted(given: &Given) -> Result<Vec<Door>, Complaint> {
    let account = options::account(given)?;
    let several: Vec<Door> = given.values("--listen").map(|text| door(text, account)).collect::<Result<_, _>>()?;
    match (several.is_empty(), given.value("--port")) {
        (false, None) => Ok(several),
        (false, Some(port)) => Err(complaint(format!(
            "--port {port} does not go with --listen; write --listen {port}=ACCOUNT"
        ))),
        (true, text) => {
            let words = format!("--port {}", text.unwrap_or(&PORT.to_string()));
            let number = text
                .map_or(Some(PORT), |text| text.parse().ok())
                .ok_or_else(|| complaint(format!("{words}: a port is a number from 0 to 65535, and 0 takes any free one")))?;
            Ok(vec![Door { number, account, words }])
        }
    }
}

/// `--listen PORT=ACCOUNT`, or `--listen PORT` for the account that holds where none is said.
fn door(text: &str, unsaid: Option<u8>) -> Result<Door, Complaint> {
    let words = format!("--listen {text}");
    let (port, account) = match text.split_once('=') {
        Some((port, account)) => (port, Some(account)),
        None => (text, None),
    };
    let number = port.parse().map_err(|_| {
        complaint(format!(
            "{words}: write PORT=ACCOUNT, such as 8025=20; a port is a number from 0 to 65535, and 0 takes any free one"
        ))
    })?;
    let account = match account {
        Some(account) => Some(options::account_of(account).ok_or_else(|| {
            complaint(format!(
                "{words}: an account is a number from 0 to 255 (refusal 9), such as 8025=20"
            ))
        })?),
        None => unsaid,
    };
    Ok(Door { number, account, words })
}

/// The logs that the options ask for. The one that replays begins with a line that says from where.
fn logs(given: &Given, desk: &Desk) -> Result<(Option<Log>, Option<Log>), Complaint> {
    let (lines, json) = (given.value("--log"), given.value("--json"));
    let replay = replay(desk);
    lines.map_or(Ok(()), |path| log::check("--log", path, replay.is_some()))?;
    json.map_or(Ok(()), |path| log::check("--json", path, false))?;
    let begin = |path| match &replay {
        Some(options) => Begin::Fresh(format!("bill it by oxterin bill {}{options}", shown(path))),
        None => Begin::GoesOn(At {
            tick: desk.tick,
            frames: desk.sent,
        }),
    };
    let lines = lines.map(|path| Log::open("--log", path, &begin(path).line(&now()))).transpose()?;
    Ok((lines, json.map(|path| Log::open("--json", path, "")).transpose()?))
}

/// A path as a word for the shell, in one line.
fn shown(path: &str) -> Cow<'_, str> {
    match path.chars().any(char::is_control) {
        true => "FILE".into(),
        false => quoted(path),
    }
}

/// The date and the time of day.
fn now() -> String {
    date(SystemTime::now())
}

/// The options that make a desk with which every frame is judged as with this one, if it is fresh. What the array holds does not matter: no
/// decision and no bill comes from stored bytes.
fn replay(desk: &Desk) -> Option<String> {
    let Part { record, settings, .. } = &desk.part;
    let size = Size::of_bytes(desk.part.array().len())?;
    let mut fresh = Desk::new(desk.part.clone());
    fresh.part.record = Record::fresh(record.bpl, record.bp0, record.otp_used);
    if *desk != fresh {
        return None;
    }
    let named = Settings::NAMES.iter().zip(settings.words()).zip(Settings::typical().words());
    let changed = named.filter(|((_, ticks), typical)| ticks != typical);
    let durations = changed.map(|((name, ticks), _)| format!(" --set {name}={ticks}"));
    let flags = [(record.bpl, " --bpl"), (record.bp0, " --bp0"), (record.otp_used, " --otp-used")];
    let flags = flags.into_iter().filter(|(set, _)| *set).map(|(_, flag)| flag.to_string());
    let size = match size {
        Size::Whole => String::new(),
        size => format!(" --size {}", size.bytes()),
    };
    Some([size].into_iter().chain(durations).chain(flags).collect())
}

/// Says that clients may come, and where.
fn announce(wanted: &[Door], ports: &[Arc<Port>]) -> Result<(), Complaint> {
    let lines = wanted.iter().zip(ports).map(|(door, port)| {
        let whose = door.account.map_or_else(String::new, |account| format!(" for account {account}"));
        port.address().map(|address| format!("listening on {address}{whose}\n"))
    });
    lines
        .collect::<io::Result<String>>()
        .and_then(|lines| io::stdout().write_all(lines.as_bytes()))
        .and_then(|()| io::stdout().flush())
        .map_err(|error| complaint(format!("standard output: {error}")))
}

/// Why the server does something beside serving.
enum Reason {
    /// A signal has come.
    Asked(Signal),
    /// A client that was served has left, and was to be the only one.
    Left,
}

/// Hands signals on.
fn listen(awaited: Awaited, reasons: &Sender<Reason>) {
    let reasons = reasons.clone();
    thread::spawn(move || while reasons.send(Reason::Asked(awaited.next())).is_ok() {});
}

/// What is done when a client has left: nothing, unless it was to be the only one.
fn when_left(once: bool, reasons: &Sender<Reason>) -> Box<dyn Fn() + Send + Sync> {
    let reasons = reasons.clone();
    Box::new(move || {
        if once {
            let _ = reasons.send(Reason::Left); // nobody hears it if the server is ending already
        }
    })
}

/// Waits for a reason to end. Asked how it is, the server says so.
fn wait(reasons: &Receiver<Reason>, bench: &Bench) -> Reason {
    loop {
        match reasons.recv().unwrap_or(Reason::Left) {
            Reason::Asked(Signal::Status) => {
                let shared = bench.lock();
                complain(format!("at {}\n{}", now(), shared.counts.page(&shared.desk).trim_end()));
            }
            reason => return reason,
        }
    }
}
