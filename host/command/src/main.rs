//! The command `oxterin`: the proved part for people at a bench.
#![forbid(unsafe_code)]

mod advice;
mod begin;
mod bill;
mod books;
mod columns;
mod complaint;
mod desk;
mod frames;
mod fresh;
mod glimpse;
mod hex;
mod hex_fault;
mod history;
mod image;
mod lines;
mod missed;
mod options;
mod page;
mod paths;
mod progress;
mod remedy;
mod run;
mod serve;
mod session;
mod source;
mod state;
mod table;
mod tally;
mod whole;
mod why;

use complaint::{complain, complaint, settle, Complaint};
use std::io::{self, Write};
use std::process::ExitCode;

const HELP: &str = "\
oxterin: a simulated AT25XE011 serial flash, from a library whose every function is proved

Usage: oxterin COMMAND [OPTIONS]

  session     the built-in session of four frames
  run         frames from a file or standard input, answered line by line
  why         the same frames, and why some came to nothing or were aborted
  bill        frames from a file or standard input, and which account pays for the busy time
  serve       the part behind the serprog protocol, for flashrom and other clients
  state       a part with its books in one file, shown or made
  hex         array images to Intel HEX text, and back

  oxterin COMMAND --help    what a command takes
  oxterin --version         the version of the command and of the proved library, and how that was built
";

fn main() -> ExitCode {
    let ended = match words().and_then(|words| obey(&words)) {
        Ok(()) => ExitCode::SUCCESS,
        Err(error) => {
            complain(error);
            ExitCode::from(2)
        }
    };
    settle();
    ended
}

/// The words after the command's name.
fn words() -> Result<Vec<String>, Complaint> {
    std::env::args_os()
        .skip(1)
        .map(|word| {
            word.into_string().map_err(|word| {
                complaint(format!(
                    "{}: this word is not text in UTF-8; rename the file",
                    word.to_string_lossy()
                ))
            })
        })
        .collect()
}

/// Does what the words ask for.
fn obey(words: &[String]) -> Result<(), Complaint> {
    let (command, rest) = match words.split_first() {
        Some((command, rest)) => (command.as_str(), rest),
        None => return Err(complaint(format!("no command was given\n\n{}", HELP.trim_end()))),
    };
    let asks_help = rest
        .iter()
        .take_while(|word| *word != "--")
        .any(|word| word == "--help" || word == "-h");
    match command {
        "--help" | "-h" | "help" => say(HELP),
        "--version" | "-V" => say(&version()),
        "session" if asks_help => say(session::HELP),
        "run" if asks_help => say(&run::help()),
        "why" if asks_help => say(&why::help()),
        "bill" if asks_help => say(&bill::help()),
        "serve" if asks_help => say(&serve::help()),
        "state" if asks_help => say(&books::help()),
        "hex" if asks_help => say(hex::HELP),
        "session" if rest.is_empty() => say(&session::lines()?),
        "session" => Err(complaint(format!("session takes nothing after it, and was given {}", rest[0]))),
        "run" => run::run(rest),
        "why" => why::why(rest),
        "bill" => bill::bill(rest),
        "serve" => serve::serve(rest),
        "state" => books::state(rest),
        "hex" => hex::hex(rest),
        other => Err(complaint(format!(
            "unknown command {other}; there are session, run, why, bill, serve, state and hex"
        ))),
    }
}

/// What `--version` says.
fn version() -> String {
    format!(
        "oxterin {}\nproved library {}, built for {}\n",
        env!("CARGO_PKG_VERSION"),
        oxterin::version(),
        oxterin::BUILT
    )
}

/// Writes a text to standard output.
fn say(text: &str) -> Result<(), Complaint> {
    put(text.as_bytes())
}

/// Writes bytes to standard output.
fn put(bytes: &[u8]) -> Result<(), Complaint> {
    let mut output = io::stdout().lock();
    output
        .write_all(bytes)
        .and_then(|()| output.flush())
        .map_err(|error| complaint(format!("standard output: {error}")))
}
