//! All paths of a call, told apart by file and not by name.
use crate::complaint::{complaint, Complaint};
use crate::options::Given;
use crate::source::DASH;
use crate::whole::{folder_of, past_links};
use std::fs;
use std::os::unix::fs::MetadataExt;
use std::path::PathBuf;

/// What a call does with a file.
#[derive(Clone, Copy, PartialEq, Eq)]
pub enum Use {
    /// It is read.
    Read,
    /// It is written.
    Written,
}

/// The options that name a file, of every subcommand.
const OPTIONS: [(&str, Use); 8] = [
    ("--image", Use::Read),
    ("--register", Use::Read),
    ("--save", Use::Written),
    ("--state", Use::Written),
    ("--log", Use::Written),
    ("--json", Use::Written),
    ("--status", Use::Written),
    ("--html", Use::Written),
];

/// Where the command says things.
const SAID: [(&str, &str); 2] = [("standard output", "/dev/stdout"), ("standard error", "/dev/stderr")];

/// Those that may be one file: an image is read whole before anything is saved, and a shell may put all that is said in one file.
const MAY_BE_ONE: [[&str; 2]; 2] = [["--image", "--save"], ["standard output", "standard error"]];

/// A file of a call.
struct Named {
    /// The option, or what the file is to the call.
    what: String,
    /// How the call names it, if it does.
    path: String,
    used: Use,
    file: Identity,
}

impl Named {
    /// What it is to the call, and how the call names it.
    fn words(&self) -> String {
        format!("{} {}", self.what, self.path).trim_end().to_string()
    }
}

/// Which file it is.
#[derive(PartialEq, Eq)]
enum Identity {
    /// One that is there.
    There {
        /// The device that it is on.
        device: u64,
        /// Its number there.
        number: u64,
    },
    /// One that is yet to be made, links followed.
    Missing(PathBuf),
}

/// Complains if two files of a call are one and the call would write it. `words` are the files that are named without an option, each with
/// what it is to the call; for these a dash is standard input or output. What the command says counts too, where a file is to get it.
pub fn apart(given: &Given, words: &[(&str, &str, Use)]) -> Result<(), Complaint> {
    let words = words.iter().filter_map(|(what, path, used)| match (*path, used) {
        (DASH, Use::Read) => Some(named(what, "standard input", *used, there("/dev/stdin")?)),
        (DASH, Use::Written) => None,
        (path, used) => Some(named(what, path, *used, file_at(path)?)),
    });
    let options = OPTIONS.iter().filter_map(|(option, used)| {
        let path = given.value(option)?;
        Some(named(option, path, *used, file_at(path)?))
    });
    let said = SAID
        .iter()
        .filter_map(|(what, path)| Some(named(what, "", Use::Written, there(path)?)));
    let all: Vec<Named> = words.chain(options).chain(said).collect();
    let pairs = all
        .iter()
        .enumerate()
        .flat_map(|(place, one)| all[..place].iter().map(move |other| (other, one)));
    for (one, other) in pairs {
        let written = one.used == Use::Written || other.used == Use::Written;
        let allowed = MAY_BE_ONE.contains(&[one.what.as_str(), other.what.as_str()]);
        if written && !allowed && one.file == other.file {
            return Err(complaint(format!(
                "{} and {} are the same file; name another for one of them",
                one.words(),
                other.words()
            )));
        }
    }
    Ok(())
}

/// A file of a call.
fn named(what: &str, path: &str, used: Use, file: Identity) -> Named {
    Named {
        what: what.to_string(),
        path: path.to_string(),
        used,
        file,
    }
}

/// The file at a path, if it is a plain one or is yet to be made: nothing is lost in a device or a pipe.
fn file_at(path: &str) -> Option<Identity> {
    match fs::metadata(path) {
        Ok(_) => there(path),
        Err(_) => missing(path),
    }
}

/// The plain file at a path, links followed.
fn there(path: &str) -> Option<Identity> {
    let there = fs::metadata(path).ok().filter(fs::Metadata::is_file)?;
    Some(Identity::There {
        device: there.dev(),
        number: there.ino(),
    })
}

/// The file that would be made at a path.
fn missing(path: &str) -> Option<Identity> {
    let place = past_links(path)?;
    let folder = fs::canonicalize(folder_of(&place)).ok()?;
    Some(Identity::Missing(folder.join(place.file_name()?)))
}
