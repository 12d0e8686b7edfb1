//! Where bytes come from, and commands that put them right, spelled for the shell.
use crate::complaint::{complaint, Complaint};
use std::borrow::Cow;
use std::fs::{self, File};
use std::io::{self, Read};

/// The word of the command line that stands for standard input or output.
pub const DASH: &str = "-";

/// A file, or standard input.
#[derive(Clone, Copy, Debug, PartialEq, Eq)]
pub enum Source<'a> {
    /// The file of this path.
    File(&'a str),
    /// Standard input.
    Input,
}

impl<'a> Source<'a> {
    /// What a word of the command line names: a file, or standard input by a dash.
    pub fn of_word(word: &'a str) -> Source<'a> {
        match word {
            DASH => Source::Input,
            path => Source::File(path),
        }
    }

    /// What complaints call it.
    pub fn name(self) -> &'a str {
        match self {
            Source::File(path) => path,
            Source::Input => "standard input",
        }
    }

    /// All of its bytes, which are at most [`MOST`].
    pub fn read(self) -> Result<Vec<u8>, Complaint> {
        let bytes = match self {
            Source::File(path) => File::open(path).and_then(up_to_most),
            Source::Input => up_to_most(io::stdin().lock()),
        };
        let bytes = bytes.map_err(|error| complaint(format!("{}: {error}", self.name())))?;
        match bytes.len() as u64 > MOST {
            true => Err(complaint(format!(
                "{}: more than {} MiB, which no image has; name another file",
                self.name(),
                MOST >> 20
            ))),
            false => Ok(bytes),
        }
    }

    /// A command with this source as its input and a new file of this ending as its output; after standard input it is a filter.
    pub fn filtered(self, command: &str, ending: &str) -> String {
        match self {
            Source::File(path) => format!("{command} <{} >{}", quoted(path), self.fresh(ending)),
            Source::Input => command.to_string(),
        }
    }

    /// A command with two words for files after it: this source, and a new file of this ending.
    pub fn turned(self, command: &str, ending: &str) -> String {
        format!("{command} {} {}", self.word(), self.fresh(ending))
    }

    /// The call of srec_cat that reads this source as `from`, filters and all, and writes a new file in the format `to`.
    pub fn converted(self, from: &str, to: &str, ending: &str) -> String {
        format!("srec_cat {} {from} -o {} {to}", self.word(), self.fresh(ending))
    }

    /// Its word on a command line.
    fn word(self) -> Cow<'a, str> {
        match self {
            Source::File(path) => quoted(path),
            Source::Input => DASH.into(),
        }
    }

    /// The word for what is made of it: a new file of this ending, or standard output.
    fn fresh(self, ending: &str) -> String {
        match self {
            Source::Input => DASH.to_string(),
            Source::File(_) => fresh(ending),
        }
    }
}

/// No image, raw or as text, has more bytes: 64 MiB, some 500 times the largest array.
const MOST: u64 = 1 << 26;

/// The first bytes, one more than [`MOST`] if there are so many.
fn up_to_most(source: impl Read) -> io::Result<Vec<u8>> {
    let mut bytes = Vec::new();
    source.take(MOST + 1).read_to_end(&mut bytes)?;
    Ok(bytes)
}

/// The name of a file of this ending in the current folder, at which nothing is, not even a link that leads nowhere.
pub fn fresh(ending: &str) -> String {
    untaken(ending, |name| fs::symlink_metadata(name).is_ok())
}

/// The first of the names new, new2, new3 and so on with this ending that is not taken.
fn untaken(ending: &str, taken: impl Fn(&str) -> bool) -> String {
    let mut number = 1u64;
    let mut name = format!("new.{ending}");
    while taken(&name) {
        number += 1;
        name = format!("new{number}.{ending}");
    }
    name
}

/// A path as one word of a shell's command line, never an option, nor what srec_cat takes for a file of arguments.
pub fn quoted(path: &str) -> Cow<'_, str> {
    let plain = |c: char| c.is_ascii_alphanumeric() || "/._-+,:@%".contains(c);
    let path: Cow<'_, str> = match path.starts_with(['-', '@']) {
        true => format!("./{path}").into(),
        false => path.into(),
    };
    match !path.is_empty() && path.chars().all(plain) {
        true => path,
        false => format!("'{}'", path.replace('\'', r"'\''")).into(),
    }
}

#[cfg(test)]
mod tests {
    use super::*;

    #[test]
    fn commands_name_a_file_as_the_shell_reads_it() {
        for (path, word) in [
            ("fw.hex", "fw.hex"),
            ("a/b_c-1.hex", "a/b_c-1.hex"),
            ("-o", "./-o"),
            ("", "''"),
            ("my fw.hex", "'my fw.hex'"),
            ("it's", r"'it'\''s'"),
            ("- x", "'./- x'"),
            ("@fw.hex", "./@fw.hex"),
            ("a/@fw@1.hex", "a/@fw@1.hex"),
            ("$(x)", "'$(x)'"),
            ("é", "'é'"),
        ] {
            assert_eq!(quoted(path), word);
        }
    }

    #[test]
    fn a_new_file_has_a_name_that_is_not_taken() {
        for (taken, name) in [
            (&[][..], "new.hex"),
            (&["new.hex"], "new2.hex"),
            (&["new.hex", "new2.hex", "new4.hex"], "new3.hex"),
            (&["new.bin", "new2.hex"], "new.hex"),
        ] {
            assert_eq!(untaken("hex", |name| taken.contains(&name)), name);
        }
        assert_eq!(untaken("bin", |name| name != "new12.bin"), "new12.bin");
    }

    #[test]
    fn standard_input_is_filtered_to_standard_output() {
        assert_eq!(Source::Input.filtered("sed 3d", "hex"), "sed 3d");
        assert_eq!(Source::Input.converted("-intel", "-intel", "hex"), "srec_cat - -intel -o - -intel");
        assert_eq!(Source::Input.turned("oxterin hex to", "hex"), "oxterin hex to - -");
    }
}
