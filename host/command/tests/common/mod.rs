//! What the tests of the command share: running it, what it says or complains of, and folders for files.
#![allow(dead_code)] // each file of tests uses a part of this
pub mod server;

use std::fs;
use std::io::Write;
use std::path::{Path, PathBuf};
use std::process::{Command, Output, Stdio};

/// Runs the command with these words, and this on standard input.
pub fn oxterin(words: &[&str], input: impl AsRef<[u8]>) -> Output {
    oxterin_in(Path::new("."), words, input)
}

/// Runs the command in a folder.
pub fn oxterin_in(folder: &Path, words: &[&str], input: impl AsRef<[u8]>) -> Output {
    let mut child = Command::new(env!("CARGO_BIN_EXE_oxterin"))
        .args(words)
        .current_dir(folder)
        .stdin(Stdio::piped())
        .stdout(Stdio::piped())
        .stderr(Stdio::piped())
        .spawn()
        .expect("the command starts");
    // A command that complains before it reads leaves its input unread.
    let _ = child.stdin.take().expect("standard input").write_all(input.as_ref());
    child.wait_with_output().expect("the command ends")
}

/// Runs the command, which has to end well and complain of nothing: what it says.
pub fn says(words: &[&str], input: impl AsRef<[u8]>) -> Vec<u8> {
    let output = oxterin(words, input);
    let complaint = String::from_utf8_lossy(&output.stderr);
    assert!(output.status.success() && complaint.is_empty(), "{words:?}: {complaint}");
    output.stdout
}

/// Runs the command, which has to fail and write nothing on standard output: what it complains of.
pub fn complaint(words: &[&str], input: impl AsRef<[u8]>) -> String {
    complaint_in(Path::new("."), words, input)
}

/// Runs the command in a folder, as [`complaint`] does.
pub fn complaint_in(folder: &Path, words: &[&str], input: impl AsRef<[u8]>) -> String {
    let output = oxterin_in(folder, words, input);
    assert_eq!(output.status.code(), Some(2), "{words:?}");
    assert_eq!(output.stdout, b"", "{words:?}");
    let complaint = String::from_utf8(output.stderr).expect("text");
    let words = complaint.strip_prefix("oxterin: ").and_then(|words| words.strip_suffix('\n'));
    words
        .expect("a complaint is a line that begins with the command's name")
        .to_string()
}

/// An empty folder for the files of a test, beside those of the same tests.
pub fn folder(tests: &str, name: &str) -> PathBuf {
    let folder = Path::new(env!("CARGO_TARGET_TMPDIR")).join(tests).join(name);
    let _ = fs::remove_dir_all(&folder);
    fs::create_dir_all(&folder).expect("a folder");
    folder
}

/// The names of a folder's files.
pub fn files(folder: &Path) -> Vec<String> {
    let entries = fs::read_dir(folder).expect("the folder");
    let mut names: Vec<String> = entries
        .map(|entry| entry.expect("a file").file_name().to_string_lossy().into_owned())
        .collect();
    names.sort();
    names
}

/// A path as a word of the command line.
pub fn word(path: &Path) -> &str {
    path.to_str().expect("the path is text")
}
