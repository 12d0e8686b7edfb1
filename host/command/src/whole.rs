//! Files that are written whole or not at all, and by one process at a time.
//!
//! What is saved goes to a new file beside the old one, which then takes its name. Whoever is going to save a file holds a lock on it; the
//! lock is on the file itself, so each new one is locked before it takes the name.
use crate::complaint::{complaint, Complaint};
use std::ffi::{OsStr, OsString};
use std::fs::{self, File, Metadata, OpenOptions, Permissions, TryLockError};
use std::hash::{BuildHasher, RandomState};
use std::io::{self, ErrorKind, Write};
use std::os::unix::ffi::OsStrExt;
use std::os::unix::fs::{fchown, MetadataExt, OpenOptionsExt, PermissionsExt};
use std::path::{is_separator, Path, PathBuf};

/// What a file is to hold, in the words of complaints.
#[derive(Clone, Copy)]
pub struct Kind {
    /// What it is.
    pub word: &'static str,
    /// A name that its file could have.
    pub such_as: &'static str,
}

/// A file that this process alone is going to save.
pub struct Held {
    /// The path that was given.
    path: String,
    /// Where it leads, links followed.
    place: PathBuf,
    /// The file that is there, locked; none as long as there is no file.
    there: Option<File>,
}

impl Kind {
    /// Takes hold of a file, having made sure that it can be saved, without touching what is there. What an earlier process left beside it
    /// when it was killed is removed.
    pub fn hold(self, path: &str) -> Result<Held, Complaint> {
        let place = self.place(path)?;
        if fs::metadata(&place).is_ok_and(|there| there.permissions().readonly()) {
            return Err(complaint(format!(
                "{path}: a read-only file, so no {} is saved there; make it writable, or name another",
                self.word
            )));
        }
        let there = lock(&place).map_err(|wrong| complaint(format!("{path}: {wrong}")))?;
        sweep(&place);
        New::beside(&place, 0o600).map(New::remove).map_err(|error| match error.kind() {
            ErrorKind::InvalidFilename => complaint(format!("{path}: {error}; choose a shorter one")),
            _ => complaint(format!("{path}: {error}; name a file in a folder that can be written")),
        })?;
        Ok(Held {
            path: path.to_string(),
            place,
            there,
        })
    }

    /// The place that a path names. Devices, pipes and folders are none, nor are words that can name nothing but a folder.
    fn place(self, path: &str) -> Result<PathBuf, Complaint> {
        let Kind { word, such_as } = self;
        let file = past_links(path).ok_or_else(|| complaint(format!("{path}: a link that leads to itself; name a file")))?;
        if fs::metadata(&file).is_ok_and(|there| !there.is_file()) {
            return Err(complaint(format!(
                "{path}: not a plain file, so no {word} is saved there; name a file"
            )));
        }
        if let Some("" | "." | "..") = file.to_string_lossy().rsplit(is_separator).next() {
            return Err(complaint(format!(
                "{path:?} is not the name of a file, so no {word} is saved there; name a file, such as {such_as}"
            )));
        }
        Ok(file)
    }
}

impl Held {
    /// The path that was given.
    pub fn path(&self) -> &str {
        &self.path
    }

    /// Whether there is a file already.
    pub fn exists(&self) -> bool {
        self.there.is_some()
    }

    /// Puts the bytes in the place of the file's content: they go to a new file beside it, which then takes its name, owner and permissions.
    /// If that fails, what was there is as it was.
    pub fn save(&mut self, bytes: &[u8]) -> Result<(), Complaint> {
        let saved = self.replace(bytes);
        let new = saved.map_err(|error| match error.kind() {
            ErrorKind::AlreadyExists => complaint(format!(
                "{}: another file has taken this name meanwhile; it is left as it is, and nothing is saved",
                self.path
            )),
            _ => complaint(format!("{}: {error}; what was there is as it was", self.path)),
        })?;
        self.there = Some(new);
        sync_folder(&self.place).map_err(|error| {
            complaint(format!(
                "{}: {error}; it is saved, but may be lost if the machine fails now",
                self.path
            ))
        })
    }

    /// The new file, with the name of the old one.
    fn replace(&self, bytes: &[u8]) -> io::Result<File> {
        let old = self.there.as_ref().map(File::metadata).transpose()?;
        if self.there.as_ref().is_some_and(|there| !is_at(there, &self.place)) {
            return Err(ErrorKind::AlreadyExists.into());
        }
        let mode = old.as_ref().map_or(0o666, |old| old.mode() & 0o7777);
        let mut new = New::beside(&self.place, mode)?;
        match new.fill(bytes, old.as_ref()) {
            Ok(()) => new.take(&self.place, self.there.is_some()),
            Err(error) => {
                new.remove();
                Err(error)
            }
        }
    }
}

/// A new file beside another, locked, so that nobody sweeps it away. Its first name is removed, unless it takes the other's by renaming.
struct New {
    path: PathBuf,
    file: File,
}

impl New {
    /// How many names are tried.
    const TRIES: usize = 100;

    /// An empty file that was not there before, at a name that nobody can tell beforehand.
    fn beside(place: &Path, mode: u32) -> io::Result<New> {
        for _ in 0..New::TRIES {
            let path = place.with_file_name(name_beside(place, RandomState::new().hash_one(())));
            let file = match create(&path, mode) {
                Err(error) if error.kind() == ErrorKind::AlreadyExists => continue,
                created => created?,
            };
            let locked = file.try_lock().is_ok() && is_at(&file, &path);
            let new = New { path, file };
            if locked {
                return Ok(new);
            }
            new.remove();
        }
        Err(io::Error::other("no name is free beside it"))
    }

    /// Gives it these bytes, and the owner and the permissions of an old file. Only root may give files away; others keep what is theirs.
    fn fill(&mut self, bytes: &[u8], old: Option<&Metadata>) -> io::Result<()> {
        if let Some(old) = old {
            let _ = fchown(&self.file, Some(old.uid()), Some(old.gid()));
            self.file.set_permissions(Permissions::from_mode(old.mode() & 0o7777))?;
        }
        self.file.write_all(bytes)?;
        self.file.sync_all()
    }

    /// Removes it.
    fn remove(self) {
        let _ = fs::remove_file(&self.path);
    }

    /// Takes the name of another file: of one that is there by renaming, and else by a link, which never replaces a file. Where a file cannot
    /// have two names at a time, it is renamed in any case.
    fn take(self, place: &Path, replaces: bool) -> io::Result<File> {
        if !replaces {
            match fs::hard_link(&self.path, place) {
                Err(error) if error.kind() != ErrorKind::AlreadyExists => {}
                linked => {
                    let _ = fs::remove_file(&self.path);
                    return linked.map(|()| self.file);
                }
            }
        }
        match fs::rename(&self.path, place) {
            Ok(()) => Ok(self.file),
            Err(error) => {
                self.remove();
                Err(error)
            }
        }
    }
}

/// A file that was not there before; if there is something, be it a link that leads nowhere, it is an error.
fn create(path: &Path, mode: u32) -> io::Result<File> {
    OpenOptions::new().write(true).create_new(true).mode(mode).open(path)
}

/// The file at a place, locked; none if there is no file. The words say why it cannot be had.
fn lock(place: &Path) -> Result<Option<File>, String> {
    loop {
        let file = match OpenOptions::new().read(true).write(true).open(place) {
            Err(error) if error.kind() == ErrorKind::NotFound => return Ok(None),
            Err(error) => return Err(format!("{error}; name a file that can be read and written")),
            Ok(file) => file,
        };
        match file.try_lock() {
            Ok(()) if is_at(&file, place) => return Ok(Some(file)),
            Ok(()) => {} // it was replaced meanwhile
            Err(TryLockError::WouldBlock) => {
                return Err("another oxterin is using this file; end that one first, or name another file".into())
            }
            Err(TryLockError::Error(error)) => return Err(format!("it cannot be locked: {error}; name a file in another folder")),
        }
    }
}

/// Whether an open file is still the one at a place.
fn is_at(file: &File, place: &Path) -> bool {
    let identity = |there: Metadata| (there.dev(), there.ino());
    match (file.metadata(), fs::symlink_metadata(place)) {
        (Ok(open), Ok(there)) => identity(open) == identity(there),
        _ => false,
    }
}

/// What a path leads to if it is a link, and a link to a link, whether or not there is something; none if that never ends.
pub fn past_links(path: &str) -> Option<PathBuf> {
    const MOST: usize = 40;
    let mut file = PathBuf::from(path);
    for _ in 0..MOST {
        match fs::read_link(&file) {
            Ok(target) => file = file.parent().unwrap_or(Path::new("")).join(target),
            Err(_) => return Some(file),
        }
    }
    None
}

/// The folder of a file.
pub fn folder_of(place: &Path) -> &Path {
    match place.parent() {
        Some(folder) if folder != Path::new("") => folder,
        _ => Path::new("."),
    }
}

/// Makes sure that the folder of a file knows its new name even if the machine fails.
fn sync_folder(place: &Path) -> io::Result<()> {
    File::open(folder_of(place))?.sync_all()
}

/// What comes between the name of a file and the number of a new one beside it.
const NEW: &[u8] = b".new-";
/// How many hexadecimal digits that number has.
const DIGITS: usize = 16;

/// The name of a new file beside another.
fn name_beside(place: &Path, number: u64) -> OsString {
    let mut name = place.file_name().unwrap_or_default().to_os_string();
    name.push(OsStr::from_bytes(NEW));
    name.push(format!("{number:0DIGITS$x}"));
    name
}

/// Whether a name is that of a new file beside another.
fn is_beside(name: &OsStr, place: &Path) -> bool {
    let own = place.file_name().unwrap_or_default().as_bytes();
    let number = name.as_bytes().strip_prefix(own).and_then(|rest| rest.strip_prefix(NEW));
    number.is_some_and(|number| number.len() == DIGITS && number.iter().all(u8::is_ascii_hexdigit))
}

/// Removes what killed processes left beside a file: new files that nobody has locked. What cannot be removed stays.
fn sweep(place: &Path) {
    let Ok(entries) = fs::read_dir(folder_of(place)) else { return };
    for entry in entries.flatten().filter(|entry| is_beside(&entry.file_name(), place)) {
        if !entry.file_type().is_ok_and(|kind| kind.is_file()) {
            continue;
        }
        if let Some(_left) = File::open(entry.path()).ok().filter(|file| file.try_lock().is_ok()) {
            let _ = fs::remove_file(entry.path());
        }
    }
}

#[cfg(test)]
mod tests {
    use super::*;

    #[test]
    fn a_new_file_is_told_by_its_name() {
        let place = Path::new("a/flash.bin");
        assert!(is_beside(&name_beside(place, 7), place));
        assert_eq!(name_beside(place, 0x5A), "flash.bin.new-000000000000005a");
        for other in [
            "flash.bin",
            "flash.bin.new-",
            "flash.bin.new-5a",
            "flash.bin.new-000000000000005g",
            "flash.bin.new-000000000000005a0",
            "other.bin.new-000000000000005a",
            "flash.binx.new-000000000000005a",
        ] {
            assert!(!is_beside(OsStr::new(other), place), "{other}");
        }
    }

    #[test]
    fn a_planted_link_is_not_followed() {
        let folder = std::env::temp_dir().join(name_beside(Path::new("oxterin-whole"), RandomState::new().hash_one(())));
        fs::create_dir(&folder).expect("a folder");
        let (victim, nothing, link) = (folder.join("victim"), folder.join("nothing"), folder.join("link"));
        fs::write(&victim, "precious").expect("a file");
        for target in [&victim, &nothing] {
            std::os::unix::fs::symlink(target, &link).expect("a link");
            let error = create(&link, 0o600).expect_err("a link is there");
            assert_eq!(error.kind(), ErrorKind::AlreadyExists);
            fs::remove_file(&link).expect("the link goes");
        }
        assert_eq!(fs::read(&victim).expect("there"), b"precious");
        assert!(!nothing.exists());
        fs::remove_dir_all(&folder).expect("the folder goes");
    }
}
