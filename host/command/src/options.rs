//! The words after a subcommand: options with a value, options without, and the rest.
use crate::complaint::{complaint, Complaint};
use oxterin::{Signals, Size};

/// What a subcommand was given.
#[derive(Debug)]
pub struct Given {
    values: Vec<(String, String)>,
    flags: Vec<String>,
    /// The words that are no options.
    pub words: Vec<String>,
}

impl Given {
    /// Sorts the words. `valued` options take a value, as `--size 65536` or `--size=65536`; `flags` take none. `--` ends the options.
    pub fn read(words: &[String], valued: &[&str], flags: &[&str]) -> Result<Given, Complaint> {
        let mut given = Given {
            values: Vec::new(),
            flags: Vec::new(),
            words: Vec::new(),
        };
        let mut rest = words.iter();
        while let Some(word) = rest.next() {
            if word == "--" {
                given.words.extend(rest.by_ref().cloned());
            } else if !word.starts_with("--") {
                given.words.push(word.clone());
            } else {
                let (name, value) = match word.split_once('=') {
                    Some((name, value)) => (name, Some(value.to_string())),
                    None => (word.as_str(), None),
                };
                if flags.contains(&name) && value.is_none() {
                    given.flags.push(name.to_string());
                } else if valued.contains(&name) {
                    let value = value.or_else(|| rest.next().cloned());
                    let value = value.ok_or_else(|| complaint(format!("{name} wants a value after it")))?;
                    given.values.push((name.to_string(), value));
                } else {
                    return Err(complaint(format!("unknown option {word}; --help lists those there are")));
                }
            }
        }
        Ok(given)
    }

    /// Whether an option without a value was given.
    pub fn has(&self, flag: &str) -> bool {
        self.flags.iter().any(|given| given == flag)
    }

    /// The value of an option, the last one given.
    pub fn value(&self, name: &str) -> Option<&str> {
        self.values
            .iter()
            .rev()
            .find(|(given, _)| given == name)
            .map(|(_, value)| value.as_str())
    }

    /// All values of an option, in the order given.
    pub fn values<'a>(&'a self, name: &'a str) -> impl Iterator<Item = &'a str> {
        self.values
            .iter()
            .filter(move |(given, _)| given == name)
            .map(|(_, value)| value.as_str())
    }
}

/// A number in decimal, with or without commas or underscores between its thousands.
pub fn number(text: &str) -> Option<u64> {
    let groups: Vec<&str> = text.split([',', '_']).collect();
    let thousands = &groups[1..];
    let grouped = thousands.is_empty() || groups[0].len() <= 3 && thousands.iter().all(|group| group.len() == 3);
    let digits = groups.concat();
    let decimal = !groups[0].is_empty() && digits.bytes().all(|byte| byte.is_ascii_digit());
    (grouped && decimal).then(|| digits.parse().ok())?
}

/// `--size BYTES`: the size of the array, if it is said.
pub fn size(given: &Given) -> Result<Option<Size>, Complaint> {
    given.value("--size").map_or(Ok(None), |text| {
        let size = number(text).and_then(|bytes| Size::of_bytes(usize::try_from(bytes).ok()?));
        match size {
            Some(size) => Ok(Some(size)),
            None => Err(complaint(format!("--size {text}: a part has 131072 or 65536 bytes"))),
        }
    })
}

/// Whether a level is high.
pub fn level_of(name: &str) -> Option<bool> {
    match name {
        "low" => Some(false),
        "high" => Some(true),
        _ => None,
    }
}

/// How many ticks each byte position takes, which is at most 1,000.
pub fn byte_ticks(text: &str) -> Option<u64> {
    number(text).filter(|ticks| *ticks <= Signals::MOST_TICKS_PER_BYTE)
}

/// An account, which is at most 255.
pub fn account_of(text: &str) -> Option<u8> {
    number(text).and_then(|account| u8::try_from(account).ok())
}

/// `--account N`: whose frames they are, if it is said.
pub fn account(given: &Given) -> Result<Option<u8>, Complaint> {
    given.value("--account").map_or(Ok(None), |text| match account_of(text) {
        Some(account) => Ok(Some(account)),
        None => Err(complaint(format!(
            "--account {text}: an account is a number from 0 to 255 (refusal 9)"
        ))),
    })
}

/// `--ticks-per-byte N`: how many ticks each byte position of a frame takes, none unless said.
pub fn ticks_per_byte(given: &Given) -> Result<u64, Complaint> {
    given.value("--ticks-per-byte").map_or(Ok(0), |text| {
        byte_ticks(text).ok_or_else(|| {
            complaint(format!(
                "--ticks-per-byte {text}: each byte position takes a number of ticks from 0 to 1,000"
            ))
        })
    })
}

/// `--wp low|high`: whether WP is high, which it is unless said.
pub fn wp_high(given: &Given) -> Result<bool, Complaint> {
    given.value("--wp").map_or(Ok(true), |name| {
        level_of(name).ok_or_else(|| complaint(format!("--wp {name}: the level is low or high")))
    })
}
