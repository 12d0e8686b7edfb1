//! The comment with which a server begins in a log: from where the frames after it go on.
use crate::lines::counted;

/// From where frames go on.
#[derive(Clone, Debug, PartialEq, Eq)]
pub enum Begin {
    /// From a fresh part; the words say how to bill it.
    Fresh(String),
    /// From a state.
    GoesOn(At),
}

/// How far the frames before have come.
#[derive(Clone, Copy, Debug, Default, PartialEq, Eq)]
pub struct At {
    /// The ticks that have passed.
    pub tick: u128,
    /// The frames that were accepted.
    pub frames: u64,
}

/// How such a line begins.
const MARK: &str = "# oxterin serve ";
/// What it says of a fresh part.
const FRESH: &str = "a fresh part; ";
/// What it says before the tick.
const TICK: &str = "goes on at tick ";
/// What it says between tick and frames.
const AFTER: &str = " after ";

impl Begin {
    /// The line, with the date.
    pub fn line(&self, date: &str) -> String {
        match self {
            Begin::Fresh(words) => format!("{MARK}{date}, {FRESH}{words}\n"),
            Begin::GoesOn(At { tick, frames }) => format!("{MARK}{date}, {TICK}{tick}{AFTER}{frames} frames\n"),
        }
    }

    /// What a line says, if it is such a line.
    pub fn read(line: &[u8]) -> Option<Begin> {
        let text = std::str::from_utf8(line).ok()?.strip_prefix(MARK)?;
        let (_, said) = text.split_once(", ")?;
        if let Some(words) = said.strip_prefix(FRESH) {
            return Some(Begin::Fresh(words.to_string()));
        }
        let (tick, frames) = said.strip_prefix(TICK)?.split_once(AFTER)?;
        let frames = frames.strip_suffix(" frames")?.parse().ok()?;
        let tick = tick.parse().ok()?;
        Some(Begin::GoesOn(At { tick, frames }))
    }

    /// How far the frames of a text have come at this line; the words say why they cannot have come there.
    pub fn follows(self, before: At) -> Result<At, String> {
        match self {
            Begin::Fresh(_) if before.frames == 0 => Ok(before),
            Begin::Fresh(_) => Err("a fresh part begins here, so the frames before are another part's; give each part's lines by themselves".into()),
            Begin::GoesOn(at) if before.frames == 0 || at == before => Ok(at),
            Begin::GoesOn(at) => Err(format!(
                "a server goes on here at tick {} after {}, and the lines before come to tick {} after {}: frames are missing, or a server was \
                 killed before it saved its last ones; the books of the state are right",
                at.tick,
                counted(at.frames, "frame"),
                before.tick,
                counted(before.frames, "frame")
            )),
        }
    }
}

#[cfg(test)]
mod tests {
    use super::*;

    #[test]
    fn a_line_says_what_it_said() {
        let fresh = Begin::Fresh("bill it by oxterin bill a.log --size 65536".into());
        let goes_on = Begin::GoesOn(At {
            tick: u128::MAX,
            frames: 12,
        });
        for begin in [fresh, goes_on] {
            let line = begin.line("2026-11-16T01:26:41Z");
            assert_eq!(Begin::read(line.trim_end().as_bytes()), Some(begin));
        }
        for other in ["# oxterin serve", "# oxterin serve x, goes on at tick 5", "# a fresh part; x", "06"] {
            assert_eq!(Begin::read(other.as_bytes()), None);
        }
    }

    #[test]
    fn frames_go_on_where_they_had_come() {
        let at = |tick, frames| At { tick, frames };
        let fresh = || Begin::Fresh(String::new());
        assert_eq!(fresh().follows(at(0, 0)), Ok(at(0, 0)));
        assert!(fresh().follows(at(0, 1)).is_err());
        assert_eq!(Begin::GoesOn(at(5, 2)).follows(at(0, 0)), Ok(at(5, 2)));
        assert_eq!(Begin::GoesOn(at(5, 2)).follows(at(5, 2)), Ok(at(5, 2)));
        assert!(Begin::GoesOn(at(5, 2)).follows(at(5, 3)).is_err());
        assert!(Begin::GoesOn(at(5, 2)).follows(at(6, 2)).is_err());
    }
}
