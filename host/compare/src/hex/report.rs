//! A text that is read again, and what is said of it if the sides differ.
use super::generator::Case;
use super::reply::Reply;
use super::shrink::shrink;
use super::trial::Trial;
use crate::difference::Difference;
use crate::series::quietly;

/// Reads a text on fresh memories.
///
/// # Errors
///
/// The sides differ.
pub fn replay(case: &Case) -> Result<Reply, Difference> {
    Trial::new(case.array.max(131_072)).read(&case.text, case.array)
}

/// Shrinks a text that showed a difference, and says what differs and how to read it again.
#[must_use]
pub fn report(case: Case) -> String {
    if replay(&case).is_ok() {
        return format!("a difference did not show again with {}", shown(&case));
    }
    let case = quietly(|| shrink(case, |case| replay(case).is_err()));
    let difference = replay(&case).expect_err("a shrunk text still shows a difference");
    format!(
        "the sides differ:\n{difference}\n\nwith {}\nreplay with COMPARE_TEXT naming that file and COMPARE_ARRAY={}",
        shown(&case),
        case.array
    )
}

/// A case in words: the size of the array, and the text as a command that makes it, a line of it on each line.
fn shown(case: &Case) -> String {
    let lines = case.text.split_inclusive(|&character| character == b'\n');
    let words: String = lines.map(|line| format!("  '{}' \\\n", escaped(line))).collect();
    format!(
        "an array of {} bytes and the text of\nprintf '%b' \\\n{words}  >text.hex",
        case.array
    )
}

/// Characters as they stand between quotes for `printf '%b'`.
fn escaped(line: &[u8]) -> String {
    line.iter()
        .map(|&character| match character {
            b'\n' => "\\n".to_string(),
            b'\r' => "\\r".to_string(),
            b'\\' | b'\'' => format!("\\0{character:03o}"),
            b' '..=b'~' => char::from(character).to_string(),
            _ => format!("\\0{character:03o}"),
        })
        .collect()
}

#[cfg(test)]
mod tests {
    use super::*;

    #[test]
    fn a_text_is_shown_as_a_command_that_makes_it() {
        let case = Case {
            text: b":00%\r\n\0'\\\n\xFFg".to_vec(),
            array: 65_536,
        };
        let lines = "  ':00%\\r\\n' \\\n  '\\0000\\0047\\0134\\n' \\\n  '\\0377g' \\\n";
        assert_eq!(
            shown(&case),
            format!("an array of 65536 bytes and the text of\nprintf '%b' \\\n{lines}  >text.hex")
        );
    }

    #[test]
    fn a_text_that_shows_no_difference_is_shown_whole() {
        let case = Case {
            text: b":00000001FF\n".to_vec(),
            array: 65_536,
        };
        assert!(report(case).contains("did not show again with an array of 65536 bytes"));
    }
}
