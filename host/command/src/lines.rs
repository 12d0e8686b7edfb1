//! Frames, answers and numbers as text.

/// Bytes as pairs of hexadecimal digits with blanks between.
pub fn hex(bytes: &[u8]) -> String {
    bytes.iter().map(|byte| format!("{byte:02X}")).collect::<Vec<_>>().join(" ")
}

/// Document 01's line: the bytes sent, what the output read, status byte 1 after the call.
pub fn answered(input: &[u8], output: &[u8], status: u8) -> String {
    let mut words: Vec<String> = [hex(input), ">".into(), hex(output)]
        .into_iter()
        .filter(|word| !word.is_empty())
        .collect();
    words.push(format!("ST {status:02X}"));
    words.join(" ")
}

/// A number in decimal, with commas between its thousands.
pub fn thousands(number: impl Into<u128>) -> String {
    let digits = number.into().to_string();
    let mut text = String::new();
    for (place, digit) in digits.chars().enumerate() {
        if place > 0 && (digits.len() - place) % 3 == 0 {
            text.push(',');
        }
        text.push(digit);
    }
    text
}

/// So many of a thing, whose word gets an s unless there is one.
pub fn counted(number: impl Into<u128>, thing: &str) -> String {
    match number.into() {
        1 => format!("1 {thing}"),
        number => format!("{} {thing}s", thousands(number)),
    }
}

#[cfg(test)]
mod tests {
    use super::*;

    #[test]
    fn thousands_have_commas_between_them() {
        for (number, text) in [
            (0, "0"),
            (999, "999"),
            (1_000, "1,000"),
            (12_345, "12,345"),
            (100_000, "100,000"),
            (u64::MAX, "18,446,744,073,709,551,615"),
        ] {
            assert_eq!(thousands(number), text);
        }
    }

    #[test]
    fn one_thing_is_no_plural() {
        assert_eq!(
            [0u64, 1, 2_000].map(|number| counted(number, "tick")),
            ["0 ticks", "1 tick", "2,000 ticks"]
        );
    }
}
