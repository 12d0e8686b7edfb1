//! Calls as lines of text.
//!
//! A line holds the input bytes in hexadecimal, `-` if there are none, and then what is unusual about the call:
//!
//! ```text
//! # a comment
//! 06
//! 02 00 00 FE 11 22*3 bits=55 wp=0 elapsed=5
//! 05 00*4 ticks-per-byte=8
//! - array=65536 register=127 output=0 record=0,0,1,0,0,0,5 durations=12,2000,7000,50000,400000,1600000,400,20000
//! 05 00*2 account=3 running=7,12 totals=7:12,9:2000 most=7:12,9:2000 numbers=7:1,9:1
//! 05 00*2 account=3 close=1
//! ```
//!
//! `22*3` stands for `22 22 22`. The record's words are BPL, BP0, WEL, RSTE, OTP used, the mode (0 awake, 1 deep, 2 ultra-deep) and the
//! busy ticks. A call with an account goes through the ledger. One with any of the words `running`, `totals`, `most` and `numbers` hands a
//! ledger over: whose operation runs and what it was billed, and what the accounts have that have anything. With `close=1` a month is closed
//! before the call. What is not said is as in [`Call::of`], and as in an empty ledger.
use crate::call::{Call, ARRAY_ROOM, OUTPUT_ROOM, REGISTER_ROOM};
use crate::reply::{record_of, words_of};
use oxterin::{Ledger, Running};
use std::fmt::Display;

/// The lines of these calls.
#[must_use]
pub fn write(calls: &[Call]) -> String {
    calls.iter().map(|call| line(call) + "\n").collect()
}

/// The calls of these lines.
///
/// # Errors
///
/// A line that cannot be read, with what is wrong about it.
pub fn read(text: &str) -> Result<Vec<Call>, String> {
    text.lines()
        .map(str::trim)
        .filter(|line| !line.is_empty() && !line.starts_with('#'))
        .map(|line| call(line).map_err(|wrong| format!("{line}: {wrong}")))
        .collect()
}

/// The line of a call.
fn line(call: &Call) -> String {
    let usual = Call::of(&call.input);
    let mut words = bytes(&call.input);
    let mut say = |unusual: bool, word: String| {
        if unusual {
            words.push(word);
        }
    };
    say(call.bits != usual.bits, format!("bits={}", call.bits));
    say(call.wp_high != usual.wp_high, format!("wp={}", u8::from(call.wp_high)));
    say(call.elapsed != usual.elapsed, format!("elapsed={}", call.elapsed));
    say(
        call.ticks_per_byte != usual.ticks_per_byte,
        format!("ticks-per-byte={}", call.ticks_per_byte),
    );
    say(call.array != usual.array, format!("array={}", call.array));
    say(call.register != usual.register, format!("register={}", call.register));
    say(call.output != usual.output, format!("output={}", call.output));
    say(call.durations != usual.durations, format!("durations={}", list(&call.durations)));
    if let Some(record) = &call.record {
        say(true, format!("record={}", list(&words_of(record))));
    }
    if let Some(account) = call.account {
        say(true, format!("account={account}"));
    }
    if let Some(ledger) = &call.ledger {
        let Running { account, billed } = ledger.running;
        say(true, format!("running={account},{billed}"));
        for (name, table) in [("totals", &ledger.totals), ("most", &ledger.most), ("numbers", &ledger.numbers)] {
            say(table.iter().any(|&word| word != 0), format!("{name}={}", entries(table)));
        }
    }
    say(call.close, "close=1".to_string());
    words.join(" ")
}

/// What a table has other than 0, by account.
fn entries(table: &[u64; Ledger::ACCOUNTS]) -> String {
    let entries = table.iter().enumerate().filter(|(_, &word)| word != 0);
    let words: Vec<String> = entries.map(|(account, word)| format!("{account}:{word}")).collect();
    list(&words)
}

/// The input as words, equal neighbours drawn together.
fn bytes(input: &[u8]) -> Vec<String> {
    if input.is_empty() {
        return vec!["-".to_string()];
    }
    input
        .chunk_by(|one, next| one == next)
        .map(|run| match run.len() {
            1 => format!("{:02X}", run[0]),
            length => format!("{:02X}*{length}", run[0]),
        })
        .collect()
}

/// Numbers with commas between.
fn list(numbers: &[impl Display]) -> String {
    let words: Vec<String> = numbers.iter().map(ToString::to_string).collect();
    words.join(",")
}

/// The call of a line.
fn call(line: &str) -> Result<Call, String> {
    let (fields, bytes): (Vec<&str>, Vec<&str>) = line.split_whitespace().partition(|word| word.contains('='));
    let mut call = Call::of(&input(&bytes)?);
    for field in fields {
        read_field(&mut call, field)?;
    }
    Ok(call)
}

/// The bytes of the words of an input.
fn input(words: &[&str]) -> Result<Vec<u8>, String> {
    if words == ["-"] {
        return Ok(Vec::new());
    }
    let runs: Result<Vec<Vec<u8>>, String> = words.iter().map(|word| run(word)).collect();
    Ok(runs?.concat())
}

/// The bytes of a word such as `22` or `22*3`.
fn run(word: &str) -> Result<Vec<u8>, String> {
    let (byte, count) = word.split_once('*').unwrap_or((word, "1"));
    let byte = u8::from_str_radix(byte, 16).map_err(|_| format!("{word} is no byte"))?;
    Ok(vec![byte; limited(count, usize::from(u16::MAX))?])
}

/// Takes over a word such as `bits=39`.
fn read_field(call: &mut Call, field: &str) -> Result<(), String> {
    let (name, value) = field.split_once('=').unwrap_or((field, ""));
    match name {
        "bits" => call.bits = number(value)?,
        "wp" => call.wp_high = limited(value, 1)? == 1,
        "elapsed" => call.elapsed = number(value)?,
        "ticks-per-byte" => call.ticks_per_byte = number(value)?,
        "array" => call.array = limited(value, ARRAY_ROOM)?,
        "register" => call.register = limited(value, REGISTER_ROOM)?,
        "output" => call.output = limited(value, OUTPUT_ROOM)?,
        "durations" => call.durations = numbers(value)?,
        "record" => call.record = Some(record_of(&numbers(value)?).ok_or(format!("{value} is no record"))?),
        "account" => call.account = Some(number(value)?),
        "running" => {
            let [account, billed] = numbers(value)?;
            handed(call).running = Running { account, billed };
        }
        "totals" => read_entries(&mut handed(call).totals, value)?,
        "most" => read_entries(&mut handed(call).most, value)?,
        "numbers" => read_entries(&mut handed(call).numbers, value)?,
        "close" => call.close = limited(value, 1)? == 1,
        _ => return Err(format!("{name} is no field")),
    }
    Ok(())
}

/// The ledger that a call hands over, empty at first.
fn handed(call: &mut Call) -> &mut Ledger {
    call.ledger.get_or_insert_with(Box::default)
}

/// Takes over words such as `7:12,9:2000` into a table.
fn read_entries(table: &mut [u64; Ledger::ACCOUNTS], text: &str) -> Result<(), String> {
    for entry in text.split(',') {
        let (account, word) = entry.split_once(':').ok_or(format!("{entry} has no account"))?;
        table[limited(account, Ledger::ACCOUNTS - 1)?] = number(word)?;
    }
    Ok(())
}

/// Any number.
fn number(text: &str) -> Result<u64, String> {
    text.parse().map_err(|_| format!("{text} is no number"))
}

/// A number up to a limit.
fn limited(text: &str, limit: usize) -> Result<usize, String> {
    match text.parse() {
        Ok(number) if number <= limit => Ok(number),
        _ => Err(format!("{text} is no number up to {limit}")),
    }
}

/// So many numbers with commas between.
fn numbers<const COUNT: usize>(text: &str) -> Result<[u64; COUNT], String> {
    let numbers: Result<Vec<u64>, String> = text.split(',').map(number).collect();
    numbers?.try_into().map_err(|_| format!("{text} has not {COUNT} numbers"))
}

#[cfg(test)]
mod tests {
    use super::*;
    use crate::generator::Generator;
    use crate::ledger;
    use crate::random::Random;
    use oxterin::Record;

    #[test]
    fn what_is_written_is_read_back() {
        let mut generator = Generator::new(Random::seeded(1), 65_536);
        let record = Record::fresh(true, false, true);
        let calls: Vec<Call> = (0..2_000).map(|_| generator.call(&record)).collect();
        assert_eq!(read(&write(&calls)), Ok(calls));
    }

    #[test]
    fn what_is_written_of_a_ledger_is_read_back() {
        for seed in 0..20 {
            let mut generator = ledger::Generator::new(Random::seeded(seed), 65_536);
            let record = Record::fresh(true, false, true);
            let calls: Vec<Call> = (0..200).map(|_| generator.call(&record, &Ledger::empty())).collect();
            assert_eq!(read(&write(&calls)), Ok(calls));
        }
    }

    #[test]
    fn a_ledger_is_said_by_what_it_has() {
        let mut ledger = Ledger::empty();
        (ledger.totals[7], ledger.totals[255], ledger.numbers[0]) = (12, 3, u64::MAX);
        let with = |ledger| Call {
            account: Some(256),
            ledger: Some(Box::new(ledger)),
            ..Call::of(&[0x06])
        };
        assert_eq!(
            write(&[with(Ledger::empty()), with(ledger.clone())]),
            "06 account=256 running=256,0\n06 account=256 running=256,0 totals=7:12,255:3 numbers=0:18446744073709551615\n"
        );
        assert_eq!(
            read("06 account=256 totals=7:12,255:3 numbers=0:18446744073709551615"),
            Ok(vec![with(ledger)])
        );
    }

    #[test]
    fn usual_calls_have_short_lines() {
        let calls = [Call::of(&[]), Call::of(&[0x06]), Call::of(&[0x03, 0, 0, 0, 7])];
        assert_eq!(write(&calls), "-\n06\n03 00*3 07\n");
    }

    #[test]
    fn ticks_per_byte_are_said_if_there_are_any() {
        for (ticks_per_byte, line) in [
            (0, "05 00*4\n"),
            (8, "05 00*4 ticks-per-byte=8\n"),
            (u64::MAX, "05 00*4 ticks-per-byte=18446744073709551615\n"),
        ] {
            let poll = Call {
                ticks_per_byte,
                ..Call::of(&[0x05, 0, 0, 0, 0])
            };
            assert_eq!(write(std::slice::from_ref(&poll)), line);
            assert_eq!(read(line), Ok(vec![poll]));
        }
    }

    #[test]
    fn comments_and_empty_lines_are_passed_over() {
        assert_eq!(read("# nothing\n\n  06  \n"), Ok(vec![Call::of(&[0x06])]));
    }

    #[test]
    fn a_wrong_line_is_named() {
        for line in [
            "1FF",
            "06 bits=x",
            "06 wp=2",
            "06 array=131089",
            "06 output=9999",
            "06 record=0,0,2,0,0,0,0",
            "06 record=0",
            "06 speed=3",
            "06 ticks-per-byte=",
            "06 ticks-per-byte=18446744073709551616",
            "06 account=",
            "06 account=x",
            "06 running=3",
            "06 totals=256:1",
            "06 most=7",
            "06 numbers=7:-1",
            "06 close=2",
            "06*66000",
        ] {
            assert!(read(line).is_err_and(|wrong| wrong.starts_with(line)), "{line}");
        }
    }
}
