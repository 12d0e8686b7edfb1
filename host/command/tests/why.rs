//! `oxterin why`, and causes in `oxterin run --explain`, as their user sees them: what was not carried out, why, and what to do.
mod common;

use common::{complaint, files, oxterin, word};
use std::fs;
use std::path::PathBuf;

/// Runs the command, which has to end well and complain of nothing: what it says.
fn says(words: &[&str], input: &str) -> String {
    String::from_utf8(common::says(words, input)).expect("text")
}

/// An empty folder for a test's files.
fn folder(name: &str) -> PathBuf {
    common::folder("why", name)
}

/// The path of an example.
fn example(name: &str) -> String {
    format!("{}/../../examples/{name}", env!("CARGO_MANIFEST_DIR"))
}

/// What to do if the latch is clear.
const LATCH: &str = "latch clear: send 06h before each program, erase or status write; the latch drops after every one\n";

/// All causes and what a part was doing, in one run.
///
/// By hand: line 2 asks for an erase with the latch clear from the start, 3 has 5 bits, 4 an opcode that the part has not. The part sleeps
/// from line 5 to line 7, and is awake in 8. Resets are not enabled in 9, and enabled from 11 on; 12 does not confirm its reset, and is
/// nothing though nothing runs. Line 13 has 11 bits. The latch is set in 14 and dropped by 15, which has 4 of 5 bytes; 16 finds it clear.
/// Lines 17 and 18 set BPL and BP0, 20,000 ticks, of which 18,796 pass before 19: 1,204 are left, and all are over at 20. The program in 21
/// is under protection, and the status write in 23 under the lock, since WP is low. The register is programmed in 25, 400 ticks, and not
/// again in 27. Lines 28 and 29 let time pass and read.
const EVERY_CAUSE: &str = "\
# every cause
C7
06 /5
3B 00 00 00 00
B9
C7
AB
AB
F0 D0
06
31 10
F0 0D
06 00 /11
06
02 00 00 00
C7
06
01 84
06 +18796
06 +1204
02 00 00 00 5A
06
01 00 wp=low
06
9B 00 00 00 5A
06 +400
9B 00 00 00 A5
+60000000
05 00
";

/// The frames of [`EVERY_CAUSE`] that were not carried out.
const EVERY_ENTRY: &str = "\
line 2: C7 > nothing: latch clear
line 3: 06 > nothing: too few bits, 5 of 8
line 4: 3B 00 00 00 00 > nothing: unknown opcode 3Bh
line 6: C7 > nothing: asleep since line 5
line 8: AB > nothing: already awake
line 9: F0 D0 > nothing: reset not enabled or not confirmed, RSTE is 0
line 12: F0 0D > nothing: reset not enabled or not confirmed, no D0h after F0h
line 13: 06 00 > nothing: off boundary at 11 bits
line 15: 02 00 00 00 > aborted: incomplete after 4 bytes
line 16: C7 > nothing: latch clear since line 15
line 19: 06 > nothing: busy for 1,204 more ticks with the status write of line 18
line 21: 02 00 00 00 5A > aborted: protected since line 18
line 23: 01 00 > aborted: locked since line 18
line 27: 9B 00 00 00 A5 > aborted: already programmed by line 25
";

/// What is said of their causes: 10 of the 28 frames came to nothing, and 4 were aborted.
const EVERY_ADVICE: &str = "\
Of 28 frames, 10 came to nothing, and 4 were aborted.

frames   cause                                first
     1   too few bits                         line 3, no opcode
     1   asleep                               line 6, chip erase
     1   busy                                 line 19, write enable
     1   unknown opcode                       line 4, opcode 3Bh
     2   latch clear                          line 2, chip erase
     2   reset not enabled or not confirmed   line 9, reset
     1   off boundary                         line 13, write enable
     1   incomplete                           line 15, program of 0 bytes
     1   protected                            line 21, program of 1 byte
     1   locked                               line 23, status write
     1   already programmed                   line 27, OTP program
     1   already awake                        line 8, resume

too few bits: clock all 8 bits of the opcode before chip select rises
asleep: wake the part by ABh, a frame of its own and of all 8 bits; then send the frame again
busy: poll by 05h until bit 0 is 0, then send the frame again; if RSTE is 1, F0h D0h ends the operation early
unknown opcode: use an opcode of the data sheet's table 2; of these 3Bh, the dual-output read, is not simulated
latch clear: send 06h before each program, erase or status write; the latch drops after every one
reset not enabled or not confirmed: enable resets by 06h and then 31h 10h, which sets RSTE; a reset is F0h D0h
off boundary: clock whole bytes: chip select has to rise after a multiple of 8 bits
incomplete: 02h and 9Bh need 3 address bytes and at least 1 data byte; 81h, 20h, 52h and D8h 3 address bytes; 01h and 31h 1 data byte
protected: clear BP0 by 06h and then 01h 00h, and wait until idle; if BPL is 1, do so twice with WP high: the first only clears BPL
locked: raise WP before 01h: while BPL is 1 and WP is low, the status byte cannot be written
already programmed: 9Bh programs once in a part's life; to try it again, begin with a fresh part
already awake: nothing to do: ABh wakes a part from deep power-down, and this one was awake
aborted: the frame also dropped the latch; send 06h again before the next try
";

/// All are listed as they are found, and then the causes; or the first ten, after the causes.
#[test]
fn every_cause_is_said_with_its_first_line_and_a_remedy() {
    assert_eq!(says(&["why", "--all"], EVERY_CAUSE), format!("{EVERY_ENTRY}\n{EVERY_ADVICE}"));
    let first: String = EVERY_ENTRY.split_inclusive('\n').take(10).collect();
    assert_eq!(
        says(&["why"], EVERY_CAUSE),
        format!("{EVERY_ADVICE}\n{first}and 4 more; --all lists them\n")
    );
}

/// Each line of a run has what `why` says of it, and after the last one comes the same advice. Without `--explain` there is neither.
#[test]
fn a_run_explains_the_same() {
    let run = says(&["run", "--explain"], EVERY_CAUSE);
    let (lines, advice) = run.split_once("\n\n").expect("lines, and advice");
    assert_eq!(advice, EVERY_ADVICE);
    let explained: Vec<&str> = lines
        .lines()
        .filter(|line| line.contains("(nothing") || line.contains("(aborted"))
        .collect();
    let entries = EVERY_ENTRY.lines().filter_map(|entry| entry.split_once(" > "));
    let wanted: Vec<String> = entries.map(|(_, came_to)| format!("({came_to}, drives nothing, ")).collect();
    let (last, listed) = explained.split_last().expect("lines that are explained");
    assert_eq!(listed.len(), wanted.len());
    for (line, wanted) in listed.iter().zip(&wanted) {
        assert!(line.contains(wanted), "{line}");
    }
    assert_eq!(*last, "> ST 94 (nothing: too few bits, 0 of 8, drives nothing, idle)");
    let plain: String = lines
        .lines()
        .map(|line| format!("{}\n", line.split(" (").next().unwrap_or(line)))
        .collect();
    assert_eq!(says(&["run"], EVERY_CAUSE), plain);
}

/// What `remedy` says of protection is what helps: a part with BPL and BP0 set takes a program after two status writes with WP high, 20,000
/// ticks each, and not after one.
#[test]
fn the_remedies_help() {
    let unlock = "06\n01 00\n05 00 +20000\n";
    let program = "06\n02 00 00 00 5A\n";
    for (options, frames, helped) in [
        (&["--bp0"][..], program.to_string(), false),
        (&["--bp0"], format!("{unlock}{program}"), true),
        (&["--bp0", "--bpl"], format!("{unlock}{program}"), false),
        (&["--bp0", "--bpl"], format!("{unlock}{unlock}{program}"), true),
        (&["--bp0", "--bpl", "--wp=low"], format!("{unlock}{unlock}{program}"), false),
        (&[], "B9\nAB\n06\n".into(), true),
        (&[], "B9\nAB 00 /12\n".into(), false),
        (&[], "06\n20 00 00 00\n05 00 +50000\n06\n81 00 00 00\n".into(), true),
        (&[], "06\n31 10\n06\nC7\nF0 D0 +5\n06\nC7\n".into(), true),
    ] {
        let words = [&["why"], options].concat();
        assert_eq!(
            says(&words, &frames) == "Every frame was carried out.\n",
            helped,
            "{options:?} {frames}"
        );
    }
}

/// Account 7's first erase is in line 7, and each of the next nine two lines later.
#[test]
fn a_saturday_without_the_latch_is_explained() {
    let frames = example("saturday-unlatched.frames");
    let advice = format!(
        "Of 600 frames, 300 came to nothing.\n\nframes   cause         first\n   300   latch clear   line 7, chip erase\n\n{LATCH}"
    );
    let listed: String = (0..10)
        .map(|place| format!("line {}: C7 account=7 > nothing: latch clear\n", 7 + 2 * place))
        .collect();
    assert_eq!(
        says(&["why", &frames], ""),
        format!("{advice}\n{listed}and 290 more; --all lists them\n")
    );
    let all = says(&["why", &frames, "--all"], "");
    assert!(all.starts_with(&listed) && all.ends_with(&format!("\n\n{advice}")), "{all}");
    assert_eq!(all.matches("> nothing: latch clear\n").count(), 300);
}

#[test]
fn frames_that_were_carried_out_are_not_listed() {
    for frames in ["", "# a comment\n", "06\nC7\n05 00 +9\n+1600000\n/0\n", "79\n06\n"] {
        assert_eq!(says(&["why"], frames), "Every frame was carried out.\n", "{frames}");
        assert_eq!(says(&["why", "--all"], frames), "Every frame was carried out.\n", "{frames}");
        let run = says(&["run", "--explain"], frames);
        assert!(!run.contains("\n\n"), "{run}");
    }
    let latched = example("saturday-latched.frames");
    assert_eq!(says(&["why", &latched], ""), "Every frame was carried out.\n");
}

/// Ten are listed, and the eleventh is one more. A long frame is cut off.
#[test]
fn a_list_has_its_length() {
    let ten = "C7\n".repeat(10);
    assert!(!says(&["why"], &ten).contains("more;"));
    let eleven = says(&["why"], &format!("{ten}60\n"));
    assert!(
        eleven.ends_with("line 10: C7 > nothing: latch clear\nand 1 more; --all lists them\n"),
        "{eleven}"
    );
    let many = says(&["why"], &"C7\n".repeat(1_234));
    assert!(many.contains("\n 1,234   latch clear   line 1, chip erase\n"), "{many}");
    assert!(many.ends_with("and 1,224 more; --all lists them\n"), "{many}");
    let long = says(&["why"], &format!("02 00 10 00{}\n", " 5A".repeat(256)));
    assert!(
        long.ends_with("\nline 1: 02 00 10 00 5A 5A 5A 5A .. (260 bytes) > nothing: latch clear\n"),
        "{long}"
    );
}

/// The frames come with the options of `run`, and its lines are counted with their comments.
#[test]
fn frames_are_played_as_a_run_plays_them() {
    let frames = "# first\n\n06\n81 00 00 00 @2 account=3\n06 +10\n";
    let said = says(
        &["why", "--set", "page-erase=20", "--ticks-per-byte=4", "--account=9", "--size=65536"],
        frames,
    );
    assert!(
        said.ends_with("\nline 5: 06 account=9 > nothing: busy for 10 more ticks with the page erase of line 4\n"),
        "{said}"
    );
    assert_eq!(says(&["why", "--set", "page-erase=10"], frames), "Every frame was carried out.\n");
    let said = says(&["why", "--otp-used"], "06\n9B 00 00 00 5A\n");
    assert!(said.ends_with("\nline 2: 9B 00 00 00 5A > aborted: already programmed\n"), "{said}");
}

/// A state is only read: the second call finds the part as the first did. What was running before is busy with no line's operation.
#[test]
fn a_state_is_only_read() {
    let folder = folder("state");
    let state = folder.join("state");
    says(&["state", word(&state), "--new"], "");
    says(&["run", "--state", word(&state)], "06\n20 00 00 00\n05 00 +49000\n");
    let before = fs::read(&state).expect("a state");
    for _ in 0..2 {
        let said = says(&["why", "--state", word(&state)], "C7 +400\n06 +600\nC7\n");
        assert!(said.ends_with("\nline 1: C7 > nothing: busy for 600 more ticks\n"), "{said}");
    }
    assert!(fs::read(&state).expect("a state") == before);
    assert_eq!(files(&folder), ["state"]);
    let wrong = complaint(&["why", "--state", word(&state), "--bp0"], "06\n");
    assert!(wrong.contains("--bp0 describes a fresh part"), "{wrong}");
}

/// README's example.
#[test]
fn a_latch_drops_after_every_erase() {
    let said = says(&["why"], "06\n20 00 10 00\n05 00 +50000\n20 00 20 00\n");
    assert_eq!(said.lines().last(), Some("line 4: 20 00 20 00 > nothing: latch clear since line 2"));
}

#[test]
fn a_bad_line_or_a_refused_frame_is_named() {
    assert_eq!(
        complaint(&["why"], "C7\n05 00 /17\n"),
        "standard input, line 2: refusal 4: the bit count does not need exactly that many bytes (2 bytes, 17 bits); put this line right \
         first"
    );
    assert!(complaint(&["why"], "C7\nC\n").starts_with("standard input, line 2, column 1: C: an odd number of digits"));
    for (words, remedy) in [
        (&["why", "no such file"][..], "no such file: "),
        (&["why", "a", "b"], "why takes one file, and b is a second one"),
        (&["why", "--save", "x"], "unknown option --save"),
        (&["why", "--size", "1"], "131072 or 65536"),
    ] {
        let complaint = complaint(words, "06\n");
        assert!(complaint.contains(remedy), "{words:?}: {complaint}");
    }
    let run = oxterin(&["run", "--explain"], "C7\n05 00 /17\n");
    assert_eq!(run.stdout, b"C7 > FF ST 10 (nothing: latch clear, drives nothing, idle)\n");
}

#[test]
fn help_lists_the_command() {
    assert!(says(&["--help"], "").contains("\n  why         "));
    let help = says(&["why", "--help"], "");
    for word in [
        "Usage: oxterin why [FILE] [OPTIONS]",
        "--all ",
        "--state FILE",
        "only read",
        "--wp",
        "account=7",
    ] {
        assert!(help.contains(word), "{word}");
    }
    assert!(help.lines().all(|line| line.chars().count() <= 120));
    let frames = "06\nC7\n05 00 +1600000\nC7\n";
    let example: String = says(&["why"], frames)
        .lines()
        .map(|line| format!("  {line}").trim_end().to_string() + "\n")
        .collect();
    assert!(help.contains(&example), "{example}");
}
