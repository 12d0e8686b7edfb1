//! The command as its user sees it: what it writes where, and how it ends.
mod common;

use common::{oxterin, word};
use std::fs;
use std::path::{Path, PathBuf};
use std::process::{Command, Output};

fn said(output: &Output) -> &str {
    std::str::from_utf8(&output.stdout).expect("text")
}

fn complained(output: &Output) -> &str {
    assert!(!output.status.success(), "it did not fail: {}", said(output));
    std::str::from_utf8(&output.stderr).expect("text")
}

/// A file of this test's own.
fn scratch(name: &str) -> PathBuf {
    let path = Path::new(env!("CARGO_TARGET_TMPDIR")).join(name);
    let _ = fs::remove_file(&path);
    path
}

#[test]
fn the_session_is_the_proved_programs() {
    let output = oxterin(&["session"], "");
    assert!(output.status.success());
    assert_eq!(said(&output), include_str!("../../../crates/session/stdout"));
}

#[test]
fn frames_are_answered_line_by_line() {
    let frames = "06\n# a comment\n\n02 00 00 FE 11 22 33 +1\n050000 +1\n05 00 /11 wp=low\n03 00 00 FE 00 00 00 +2000\n/0\n";
    let output = oxterin(&["run", "--size", "65536"], frames);
    assert!(output.status.success());
    let expected = "06 > FF ST 12\n\
                    02 00 00 FE 11 22 33 > FF FF FF FF FF FF FF ST 11\n\
                    05 00 00 > FF 11 01 ST 11\n\
                    05 00 > FF 1F ST 01\n\
                    03 00 00 FE 00 00 00 > FF FF FF FF 11 22 FF ST 10\n\
                    > ST 10\n";
    assert_eq!(said(&output), expected);
}

/// The ticks that each byte of a frame takes, by its line or else by the option.
///
/// 20 ticks are left as the poll begins. At 8 ticks to a byte its positions 1 and 2 begin at 8 and 16, busy, 3 and 4 at 24 and 32, idle; at
/// 5 to a byte positions 1, 2 and 3 begin at 5, 10 and 15, busy, and 4 at 20, idle; at 0 all are busy.
#[test]
fn busy_falls_inside_a_frame_whose_bytes_take_ticks() {
    for (option, word, polled) in [
        ("--ticks-per-byte=0", " @8", "FF 11 01 10 00 ST 10"),
        ("--ticks-per-byte=8", "", "FF 11 01 10 00 ST 10"),
        ("--ticks-per-byte=8", " @5", "FF 11 01 11 00 ST 10"),
        ("--ticks-per-byte=8", " @0", "FF 11 01 11 01 ST 11"),
        ("--ticks-per-byte=1,000", "", "FF 10 00 10 00 ST 10"),
    ] {
        let frames = format!("06\n02 00 00 00 01 02\n05 00 00 00 00{word}\n");
        let output = oxterin(&["run", "--set", "longer-program=20", option], &frames);
        assert!(output.status.success(), "{option}{word}");
        let last = said(&output).lines().last();
        assert_eq!(last, Some(format!("05 00 00 00 00 > {polled}").as_str()), "{option}{word}");
    }
}

/// A byte program takes 12 ticks and a 4-KiB erase 50,000, from the end of their frames on.
///
/// The first poll has 4 ticks to a byte: its positions 1 and 2 begin at 4 and 8, busy, and 3 at 12, where none is left. The second has 8 to
/// a byte and 20 ticks left as it begins: 1 and 2 begin at 8 and 16, busy, and 3 at 24, idle. Of the two reads in the end the first begins
/// with 12 ticks left and is not heard; it lasts 40.
#[test]
fn the_example_polls_with_chip_select_held_low() {
    let example = concat!(env!("CARGO_MANIFEST_DIR"), "/../../examples/poll.frames");
    let output = oxterin(&["run", example, "--explain"], "");
    assert!(output.status.success());
    let expected = "06 > FF ST 12 (control, drives nothing, idle)\n\
                    02 00 00 10 5A > FF FF FF FF FF ST 11 (begun, drives nothing, busy for 12 ticks)\n\
                    05 00 00 00 00 00 > FF 11 01 10 00 10 ST 10 (read, drives positions 1 to 5, lasts 24 ticks, idle)\n\
                    03 00 00 10 00 > FF FF FF FF 5A ST 10 (read, drives position 4, idle)\n\
                    06 > FF ST 12 (control, drives nothing, idle)\n\
                    20 00 00 00 > FF FF FF FF ST 11 (begun, drives nothing, lasts 32 ticks, busy for 50,000 ticks)\n\
                    05 00 00 00 > FF 11 01 10 ST 10 (read, drives positions 1 to 3, lasts 32 ticks, idle)\n\
                    06 > FF ST 12 (control, drives nothing, idle)\n\
                    02 00 00 11 A5 > FF FF FF FF FF ST 11 (begun, drives nothing, busy for 12 ticks)\n\
                    03 00 00 10 00 > FF FF FF FF FF ST 10 (nothing: busy for 12 more ticks with the program of 1 byte of line 10, \
                    drives nothing, lasts 40 ticks, idle)\n\
                    03 00 00 10 00 00 > FF FF FF FF FF A5 ST 10 (read, drives positions 4 to 5, idle)\n\
                    \n\
                    Of 11 frames, 1 came to nothing.\n\
                    \n\
                    frames   cause   first\n     \
                         1   busy    line 11, array read\n\
                    \n\
                    busy: poll by 05h until bit 0 is 0, then send the frame again; if RSTE is 1, F0h D0h ends the operation early\n";
    assert_eq!(said(&output), expected);
}

#[test]
fn ticks_of_a_byte_that_are_too_many_name_their_place() {
    let output = oxterin(&["run"], "06 @1000\n05 00 @1001\n");
    assert_eq!(
        complained(&output),
        "oxterin: standard input, line 2, column 7: @1001: after @ comes, with no blank between, the number of ticks \
         that each byte takes, at most 1,000 (refusal 8), such as @8\n"
    );
    assert_eq!(said(&output), "06 > FF ST 12\n");
}

#[test]
fn explanations_and_settings() {
    let words = ["run", "--set", "erase-4k=7", "--set=longer-program=3", "--explain", "-"];
    let output = oxterin(&words, "9F 00 00 00 00 00\n06\n20 00 00 00\n05 00 +7\n02 00 00 00 01 02\n");
    let expected = "9F 00 00 00 00 00 > FF 1F 42 00 00 FF ST 10 (read, drives positions 1 to 4, idle)\n\
                    06 > FF ST 12 (control, drives nothing, idle)\n\
                    20 00 00 00 > FF FF FF FF ST 11 (begun, drives nothing, busy for 7 ticks)\n\
                    05 00 > FF 10 ST 10 (read, drives position 1, idle)\n\
                    02 00 00 00 01 02 > FF FF FF FF FF FF ST 10 (nothing: latch clear since line 3, drives nothing, idle)\n";
    let lines = said(&output).split_inclusive('\n').take(5).collect::<String>();
    assert_eq!(lines, expected);
}

#[test]
fn images_are_loaded_and_saved_whole() {
    let (before, after) = (scratch("before.bin"), scratch("after.bin"));
    let image: Vec<u8> = (0..65_536u32).map(|k| ((k * 7) >> 3) as u8).collect();
    fs::write(&before, &image).expect("written");
    let words = ["run", "--image", word(&before), "--save", word(&after)];
    assert!(oxterin(&words, "06\n02 00 12 34 0F\n").status.success());
    let mut expected = image.clone();
    expected[0x1234] &= 0x0F;
    assert_eq!(fs::read(&after).expect("saved"), expected);
    assert_eq!(fs::read(&before).expect("there"), image);
}

#[cfg(unix)]
#[test]
fn a_saved_image_goes_behind_a_link_and_keeps_permissions() {
    use std::os::unix::fs::{symlink, PermissionsExt};
    let (file, link) = (scratch("private.bin"), scratch("link.bin"));
    fs::write(&file, "old").expect("written");
    fs::set_permissions(&file, fs::Permissions::from_mode(0o600)).expect("set");
    symlink(&file, &link).expect("linked");
    assert!(oxterin(&["run", "--size", "65536", "--save", word(&link)], "06\n").status.success());
    assert_eq!(fs::read(&file).expect("saved"), vec![0xFF; 65_536]);
    assert_eq!(fs::metadata(&file).expect("there").permissions().mode() & 0o777, 0o600);
    assert!(fs::symlink_metadata(&link).expect("there").is_symlink());
}

#[cfg(unix)]
#[test]
fn words_that_are_no_text_are_complained_of() {
    use std::os::unix::ffi::OsStrExt;
    let word = std::ffi::OsStr::from_bytes(b"\xFF");
    let output = Command::new(env!("CARGO_BIN_EXE_oxterin"))
        .arg("run")
        .arg(word)
        .output()
        .expect("it ends");
    assert!(complained(&output).contains("UTF-8"), "{}", complained(&output));
}

#[test]
fn a_bad_line_names_its_place_and_saves_nothing() {
    let after = scratch("unsaved.bin");
    let output = oxterin(&["run", "--save", word(&after)], "06\n02 00 00 0O 11\n");
    assert_eq!(
        complained(&output),
        "oxterin: standard input, line 2, column 11: 0O: bytes are pairs of hexadecimal digits; \
         /BITS, +TICKS, @TICKS, wp=low or wp=high and account=N may come with them\n"
    );
    assert_eq!(said(&output), "06 > FF ST 12\n");
    assert!(!after.exists());
}

#[test]
fn a_refused_frame_ends_the_run() {
    let after = scratch("refused.bin");
    let complaint = oxterin(&["run", "--save", word(&after)], "05 00 /17\n");
    assert!(complained(&complaint).contains("line 1: refusal 4"), "{}", complained(&complaint));
    assert!(!after.exists());
}

#[test]
fn wrong_words_are_complained_of_with_a_remedy() {
    for (words, remedy) in [
        (&["rum"][..], "there are session, run, why, bill, serve, state and hex"),
        (&["session", "now"], "takes nothing"),
        (&["run", "--sise", "1"], "--help"),
        (&["run", "--size"], "wants a value"),
        (&["run", "--size", "1024"], "131072 or 65536"),
        (&["run", "--set", "erase=1"], "page-erase"),
        (&["run", "--set", "chip-erase=0"], "from 1 to 60,000,000"),
        (&["run", "--wp", "up"], "low or high"),
        (&["run", "--ticks-per-byte", "1001"], "1001: each byte position takes"),
        (&["run", "--ticks-per-byte", "-1"], "from 0 to 1,000"),
        (&["run", "--ticks-per-byte"], "wants a value"),
        (&["run", "a", "b"], "one file"),
        (&["run", "no such file"], "no such file"),
        (&["run", "--save", "no such folder/x"], "a folder that can be written"),
        (&["run", "--save", "/dev/null"], "not a plain file"),
        (&["run", "--image", "no such image"], "no such image"),
    ] {
        let output = oxterin(words, "");
        assert!(complained(&output).contains(remedy), "{words:?}: {}", complained(&output));
        assert_eq!(said(&output), "");
    }
}

#[test]
fn help_and_version() {
    for words in [
        &["--help"][..],
        &["session", "--help"],
        &["run", "--help"],
        &["why", "--help"],
        &["bill", "--help"],
        &["serve", "--help"],
        &["hex", "--help"],
    ] {
        let output = oxterin(words, "");
        assert!(output.status.success() && said(&output).contains("Usage: oxterin"), "{words:?}");
    }
    let version = oxterin(&["--version"], "");
    assert!(
        said(&version).starts_with("oxterin 1.5.0\nproved library 1.5.0, built for "),
        "{}",
        said(&version)
    );
}
