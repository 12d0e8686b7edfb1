//! `oxterin state` and `--state`: a part with its books goes on from one run to the next, whole or not at all.
mod common;

use common::server::{refusal, Server};
use common::{complaint, oxterin, word};
use std::fs::{self, Permissions};
use std::os::unix::fs::PermissionsExt;
use std::path::{Path, PathBuf};
use std::process::{Command, Stdio};
use std::time::{Duration, Instant};

/// Runs the command, which has to end well and complain of nothing: what it says.
fn says(words: &[&str], input: &str) -> String {
    String::from_utf8(common::says(words, input)).expect("text")
}

/// A fresh state in an empty folder.
fn fresh(name: &str, options: &[&str]) -> PathBuf {
    let state = common::folder("state", name).join("bench");
    says(&[&["state", word(&state), "--new"], options].concat(), "");
    state
}

/// The bill of a state as comma-separated values, less the heads.
fn billed(state: &Path) -> String {
    let text = says(&["bill", "--state", word(state), "--csv"], "");
    text.strip_prefix("account,total,most,operations\n").expect("the heads").to_string()
}

#[test]
fn a_fresh_state_is_shown_in_words() {
    let state = fresh("fresh", &["--size", "65536", "--set", "erase-4k=70000", "--bp0"]);
    let wanted = "\
array       65,536 bytes, 0 of 256 pages in use
register    user bytes blank; factory bytes blank
record      awake; BPL 0, BP0 1, WEL 0, RSTE 0; one-time-programmable bytes not used
busy        idle
durations   byte-program 12; longer-program 2,000; page-erase 7,000; erase-4k 70,000; erase-32k 400,000; chip-erase 1,600,000; \
otp-program 400; status-write 20,000
time        0 ticks passed
books       since tick 0, 0 frames

Nothing was billed to anyone: no frame began an operation.
";
    assert_eq!(says(&["state", word(&state)], ""), wanted);
}

/// An image of two pages that are not blank, as bytes and as HEX, and a register whose factory half counts from 40h.
#[test]
fn a_fresh_state_is_made_from_an_image_and_a_register() {
    let folder = common::folder("state", "image");
    let [raw, hex, register] = ["a.bin", "a.hex", "register"].map(|name| folder.join(name));
    let mut array = vec![0xFF; 131_072];
    (array[0x100], array[0x1_FFFF]) = (0x00, 0xFE);
    fs::write(&raw, &array).expect("an image");
    says(&["hex", "to", word(&raw), word(&hex)], "");
    let bytes: Vec<u8> = (0..128).map(|place| if place < 64 { 0xFF } else { place }).collect();
    fs::write(&register, &bytes).expect("a register");
    for (name, image) in [("one", &raw), ("two", &hex)] {
        let (state, out) = (folder.join(name), folder.join("out"));
        says(
            &[
                "state",
                word(&state),
                "--new",
                "--image",
                word(image),
                "--register",
                word(&register),
            ],
            "",
        );
        let shown = says(&["state", word(&state), "--save", word(&out)], "");
        assert!(shown.starts_with("array       131,072 bytes, 2 of 512 pages in use\n"), "{shown}");
        assert!(
            shown.contains("\nregister    user bytes blank; factory bytes 40 41 42 43 "),
            "{shown}"
        );
        assert!(fs::read(&out).expect("saved") == array);
        let read = says(&["run", "--state", word(&state)], "77 00 00 40 00 00 00 00\n");
        assert_eq!(read, "77 00 00 40 00 00 00 00 > FF FF FF FF FF FF 40 41 ST 10\n");
    }
    fs::write(&register, [0; 127]).expect("a file");
    let three = folder.join("three");
    let complaint = complaint(&["state", word(&three), "--new", "--register", word(&register)], "");
    assert!(
        complaint.ends_with("the security register has 128 bytes, and this file 127"),
        "{complaint}"
    );
    assert!(!three.exists());
}

/// Account 7's chip erase takes 1,600,000 ticks. At midnight 1,000,000 of them have passed; the next day account 12 polls, the rest passes, and
/// account 12's page erase of 7,000 ticks begins, of which 5 pass. The latch that account 12 sets last is still set on the third day.
#[test]
fn what_is_left_at_midnight_is_billed_the_next_day() {
    let state = fresh("midnight", &["--size", "65536"]);
    let run = |frames: &str| says(&["run", "--state", word(&state)], frames);
    run("06 account=7\nC7 account=7\n05 00 account=12 +1000000\n");
    assert_eq!(billed(&state), "7,1000000,1000000,1\n");
    let shown = says(&["state", word(&state)], "");
    assert!(
        shown.contains("\nbusy        600,000 ticks left of an operation of account 7, billed so far for 1,000,000\n"),
        "{shown}"
    );
    run("05 00 account=12 +700000\n06 account=12\n81 00 00 00 account=12\n05 00 account=12 +5\n");
    assert_eq!(billed(&state), "7,1600000,1600000,1\n12,5,5,1\n");
    run("06 account=12 +6995\n");
    assert_eq!(run("05 00\n"), "05 00 > FF 12 ST 12\n");
    assert_eq!(billed(&state), "7,1600000,1600000,1\n12,7000,7000,1\n");
    let bill = says(&["bill", "--state", word(&state)], "");
    assert!(
        bill.ends_with("\nframes sent            9\nticks passed   1,707,000\nof them busy   1,607,000\n"),
        "{bill}"
    );
}

/// Of account 7's 4-KiB erase, 50,000 ticks, 20,000 pass before the month is closed and 30,000 after it.
#[test]
fn a_month_is_closed_and_what_runs_goes_on() {
    let state = fresh("month", &[]);
    let bill = |words: &[&str], frames: &str| says(&[&["bill", "--state", word(&state), "--csv"], words].concat(), frames);
    let heads = "account,total,most,operations\n";
    says(
        &["run", "--state", word(&state)],
        "06 account=7\n20 00 00 00 account=7\n05 00 +20000\n",
    );
    assert_eq!(bill(&["--close"], ""), format!("{heads}7,20000,20000,1\n"));
    assert_eq!(bill(&[], ""), heads);
    assert_eq!(billed(&state.with_file_name("bench.closed-20000")), "7,20000,20000,1\n");
    assert_eq!(bill(&["--close"], ""), heads);
    assert_eq!(bill(&["-"], "05 00 account=12 +60000\n"), format!("{heads}7,30000,30000,0\n"));
    let shown = says(&["state", word(&state)], "");
    assert!(
        shown.contains("\ntime        80,000 ticks passed\nbooks       since tick 20,000, 1 frame\n"),
        "{shown}"
    );
}

/// `bill FILE --state S`, then `bill --state S --close`, then `bill NEXT --state S`. In the first month account 7 programs a page, 2,000 ticks,
/// and begins a 4-KiB erase, of which 20,000 of 50,000 pass. In the second the other 30,000 do, and account 12 erases a page, 7,000, and
/// programs a byte, 12.
#[test]
fn bills_of_files_go_on_from_month_to_month() {
    let state = fresh("months", &[]);
    let [october, november] = ["october", "november"].map(|name| state.with_file_name(name));
    fs::write(
        &october,
        "06 account=7\n02 00 00 00 11 22 account=7\n05 00 account=12 +2000\n06 account=7\n20 00 10 00 account=7\n05 00 +20000\n",
    )
    .expect("frames");
    fs::write(
        &november,
        "05 00 account=12 +30000\n06 account=12\n81 00 10 00 account=12\n06 account=12 +7000\n02 00 10 00 33 account=12\n05 00 +12\n",
    )
    .expect("frames");
    let heads = "account,total,most,operations\n";
    let bill = |words: &[&str]| says(&[&["bill", "--csv", "--state", word(&state)], words].concat(), "");
    assert_eq!(bill(&[word(&october)]), format!("{heads}7,22000,20000,2\n"));
    assert_eq!(bill(&["--close"]), format!("{heads}7,22000,20000,2\n"));
    assert_eq!(bill(&[]), heads);
    let shown = says(&["state", word(&state)], "");
    assert!(
        shown.contains("\nbusy        30,000 ticks left of an operation of account 7, billed so far for 0\n"),
        "{shown}"
    );
    let second = format!("{heads}7,30000,30000,0\n12,7012,7000,2\n");
    assert_eq!(bill(&[word(&november)]), second);
    assert_eq!(bill(&["--close"]), second);
    assert_eq!(bill(&["--close"]), heads);
}

/// How a call ends whose words nobody gets, since they go to a device that is full.
fn unread(words: &[&str]) -> Option<i32> {
    let full = fs::OpenOptions::new().write(true).open("/dev/full").expect("a device that is full");
    let mut command = Command::new(env!("CARGO_BIN_EXE_oxterin"));
    let ended = command.args(words).stdout(full).stderr(Stdio::null()).status();
    ended.expect("the command ends").code()
}

/// A bill that cannot be written closes nothing.
#[test]
fn a_bill_that_nobody_gets_closes_nothing() {
    let state = fresh("unread", &[]);
    says(
        &["run", "--state", word(&state)],
        "06 account=7\n20 00 00 00 account=7\n05 00 +20000\n",
    );
    let before = fs::read(&state).expect("there");
    assert_eq!(unread(&["bill", "--state", word(&state), "--close"]), Some(2));
    assert!(fs::read(&state).expect("there") == before);
}

/// Frames whose bill nobody got are not in the books, so they can be sent again.
#[test]
fn a_bill_of_frames_that_nobody_gets_saves_nothing() {
    let state = fresh("unread-frames", &[]);
    let frames = state.with_file_name("frames");
    fs::write(&frames, DAY).expect("frames");
    let before = fs::read(&state).expect("there");
    for more in [&[][..], &["--close"]] {
        let words = [&["bill", word(&frames), "--state", word(&state)], more].concat();
        assert_eq!(unread(&words), Some(2));
        assert!(fs::read(&state).expect("there") == before);
    }
}

/// A log in which a server goes on from elsewhere than the lines before have come, as after a kill: 6 frames and 1,050 ticks.
#[test]
fn a_log_with_a_gap_is_not_billed() {
    let begin = |words: &str| format!("# oxterin serve 2026-11-16T01:26:41Z, {words}\n");
    let bill = |log: &str| oxterin(&["bill", "--csv"], log);
    let whole = format!(
        "{}{DAY}{}05 00\n",
        begin("a fresh part; .."),
        begin("goes on at tick 1050 after 5 frames")
    );
    assert!(bill(&whole).status.success());
    let later = format!(
        "{}{DAY}{}05 00\n",
        begin("goes on at tick 7 after 9 frames"),
        begin("goes on at tick 1057 after 14 frames")
    );
    assert!(bill(&later).status.success());
    for words in [
        "goes on at tick 1050 after 4 frames",
        "goes on at tick 50 after 5 frames",
        "a fresh part; ..",
    ] {
        let ended = bill(&format!("{}{DAY}{}05 00\n", begin("a fresh part; .."), begin(words)));
        let complaint = String::from_utf8(ended.stderr).expect("text");
        assert!(
            ended.stdout.is_empty() && complaint.contains("standard input, line 7: a "),
            "{complaint}"
        );
    }
}

#[test]
fn a_run_that_fails_saves_nothing() {
    let state = fresh("failing", &[]);
    let before = fs::read(&state).expect("there");
    for frames in ["06\n0\n", "06\n05 00 /17\n"] {
        for command in ["run", "bill"] {
            let ended = oxterin(&[command, "-", "--state", word(&state)], frames);
            assert_eq!(ended.status.code(), Some(2));
            assert!(fs::read(&state).expect("there") == before);
        }
    }
}

#[test]
fn a_state_that_is_there_is_not_made_again() {
    let state = fresh("again", &[]);
    let before = fs::read(&state).expect("there");
    let complaint = complaint(&["state", word(&state), "--new", "--bpl"], "");
    assert!(complaint.contains("there is a file already"), "{complaint}");
    assert!(fs::read(&state).expect("there") == before);
}

/// Each call that goes on from a state, with the words that name it.
fn going_on(state: &Path) -> Vec<Vec<&str>> {
    let state = word(state);
    vec![
        vec!["run", "--state", state],
        vec!["bill", "-", "--state", state],
        vec!["bill", "--state", state],
        vec!["bill", "--state", state, "--close"],
        vec!["state", state],
        vec!["serve", "--port=0", "--state", state],
    ]
}

/// A file that is no state, or no whole one, is named with what is wrong, and is not touched.
#[test]
fn a_damaged_state_is_named_and_not_touched() {
    let state = fresh("damaged", &["--size", "65536"]);
    let whole = fs::read(&state).expect("there");
    let changed = |place: usize| {
        let mut bytes = whole.clone();
        bytes[place] ^= 0x10;
        bytes
    };
    let mut newer = whole.clone();
    newer[8] = 2;
    let grown = [&whole[..], &vec![0; 65_536]].concat();
    for (bytes, wrong) in [
        (Vec::new(), "not a state of oxterin"),
        (vec![0xFF; 65_536], "not a state of oxterin"),
        (whole[..10].to_vec(), "a damaged state"),
        (whole[..72_039].to_vec(), "it says 72,040 bytes, and has 72,039"),
        (grown, "it says 72,040 bytes, and has 137,576"),
        (newer, "a state of version 2, and this oxterin reads version 1"),
        (changed(24), "its lengths are not those of a state"),
        (changed(80), "its checksum is"),
        (changed(5_000), "its checksum is"),
        (changed(72_000), "its checksum is"),
        (changed(72_039), "its checksum is"),
    ] {
        fs::write(&state, &bytes).expect("written");
        for words in going_on(&state) {
            let complaint = complaint(&words, "06\n");
            assert!(
                complaint.starts_with(word(&state)) && complaint.contains(wrong),
                "{words:?}: {complaint}"
            );
            assert!(fs::read(&state).expect("there") == bytes, "{words:?}");
        }
    }
    let folder = state.parent().expect("a folder");
    assert_eq!(fs::read_dir(folder).expect("the folder").count(), 1);
}

#[test]
fn a_state_that_is_missing_is_not_begun_by_mistake() {
    let missing = common::folder("state", "missing").join("benhc");
    for words in going_on(&missing) {
        let complaint = complaint(&words, "06\n");
        let remedy = format!("there is no such state; make one first: oxterin state {} --new", word(&missing));
        assert!(complaint.ends_with(&remedy), "{words:?}: {complaint}");
        assert!(!missing.exists());
    }
}

#[test]
fn a_state_has_its_own_part() {
    let state = fresh("own", &[]);
    for option in ["--size=65536", "--image=x", "--set=erase-4k=5", "--bpl", "--bp0", "--otp-used"] {
        for command in ["run", "bill", "serve"] {
            let complaint = complaint(&[command, "--state", word(&state), option], "");
            let name = option.split('=').next().expect("a name");
            assert!(complaint.starts_with(&format!("{name} describes a fresh part")), "{complaint}");
        }
    }
    let complained = complaint(&["state", word(&state), "--bpl"], "");
    assert!(complained.ends_with("oxterin state FILE --new --bpl .."), "{complained}");
    for (words, remedy) in [
        (&["state"][..], "oxterin state FILE"),
        (&["state", "a", "b"], "b is a second one"),
        (&["bill", "--close"], "oxterin bill --state FILE --close"),
    ] {
        let complaint = complaint(words, "");
        assert!(complaint.ends_with(remedy), "{complaint}");
    }
}

/// Frames that change array, record, ledger and time.
const DAY: &str = "06 account=3\n02 00 12 34 5A account=3\n06 account=3 +50\n81 00 20 00 account=3\n05 00 account=9 +1000\n";

/// Killed at any moment, a run leaves the state that was or the state that would have been, and nothing that stays: a hundred times, at moments
/// that are spread over the time that a whole run takes.
#[test]
fn a_run_killed_at_any_moment_leaves_the_old_state_or_the_new_one() {
    const TIMES: u32 = 100;
    let state = fresh("killed", &["--size", "65536"]);
    let folder = state.parent().expect("a folder");
    let frames = folder.join("frames");
    fs::write(&frames, DAY).expect("frames");
    let start = || {
        Command::new(env!("CARGO_BIN_EXE_oxterin"))
            .args(["run", word(&frames), "--state", word(&state)])
            .stdout(Stdio::null())
            .spawn()
            .expect("the command starts")
    };
    let old = fs::read(&state).expect("there");
    let begun = Instant::now();
    assert!(start().wait().expect("it ends").success());
    let whole = begun.elapsed();
    let new = fs::read(&state).expect("there");
    assert!(new != old);
    let mut kept = 0;
    for time in 0..TIMES {
        fs::write(&state, &old).expect("written");
        let mut run = start();
        std::thread::sleep(whole * time / TIMES);
        run.kill().expect("started here");
        run.wait().expect("it has ended");
        let found = fs::read(&state).expect("there");
        assert!(found == old || found == new, "killed after {time} of {TIMES} parts of {whole:?}");
        kept += u32::from(found == old);
    }
    assert!(kept > 0, "no run was killed in time");
    fs::write(&state, &old).expect("written");
    assert!(start().wait().expect("it ends").success());
    assert_eq!(fs::read_dir(folder).expect("the folder").count(), 2);
}

/// A server is killed a few moments after a client has left. Each client programs one byte, so the state has as many operations as bytes.
#[test]
fn a_server_killed_at_any_moment_leaves_a_state_that_was() {
    let state = fresh("killed-server", &["--size", "65536"]);
    let out = state.with_file_name("out");
    for time in 0..20u64 {
        let mut server = Server::start(&["--state", word(&state), "--account", "5"]);
        for place in 0..4 {
            let mut client = server.client();
            client.wait(60_000_000);
            client.frame(&[0x06], &[]);
            client.frame(&[0x02, 0x00, time as u8, place, 0x00], &[]);
        }
        std::thread::sleep(Duration::from_micros(400 * time));
        server.process.kill().expect("started here");
        server.process.wait().expect("it has ended");
        says(&["state", word(&state), "--save", word(&out)], "");
        let programmed = fs::read(&out).expect("saved").iter().filter(|byte| **byte == 0).count();
        let bill = billed(&state);
        let begun = bill.trim_end().rsplit(',').next().expect("a number");
        assert_eq!(begun.parse().unwrap_or(0), programmed, "{bill}");
    }
}

/// A file that may not grow is a disk that is full: a limit of the shell stands for it.
#[test]
fn a_full_disk_leaves_the_old_state() {
    let state = fresh("full", &["--size", "65536"]);
    let before = fs::read(&state).expect("there");
    let limited = |words: &[&str]| {
        Command::new("sh")
            .args(["-c", "trap '' XFSZ; ulimit -f 16; exec \"$@\"", "sh", env!("CARGO_BIN_EXE_oxterin")])
            .args(words)
            .stdin(Stdio::null())
            .output()
            .expect("a shell")
    };
    let frames = state.with_file_name("frames");
    fs::write(&frames, DAY).expect("frames");
    let ended = limited(&["run", word(&frames), "--state", word(&state)]);
    let complaint = String::from_utf8_lossy(&ended.stderr).into_owned();
    assert!(
        ended.status.code() == Some(2) && complaint.contains("what was there is as it was"),
        "{complaint}"
    );
    assert!(fs::read(&state).expect("there") == before);
    let new = state.with_file_name("new");
    assert_eq!(limited(&["state", word(&new), "--new"]).status.code(), Some(2));
    assert_eq!(fs::read_dir(state.parent().expect("a folder")).expect("the folder").count(), 2);
}

/// Whoever may write everywhere, as root may, is not kept out by a folder's mode.
#[test]
fn a_read_only_folder_is_named_before_anything_is_done() {
    let state = fresh("read-only", &[]);
    let before = fs::read(&state).expect("there");
    let folder = state.parent().expect("a folder");
    fs::set_permissions(folder, Permissions::from_mode(0o555)).expect("set");
    if fs::write(folder.join("probe"), "").is_err() {
        let (code, complaint) = refusal(&["--port=0", "--state", word(&state)]);
        assert!(code == Some(2) && complaint.contains("a folder that can be written"), "{complaint}");
        let ended = oxterin(&["run", "--state", word(&state)], DAY);
        assert_eq!((ended.status.code(), ended.stdout), (Some(2), Vec::new()));
        says(&["state", word(&state)], "");
    }
    fs::set_permissions(folder, Permissions::from_mode(0o755)).expect("set");
    assert!(fs::read(&state).expect("there") == before);
}
