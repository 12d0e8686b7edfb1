//! Nothing destroys a user's file: neither a word that names one file twice, nor a signal, nor a second process.
mod common;

use common::server::{refusal, until, Server, ACK};
use common::{complaint, complaint_in, files, oxterin, oxterin_in, says, word};
use std::fs::{self, File};
use std::os::unix::fs::{symlink, MetadataExt, PermissionsExt};
use std::path::{Path, PathBuf};
use std::process::{Command, Stdio};
use std::time::Duration;

/// An empty folder for a test's files.
fn folder(name: &str) -> PathBuf {
    common::folder("files", name)
}

/// A folder with an image of 65,536 bytes, a text of frames, a state, and other names for the image: a link, a hard link, and a path.
fn crowded(name: &str) -> PathBuf {
    let folder = folder(name);
    fs::write(folder.join("image"), vec![0xA5; 65_536]).expect("an image");
    fs::write(folder.join("frames"), "06\n").expect("frames");
    symlink("image", folder.join("link")).expect("a link");
    fs::hard_link(folder.join("image"), folder.join("hard")).expect("a hard link");
    symlink("missing", folder.join("nowhere")).expect("a link");
    fs::create_dir(folder.join("deep")).expect("a folder");
    assert!(oxterin_in(&folder, &["state", "bench", "--new"], "").status.success());
    folder
}

/// Whatever two words name one file by, in every command, the call is refused before anything is touched.
#[test]
fn two_words_for_one_file_are_told_apart_by_file() {
    let folder = crowded("twice");
    let before: Vec<(String, Vec<u8>)> = ["image", "frames", "bench"]
        .map(|name| (name.to_string(), fs::read(folder.join(name)).expect("there")))
        .into();
    let names = files(&folder);
    for words in [
        &["serve", "--port=0", "--image", "image", "--log", "image"][..],
        &["serve", "--port=0", "--image", "image", "--log", "link"],
        &["serve", "--port=0", "--image", "link", "--log", "hard"],
        &["serve", "--port=0", "--image", "deep/../image", "--json", "./image"],
        &["serve", "--port=0", "--save", "image", "--log", "image"],
        &["serve", "--port=0", "--save", "new", "--log", "new"],
        &["serve", "--port=0", "--save", "deep/../new", "--json", "new"],
        &["serve", "--port=0", "--save", "missing", "--log", "nowhere"],
        &["serve", "--port=0", "--log", "new", "--json", "new"],
        &["serve", "--port=0", "--log", "-", "--json", "-"],
        &["serve", "--port=0", "--state", "bench", "--save", "bench"],
        &["serve", "--port=0", "--state", "bench", "--status", "bench"],
        &["run", "frames", "--save", "frames"],
        &["run", "frames", "--save", "deep/../frames"],
        &["run", "frames", "--state", "frames"],
        &["run", "frames", "--state", "bench", "--save", "bench"],
        &["run", "image", "--image", "image", "--save", "image"],
        &["bill", "frames", "--html", "frames"],
        &["bill", "frames", "--image", "image", "--html", "hard"],
        &["bill", "--state", "bench", "--html", "bench"],
        &["state", "bench", "--save", "bench"],
        &["state", "new", "--new", "--image", "new"],
        &["hex", "to", "image", "image"],
        &["hex", "to", "image", "hard"],
        &["hex", "from", "link", "image"],
    ] {
        let complaint = complaint_in(&folder, words, "");
        assert!(
            complaint.ends_with("are the same file; name another for one of them"),
            "{words:?}: {complaint}"
        );
        for (name, content) in &before {
            assert!(
                fs::read(folder.join(name)).expect("there") == *content,
                "{words:?}: {name} has changed"
            );
        }
        assert_eq!(files(&folder), names, "{words:?}");
    }
}

#[test]
fn an_image_may_be_saved_over_itself() {
    let folder = crowded("over");
    let words = ["run", "frames", "--image", "image", "--save", "link"];
    assert!(oxterin_in(&folder, &words, "").status.success());
    assert!(fs::read(folder.join("image")).expect("there") == vec![0xA5; 65_536]);
}

/// A shell may hand the command a file as its standard input or output.
#[test]
fn standard_input_and_output_count_as_files() {
    let folder = crowded("standard");
    for (words, input, output) in [
        (&["run", "--save", "frames"][..], Some("frames"), None),
        (&["run", "-", "--save", "deep/../frames"], Some("frames"), None),
        (&["hex", "from", "image", "-"], None, Some("hard")),
        (&["hex", "to", "-", "image"], Some("image"), None),
        (&["run", "frames", "--save", "bench"], None, Some("bench")),
        (&["run", "frames"], None, Some("frames")),
    ] {
        let stdin = input.map_or_else(Stdio::null, |name| File::open(folder.join(name)).expect("a file").into());
        let append = |name| fs::OpenOptions::new().append(true).open(folder.join(name));
        let stdout = output.map_or_else(Stdio::piped, |name| append(name).expect("a file").into());
        let ended = Command::new(env!("CARGO_BIN_EXE_oxterin"))
            .args(words)
            .current_dir(&folder)
            .stdin(stdin)
            .stdout(stdout)
            .stderr(Stdio::piped())
            .output()
            .expect("the command ends");
        let complaint = String::from_utf8_lossy(&ended.stderr).into_owned();
        assert!(
            ended.status.code() == Some(2) && complaint.contains("are the same file"),
            "{words:?}: {complaint}"
        );
    }
    assert_eq!(fs::read(folder.join("frames")).expect("there"), b"06\n");
    assert!(fs::read(folder.join("image")).expect("there") == vec![0xA5; 65_536]);
}

/// What a killed process left beside a file goes; what somebody is writing, or what is no such file, stays.
#[test]
fn what_a_killed_run_left_is_swept_away() {
    let folder = folder("swept");
    let left = ["0123456789abcdef", "fedcba9876543210"].map(|number| folder.join(format!("out.new-{number}")));
    let stays = ["out.new-", "out.new-1", "out.new-0123456789abcdeg", "other.new-0123456789abcdef"].map(|name| folder.join(name));
    for file in left.iter().chain(&stays) {
        fs::write(file, "half").expect("a file");
    }
    let link = folder.join("out.new-00000000000000aa");
    symlink(&stays[0], &link).expect("a link");
    let busy = File::open(&left[1]).expect("there");
    busy.lock().expect("locked");
    let out = folder.join("out");
    assert!(oxterin(&["run", "--size=65536", "--save", word(&out)], "06\n").status.success());
    assert!(!left[0].exists() && left[1].exists() && fs::symlink_metadata(&link).is_ok());
    assert!(stays.iter().all(|file| fs::read(file).expect("there") == b"half"));
    busy.unlock().expect("unlocked"); // closed, it stays locked while a process that another test begins still has it
    assert!(oxterin(&["run", "--size=65536", "--save", word(&out)], "06\n").status.success());
    assert!(!left[1].exists());
    assert_eq!(fs::read(&out).expect("saved"), vec![0xFF; 65_536]);
}

#[test]
fn a_saved_file_has_the_old_ones_mode_and_a_new_one_the_usual_one() {
    let folder = folder("mode");
    let mode = |name: &str| fs::metadata(folder.join(name)).expect("there").permissions().mode() & 0o7777;
    fs::write(folder.join("usual"), "").expect("a file");
    for (name, bits) in [("private", 0o600), ("shared", 0o664), ("open", 0o606)] {
        fs::write(folder.join(name), "").expect("a file");
        fs::set_permissions(folder.join(name), fs::Permissions::from_mode(bits)).expect("set");
        assert!(oxterin_in(&folder, &["run", "--save", name], "06\n").status.success());
        assert_eq!(mode(name), bits);
    }
    assert!(oxterin_in(&folder, &["run", "--save", "new"], "06\n").status.success());
    assert_eq!(mode("new"), mode("usual"));
}

#[test]
fn a_read_only_file_is_not_replaced() {
    let folder = folder("read-only");
    let file = folder.join("master.bin");
    fs::write(&file, "precious").expect("a file");
    fs::set_permissions(&file, fs::Permissions::from_mode(0o444)).expect("set");
    let complaint = complaint(&["run", "--save", word(&file)], "06\n");
    assert!(complaint.contains("a read-only file"), "{complaint}");
    assert_eq!(fs::read(&file).expect("there"), b"precious");
    assert_eq!(files(&folder), ["master.bin"]);
}

/// The array with the byte that [`program`] programs.
fn programmed() -> Vec<u8> {
    let mut array = vec![0xFF; 65_536];
    array[0x1234] = 0x5A;
    array
}

/// Programs a byte, and stays.
fn program(server: &Server) -> common::server::Client {
    let mut client = server.client();
    client.frame(&[0x06], &[]);
    client.frame(&[0x02, 0x00, 0x12, 0x34, 0x5A], &[]);
    client
}

#[test]
fn a_signal_ends_the_server_and_no_write_is_lost() {
    for signal in ["TERM", "INT", "HUP"] {
        let folder = folder(&format!("signal-{signal}"));
        let (out, log) = (folder.join("out"), folder.join("log"));
        let mut server = Server::start(&["--size=65536", "--save", word(&out), "--log", word(&log)]);
        let _client = program(&server);
        server.signal(signal);
        assert!(server.ends_well(), "SIG{signal}");
        assert!(fs::read(&out).expect("saved") == programmed(), "SIG{signal}");
        let log = fs::read_to_string(&log).expect("a log");
        assert!(log.ends_with("\n02 00 12 34 5A account=0 # ST 11 begun\n"), "SIG{signal}: {log}");
        server.says(&format!("ended by SIG{signal} after 2 frames"));
        assert_eq!(files(&folder), ["log", "out"]);
    }
}

/// As nohup does it. A server that did not survive would have saved and ended.
#[test]
fn a_signal_that_the_parent_ignores_is_ignored() {
    let out = folder("nohup").join("out");
    let mut child = Command::new("sh")
        .args([
            "-c",
            "trap '' HUP; exec \"$@\"",
            "sh",
            env!("CARGO_BIN_EXE_oxterin"),
            "serve",
            "--port=0",
            "--save",
        ])
        .arg(&out)
        .stdout(Stdio::piped())
        .stderr(Stdio::null())
        .spawn()
        .expect("a shell");
    assert!(until(|| out.exists().then_some(())).is_some());
    let id = child.id().to_string();
    let kill = |signal: &str| Command::new("kill").args(["-s", signal, &id]).status().expect("the command kill");
    assert!(kill("HUP").success());
    std::thread::sleep(Duration::from_millis(200));
    assert!(child.try_wait().expect("started here").is_none(), "SIGHUP has ended it");
    assert!(kill("TERM").success());
    assert!(child.wait().expect("started here").success());
}

#[test]
fn a_quiet_server_saves_though_its_client_stays() {
    let out = folder("quiet").join("out");
    let server = Server::start(&["--size=65536", "--save", word(&out)]);
    assert_eq!(fs::read(&out).expect("made at once"), vec![0xFF; 65_536]);
    let mut client = program(&server);
    assert!(until(|| (fs::read(&out).expect("there") == programmed()).then_some(())).is_some());
    client.ask(&[0x00], &[ACK]);
}

/// Neither a server that nobody comes to, nor a stranger, nor a client that changes nothing, replaces an older file. One that programs does.
#[test]
fn an_older_image_stays_until_the_array_changes() {
    let out = folder("older").join("out");
    let older = vec![0x3C; 65_536];
    fs::write(&out, &older).expect("an older image");
    let words = ["--size=65536", "--save", word(&out)];
    let mut server = Server::start(&words);
    assert!(server.ends_when_asked());
    assert!(fs::read(&out).expect("there") == older);
    let mut server = Server::start(&words);
    server.client().send(b"GET / HTTP/1.1\r\n\r\n");
    let mut client = server.client();
    client.frame(&[0x05], &[0x10]);
    drop(client);
    assert!(server.ends_when_asked());
    assert!(fs::read(&out).expect("there") == older);
    let mut server = Server::start(&words);
    drop(program(&server));
    assert!(server.ends_when_asked());
    assert!(fs::read(&out).expect("there") == programmed());
}

/// Somebody moves another file to the place of the one that a server saves, as when a backup is restored.
#[test]
fn a_file_that_takes_the_place_of_a_saved_one_is_not_replaced() {
    let folder = folder("moved");
    let (out, other) = (folder.join("out"), folder.join("other"));
    let mut server = Server::start(&["--size=65536", "--save", word(&out)]);
    fs::write(&other, "a backup").expect("a file");
    fs::rename(&other, &out).expect("moved");
    drop(program(&server));
    server.says("another file has taken this name meanwhile");
    server.signal("TERM");
    assert!(!server.ends_well());
    assert_eq!(fs::read(&out).expect("there"), b"a backup");
    assert_eq!(files(&folder), ["out"]);
}

/// A log is a plain file of one server: a pipe that nobody reads would stop all clients.
#[test]
fn a_log_is_a_plain_file_of_one_server() {
    let folder = folder("logs");
    let log = folder.join("log");
    for path in ["/dev/null", "/dev/stdout", word(&folder)] {
        for option in ["--log", "--json"] {
            let (code, complaint) = refusal(&["--port=0", option, path]);
            assert!(
                code == Some(2) && complaint.contains("not a plain file"),
                "{option} {path}: {complaint}"
            );
        }
    }
    let _server = Server::start(&["--log", word(&log)]);
    for option in ["--log", "--json"] {
        let (code, complaint) = refusal(&["--port=0", option, word(&log)]);
        assert!(
            code == Some(2) && complaint.contains("another oxterin is writing this file"),
            "{complaint}"
        );
    }
}

/// The limit that stands for a full disk is 16 blocks of 512 bytes. The part is served on; the log has whole lines, and the end says so.
#[test]
fn a_log_that_cannot_grow_ends_with_a_whole_line() {
    let log = folder("full-log").join("log");
    let limited = "trap '' XFSZ; ulimit -f 16; exec \"$@\"";
    let mut shell = Command::new("sh");
    let words = ["serve", "--port=0", "--log", word(&log)];
    shell.args(["-c", limited, "sh", env!("CARGO_BIN_EXE_oxterin")]).args(words);
    let mut server = Server::of(&mut shell, 1);
    let mut client = server.client();
    for _ in 0..5 {
        client.frame(&[0x03, 0x00, 0x00, 0x00], &[0xFF; 1_000]);
        std::thread::sleep(Duration::from_millis(300)); // so that each is written by itself
    }
    server.says("the log ends here, the part is served on");
    client.frame(&[0x05], &[0x10]);
    server.signal("TERM");
    assert!(!server.ends_well());
    server.says("the log ended before the server did");
    let log = fs::read_to_string(&log).expect("a log");
    assert!(log.ends_with(" # ST 10 read\n") && log.lines().count() < 6, "{}", log.len());
}

/// Which file is at a path: a new one has another number.
fn number(path: &Path) -> u64 {
    fs::metadata(path).expect("there").ino()
}

/// A save makes a new file, so one that is not new was not saved.
#[test]
fn visitors_who_change_nothing_cost_no_save() {
    let folder = folder("visitors");
    let (out, state) = (folder.join("out"), folder.join("state"));
    says(&["state", word(&state), "--new", "--size=65536"], "");
    let mut server = Server::start(&["--state", word(&state), "--save", word(&out)]);
    let first = [number(&out), number(&state)];
    for _ in 0..50 {
        server.client().ask(&[0x00], &[ACK]);
    }
    assert!(server.ends_when_asked());
    assert_eq!([number(&out), number(&state)], first);
    let server = Server::start(&["--state", word(&state), "--save", word(&out)]);
    drop(program(&server));
    assert!(until(|| (number(&out) != first[0] && number(&state) != first[1]).then_some(())).is_some());
}

/// A server holds what it saves; others are told so and touch nothing. When it has ended the files are free.
#[test]
fn two_processes_never_save_one_file() {
    let folder = folder("two");
    let (out, state, link) = (folder.join("out"), folder.join("state"), folder.join("link"));
    symlink("out", &link).expect("a link");
    says(&["state", word(&state), "--new", "--size=65536"], "");
    let mut server = Server::start(&["--state", word(&state), "--save", word(&out)]);
    drop(program(&server)); // so both files are new ones
    assert!(until(|| (fs::read(&out).expect("there") == programmed()).then_some(())).is_some());
    let taken = |words: &[&str]| {
        let complaint = complaint(words, "06\n");
        assert!(complaint.contains("another oxterin is using this file"), "{words:?}: {complaint}");
    };
    for path in [&out, &link] {
        let (code, complaint) = refusal(&["--port=0", "--save", word(path)]);
        assert!(
            code == Some(2) && complaint.contains("another oxterin is using this file"),
            "{complaint}"
        );
        taken(&["run", "--save", word(path)]);
        taken(&["hex", "from", "-", word(path)]);
    }
    let (code, complaint) = refusal(&["--port=0", "--state", word(&state)]);
    assert!(
        code == Some(2) && complaint.contains("another oxterin is using this file"),
        "{complaint}"
    );
    taken(&["run", "--state", word(&state)]);
    taken(&["bill", "-", "--state", word(&state)]);
    taken(&["bill", "--state", word(&state), "--close"]);
    says(&["bill", "--state", word(&state)], "");
    says(&["state", word(&state)], "");
    assert!(server.ends_when_asked());
    assert!(fs::read(&out).expect("saved") == programmed());
    says(&["run", "--state", word(&state), "--save", word(&out)], "05 00\n");
    assert_eq!(files(&folder), ["link", "out", "state"]);
}

/// Memory stays bounded whatever is read: a line, an image, a text of HEX.
#[test]
fn what_never_ends_is_given_up() {
    let long = "00 ".repeat(21_846);
    assert_eq!(long.len(), 65_538);
    let limit = "longer than 65,536 bytes, and a frame of 8,192 bytes takes some 25,000";
    for (words, input, wanted) in [
        (
            &["run"][..],
            format!("06 # {}\n{long}", "x".repeat(65_531)),
            "standard input, line 2: ",
        ),
        (&["bill"], long.clone(), "standard input, line 1: "),
        (&["run", "/dev/zero"], String::new(), "/dev/zero, line 1: "),
    ] {
        let complained = String::from_utf8(oxterin(words, input).stderr).expect("text");
        assert!(complained.contains(&format!("{wanted}{limit}")), "{words:?}: {complained}");
    }
    assert_eq!(says(&["run"], format!("06 # {}\n", "x".repeat(65_531))), b"06 > FF ST 12\n");
    for words in [&["run", "--image", "/dev/zero"][..], &["hex", "from", "/dev/zero", "-"]] {
        let complaint = complaint(words, "");
        assert!(complaint.contains("/dev/zero: more than 64 MiB"), "{words:?}: {complaint}");
    }
}
