//! `oxterin serve` as its clients see it: the built command, its port, and the serial flasher protocol spoken by hand.
mod common;

use common::server::{command, operation, refusal, until, Server, ACK, NAK};
use common::word;
use std::fs;
use std::io::{ErrorKind, Read};
use std::net::Shutdown;
use std::path::{Path, PathBuf};
use std::process::Output;
use std::time::Duration;

/// The whole array, erased.
static BLANK: [u8; 131_072] = [0xFF; 131_072];

/// An empty folder for a test's files.
fn folder(name: &str) -> PathBuf {
    common::folder("serve", name)
}

#[test]
fn queries_have_their_answers() {
    let server = Server::start(&[]);
    let mut client = server.client();
    client.ask(&[0x00], &[ACK]);
    client.ask(&[0x01], &[ACK, 0x01, 0x00]);
    // 00 to 05 and 07; 08, 0B, 0E and 0F; 10 to 15.
    let map = [&[ACK, 0b1011_1111, 0b1100_1001, 0b0011_1111][..], &[0; 29]].concat();
    client.ask(&[0x02], &map);
    client.ask(&[0x03], b"\x06oxterin\0\0\0\0\0\0\0\0\0");
    client.ask(&[0x04], &[ACK, 0xFF, 0xFF]);
    client.ask(&[0x05], &[ACK, 0x08]);
    client.ask(&[0x07], &[ACK, 0xFF, 0xFF]);
    client.ask(&[0x08], &[ACK, 0xFC, 0x1F, 0x00]);
    client.ask(&[0x11], &[ACK, 0xFC, 0x1F, 0x00]);
    client.ask(&[0x10], &[NAK, ACK]);
}

#[test]
fn settings_of_the_programmer_have_their_answers() {
    let server = Server::start(&[]);
    let mut client = server.client();
    client.ask(&[0x0B], &[ACK]);
    client.ask(&[0x0E, 0x10, 0x10, 0x10, 0x10], &[ACK]);
    client.ask(&[0x0F], &[ACK]);
    client.ask(&[0x12, 0x08], &[ACK]);
    client.ask(&[0x12, 0x0F], &[ACK]);
    client.ask(&[0x12, 0x07], &[NAK]);
    client.ask(&[0x14, 0x40, 0x42, 0x0F, 0x00], &[ACK, 0x40, 0x42, 0x0F, 0x00]);
    client.ask(&[0x14, 0x00, 0x00, 0x00, 0x00], &[NAK]);
    client.ask(&[0x15, 0x01], &[ACK]);
    client.ask(&[0x15, 0x00], &[ACK]);
}

#[test]
fn commands_that_are_not_served_are_refused_with_their_parameters() {
    let server = Server::start(&[]);
    let mut client = server.client();
    client.ask(&[0x00], &[ACK]);
    client.ask(&[0x06], &[NAK]);
    client.ask(&[0x09, 0x00, 0x00, 0x00], &[NAK]);
    client.ask(&[0x0A, 0x00, 0x00, 0x00, 0x04, 0x00, 0x00], &[NAK]);
    client.ask(&[0x0C, 0x00, 0x00, 0x00, 0x55], &[NAK]);
    client.ask(&[0x0D, 0x03, 0x00, 0x00, 0x00, 0x00, 0x00, 0x11, 0x22, 0x33], &[NAK]);
}

#[test]
fn requests_may_come_many_at_once_or_byte_by_byte() {
    let server = Server::start(&[]);
    let mut client = server.client();
    client.send(&[0x00; 1_000]);
    client.expect(&[ACK; 1_000]);
    for byte in [0x13, 0x01, 0x00, 0x00, 0x05, 0x00, 0x00, 0x9F] {
        client.send(&[byte]);
        std::thread::sleep(Duration::from_millis(1));
    }
    client.expect(&[ACK, 0x1F, 0x42, 0x00, 0x00, 0xFF]);
    client.send(&[0x00, 0x01, 0x00]);
    client.stream.shutdown(Shutdown::Write).expect("the client can still read");
    client.expect(&[ACK, ACK, 0x01, 0x00, ACK]);
}

#[test]
fn one_operation_is_one_frame() {
    let server = Server::start(&[]);
    let mut client = server.client();
    client.frame(&[0x9F], &[0x1F, 0x42, 0x00, 0x00, 0xFF]);
    client.frame(&[0x15, 0x00], &[0x65, 0xFF]);
    client.frame(&[], &[]);
    client.frame(&[], &[0xFF, 0xFF]);
    client.frame(&[0x06], &[]);
    client.frame(&[0x05], &[0x12, 0x00, 0x12]);
    client.frame(&[0x05, 0x00, 0x00], &[]);
    client.frame(&[0x04], &[]);
    client.frame(&[0x05], &[0x10]);
}

#[test]
fn the_longest_frame_is_taken_and_longer_ones_are_skipped() {
    let server = Server::start(&[]);
    let mut client = server.client();
    client.frame(&[0x06], &[]);
    let longest = 8_192;
    client.frame(&[0x03, 0x00, 0x00, 0x00], &BLANK[..longest - 4]);
    client.frame(&[0x00; 8_192], &[]);
    client.frame(&[], &BLANK[..longest]);
    for (sent, read) in [
        (longest + 1, 0),
        (longest, 1),
        (1, longest),
        (0, longest + 1),
        (0, 0xFF_FFFF),
        (0xFF_FFFF, 0),
        (0xFF_FFFF, 0xFF_FFFF),
    ] {
        // Write disables: were one of them taken for a frame, or for the next request, it would show.
        client.send(&operation(sent, read));
        client.ask(&vec![0x04; sent], &[NAK]);
    }
    client.frame(&[0x05], &[0x12, 0x00]);
}

#[test]
fn delays_are_the_time_that_passes() {
    let server = Server::start(&["--set", "erase-4k=50000"]);
    let mut client = server.client();
    client.frame(&[0x06], &[]);
    client.frame(&[0x20, 0x00, 0x10, 0x00], &[]);
    client.frame(&[0x05], &[0x11, 0x01]);
    client.ask(&[0x0E, 0xFF, 0xFF, 0xFF, 0xFF], &[ACK]); // not carried out yet
    client.frame(&[0x05], &[0x11, 0x01]);
    client.ask(&[0x0B], &[ACK]); // and never
    client.ask(&[0x0F], &[ACK]);
    client.frame(&[0x05], &[0x11, 0x01]);
    client.wait(20_000);
    client.wait(29_999);
    client.frame(&[0x05], &[0x11, 0x01]);
    client.wait(1);
    client.frame(&[0x05], &[0x10, 0x00]);
}

/// One long status read with chip select held low. A 4-KiB erase of 400 ticks is polled with 8 ticks to a byte: position 50 begins at 400,
/// where none is left, so the first 49 status bytes are busy, 11h and 01h in turn, and those behind them idle, 00h and 10h in turn.
#[test]
fn a_client_that_holds_chip_select_low_sees_busy_fall() {
    let server = Server::start(&["--set", "erase-4k=400", "--ticks-per-byte", "8"]);
    let mut client = server.client();
    client.frame(&[0x06], &[]);
    client.frame(&[0x20, 0x00, 0x10, 0x00], &[]);
    let mut polled = [0x11, 0x01].repeat(40);
    for (index, byte) in polled.iter_mut().enumerate().skip(49) {
        *byte = if index % 2 == 0 { 0x10 } else { 0x00 };
    }
    client.frame(&[0x05], &polled);
    client.frame(&[0x05], &[0x10, 0x00]);
}

/// The bytes of a program take ticks, and its operation starts behind them. 7 of 20 ticks elapse by a delay, and 13 are left as a poll of 8
/// ticks to a byte begins.
#[test]
fn delays_and_bytes_both_take_time() {
    let server = Server::start(&["--set", "longer-program=20", "--ticks-per-byte=8"]);
    let mut client = server.client();
    client.frame(&[0x06], &[]);
    client.frame(&[0x02, 0x00, 0x00, 0x00, 0x11, 0x22], &[]);
    client.wait(7);
    client.frame(&[0x05], &[0x11, 0x00, 0x10]);
    client.frame(&[0x03, 0x00, 0x00, 0x00], &[0x11, 0x22]);
}

#[test]
fn ticks_wait_for_a_frame_that_is_accepted_even_of_the_next_client() {
    let server = Server::start(&["--set", "chip-erase=1000"]);
    let mut client = server.client();
    client.frame(&[0x06], &[]);
    client.frame(&[0xC7], &[]);
    client.wait(600);
    client.ask(&operation(0, 8_193), &[NAK]);
    drop(client);
    let mut client = server.client();
    client.wait(399);
    client.frame(&[0x05], &[0x11]);
    client.ask(&[0x0E, 0x01, 0x00, 0x00, 0x00], &[ACK]); // left in the buffer
    drop(client);
    let mut client = server.client();
    client.ask(&[0x0F], &[ACK]);
    client.frame(&[0x05], &[0x11]);
    client.wait(1);
    client.frame(&[0x05], &[0x10]);
}

#[test]
fn the_array_is_programmed_erased_and_read() {
    let server = Server::start(&["--set", "longer-program=3000", "--set", "page-erase=6000"]);
    let mut client = server.client();
    client.frame(&[0x06], &[]);
    client.frame(&[0x02, 0x00, 0x00, 0xFE, 0x11, 0x22, 0x33], &[]);
    client.frame(&[0x03, 0x00, 0x00, 0xFE], &[0xFF, 0xFF, 0xFF]); // busy: not heard
    client.wait(3_000);
    client.frame(&[0x03, 0x00, 0x00, 0xFE], &[0x11, 0x22, 0xFF]);
    client.frame(&[0x0B, 0x00, 0x00, 0x00, 0x00], &[0x33, 0xFF]);
    client.frame(&[0x03, 0x01, 0xFF, 0xFF], &[0xFF, 0x33]);
    client.frame(&[0x81, 0x00, 0x00, 0x00], &[]); // without write enable
    client.frame(&[0x03, 0x00, 0x00, 0x00], &[0x33]);
    client.frame(&[0x06], &[]);
    client.frame(&[0x81, 0x00, 0x00, 0x80], &[]);
    client.frame(&[0x05], &[0x11]);
    client.wait(6_000);
    client.frame(&[0x03, 0x00, 0x00, 0x00], &[0xFF; 256]);
}

#[test]
fn every_chip_erase_clears_the_array() {
    let image = folder("chip-erase").join("image");
    fs::write(&image, vec![0x00; 65_536]).expect("an image");
    for opcode in [0x60, 0x62, 0xC7] {
        let server = Server::start(&["--image", word(&image), "--set", "chip-erase=2000000"]);
        let mut client = server.client();
        client.frame(&[0x06], &[]);
        client.frame(&[opcode], &[]);
        client.wait(1_999_999);
        client.frame(&[0x05], &[0x11, 0x01]);
        client.wait(1);
        client.frame(&[0x05], &[0x10, 0x00]);
        for address in (0..=0xFF).step_by(0x10) {
            client.frame(&[0x03, 0x00, address, 0x00], &BLANK[..4_096]);
        }
    }
}

#[test]
fn a_client_that_leaves_within_a_request_changes_nothing() {
    let server = Server::start(&["--size", "65536"]);
    let mut client = server.client();
    client.frame(&[0x06], &[]);
    client.frame(&[0x02, 0x00, 0x00, 0x00, 0x5A], &[]);
    client.wait(60_000_000);
    client.frame(&[0x06], &[]);
    drop(client);
    let disable = [0x13, 0x01, 0x00, 0x00, 0x00, 0x00, 0x00, 0x04];
    for end in 1..disable.len() {
        server.client().send(&disable[..end]);
    }
    let mut long = server.client();
    long.send(&operation(0xFF_FFFF, 0));
    long.send(&[0x04; 100_000]);
    drop(long);
    server.client().send(&[0x0E, 0x01]);
    let mut client = server.client();
    client.frame(&[0x05], &[0x12, 0x00]);
    client.frame(&[0x03, 0x00, 0x00, 0x00], &[0x5A, 0xFF]);
    client.frame(&[0x03, 0x01, 0x00, 0x00], &[0x5A, 0xFF]); // 65,536 bytes: address 010000h is byte 0
}

#[test]
fn a_client_that_does_not_read_its_answers_is_let_go() {
    let server = Server::start(&[]);
    let mut rude = server.client();
    rude.send(&operation(1, 4_096));
    rude.send(&[0x9F, 0x13]);
    drop(rude);
    server.client().frame(&[0x9F], &[0x1F, 0x42]);
}

#[test]
fn a_second_client_waits_for_the_first() {
    let server = Server::start(&[]);
    let mut first = server.client();
    first.frame(&[0x05], &[0x10]);
    let mut second = server.client();
    second.ask(&[0x01], &[ACK, 0x01, 0x00]); // only frames and delays wait
    second.send(&[0x13, 0x01, 0x00, 0x00, 0x01, 0x00, 0x00, 0x05]);
    second.stream.set_read_timeout(Some(Duration::from_millis(200))).expect("a timeout");
    let early = second
        .stream
        .read_exact(&mut [0])
        .expect_err("the first client is still there")
        .kind();
    assert!(matches!(early, ErrorKind::WouldBlock | ErrorKind::TimedOut), "{early:?}");
    first.frame(&[0x06], &[]);
    drop(first);
    second.stream.set_read_timeout(Some(Duration::from_secs(20))).expect("a timeout");
    second.expect(&[ACK, 0x12]);
}

#[test]
fn protection_follows_the_first_record_and_the_level_of_wp() {
    let locked = Server::start(&["--bpl", "--bp0", "--wp", "low", "--set", "status-write=1"]);
    let mut client = locked.client();
    client.frame(&[0x05], &[0x84, 0x00]);
    client.frame(&[0x06], &[]);
    client.frame(&[0x01, 0x00], &[]);
    client.frame(&[0x05], &[0x84, 0x00]);
    let open = Server::start(&["--bpl", "--bp0", "--wp=high", "--set", "status-write=1"]);
    let mut client = open.client();
    for (before, after) in [(0x94, 0x14), (0x14, 0x10)] {
        client.frame(&[0x05], &[before]);
        client.frame(&[0x06], &[]);
        client.frame(&[0x01, 0x00], &[]);
        client.wait(1);
        client.frame(&[0x05], &[after]);
    }
}

#[test]
fn the_image_is_saved_whole_when_a_client_has_left() {
    let folder = folder("saved");
    let image = folder.join("image");
    fs::write(&image, vec![0xF0; 65_536]).expect("an image");
    let out = folder.join("out");
    fs::write(&out, "an older one").expect("an older image");
    let server = Server::start(&["--image", word(&image), "--save", word(&out)]);
    assert_eq!(fs::read(&out).expect("the older image"), b"an older one");
    let mut client = server.client();
    client.frame(&[0x06], &[]);
    client.frame(&[0x02, 0x00, 0x12, 0x34, 0x3C], &[]);
    drop(client);
    let mut wanted = vec![0xF0; 65_536];
    wanted[0x1234] = 0x30;
    assert!(until(|| (fs::read(&out).expect("a file") == wanted).then_some(())).is_some());
    assert_eq!(fs::read(&image).expect("the first image"), vec![0xF0; 65_536]);
    assert_eq!(fs::read_dir(&folder).expect("the folder").count(), 2);
}

#[test]
fn an_image_in_hex_is_taken_and_saved_by_its_name() {
    let folder = folder("hex-image");
    let file = folder.join("flash.Hex");
    fs::write(&file, ":040020006461746142\r\n:00000001FF").expect("a text");
    let mut server = Server::start(&["--once", "--size", "65536", "--image", word(&file), "--save", word(&file)]);
    let mut client = server.client();
    client.frame(&[0x03, 0x00, 0x00, 0x1F], &[0xFF, b'd', b'a', b't', b'a', 0xFF]);
    client.frame(&[0x06], &[]);
    client.frame(&[0x02, 0x00, 0xFF, 0xFF, 0x3C], &[]);
    drop(client);
    assert!(server.ends_well());
    let mut array = vec![0xFF; 65_536];
    array[0x20..0x24].copy_from_slice(b"data");
    array[0xFFFF] = 0x3C;
    assert_eq!(fs::read(&file).expect("saved"), oxterin::hex_text(&array).expect("a text"));
    assert_eq!(fs::read_dir(&folder).expect("the folder").count(), 1);
}

#[test]
fn a_save_that_fails_later_does_not_end_the_server() {
    let folder = folder("failing");
    let place = folder.join("place");
    fs::create_dir(&place).expect("a folder");
    let out = place.join("out");
    let server = Server::start(&["--save", word(&out)]);
    fs::remove_dir_all(&place).expect("the folder goes");
    server.client().frame(&[0x06], &[]);
    server.client().frame(&[0x05], &[0x12]);
    let mut once = Server::start(&["--once", "--save", word(&folder.join("out"))]);
    fs::remove_dir_all(&folder).expect("the folder goes");
    let mut client = once.client();
    client.frame(&[0x06], &[]);
    client.frame(&[0x02, 0x00, 0x00, 0x00, 0x5A], &[]);
    drop(client);
    assert!(!once.ends_well());
}

#[test]
fn once_serves_a_single_client_and_saves_over_its_own_image() {
    let folder = folder("once");
    let image = folder.join("image");
    fs::write(&image, BLANK).expect("an image");
    let mut server = Server::start(&["--once", "--image", word(&image), "--save", word(&image)]);
    let mut client = server.client();
    client.frame(&[0x06], &[]);
    client.frame(&[0x02, 0x01, 0xFF, 0xFF, 0x00], &[]);
    drop(client);
    assert!(server.ends_well());
    let saved = fs::read(&image).expect("saved");
    assert_eq!(saved[..131_071], BLANK[..131_071]);
    assert_eq!(saved[131_071..], [0x00]);
}

/// The lines of a log that has begun, less the first, which names the options for the same bill.
fn lines_after(log: &Path, options: &str) -> String {
    let text = fs::read_to_string(log).expect("a log");
    let (first, rest) = text.split_once('\n').expect("a first line");
    let wanted = format!(", a fresh part; bill it by oxterin bill {}{options}", word(log));
    assert!(first.starts_with("# oxterin serve 20") && first.ends_with(&wanted), "{first}");
    rest.to_string()
}

#[test]
fn the_log_has_a_line_for_each_frame() {
    let log = folder("log").join("log");
    let mut server = Server::start(&["--once", "--log", word(&log), "--set", "longer-program=20"]);
    let mut client = server.client();
    client.frame(&[0x06], &[]);
    client.frame(&[0x02, 0x00, 0x00, 0x00, 0x11, 0x22], &[]);
    client.wait(7);
    client.frame(&[0x05], &[0x11, 0x01]);
    client.ask(&operation(0, 8_193), &[NAK]);
    client.wait(13);
    client.frame(&[0x03, 0x00, 0x00, 0x00], &[&[0x11, 0x22][..], &[0xFF; 14]].concat());
    client.frame(&[0x81, 0x00, 0x00, 0x00], &[]);
    client.frame(&[], &[]);
    drop(client);
    assert!(server.ends_well());
    let wanted = "\
06 account=0 # ST 12 control
02 00 00 00 11 22 account=0 # ST 11 begun
05 00 00 +7 account=0 # ST 11 read
# refused: 0 bytes sent, 8193 to be read: refusal 3: a frame has at most 8,192 bytes; account=0
03 00 00 00 00 00 00 00 00 00 00 00 00 00 00 00 00 00 00 00 +13 account=0 # ST 10 read
81 00 00 00 account=0 # ST 10 nothing: latch clear
/0 account=0 # ST 10 nothing: too few bits
";
    assert_eq!(lines_after(&log, " --set longer-program=20"), wanted);
}

#[test]
fn the_log_has_the_ticks_of_a_byte_and_the_level_of_wp() {
    let log = folder("lasting").join("log");
    let words = [
        "--once",
        "--log",
        word(&log),
        "--size=65536",
        "--bp0",
        "--ticks-per-byte",
        "8",
        "--wp",
        "low",
    ];
    let mut server = Server::start(&[&words[..], &["--account", "9"]].concat());
    let mut client = server.client();
    client.frame(&[0x06], &[]);
    client.wait(7);
    client.frame(&[0x02, 0x00, 0x00, 0x00, 0x11, 0x22], &[]);
    drop(client);
    assert!(server.ends_well());
    let wanted = "\
06 @8 wp=low account=9 # ST 06 control
02 00 00 00 11 22 +7 @8 wp=low account=9 # ST 04 aborted: protected
";
    assert_eq!(lines_after(&log, " --size 65536 --bp0"), wanted);
}

#[test]
fn wrong_options_are_named_with_their_remedy() {
    let folder = folder("wrong");
    let nowhere = folder.join("missing").join("file");
    let short = folder.join("short");
    fs::write(&short, [0; 5]).expect("a file");
    for (words, named, remedy) in [
        (&["--port", "65536"][..], "--port 65536", "0 takes any free one"),
        (&["--port", "x"], "--port x", "from 0 to 65535"),
        (&["--port"], "--port", "a value"),
        (&["--prot", "1"], "--prot", "--help"),
        (&["--once=1"], "--once=1", "--help"),
        (&["here"], "here", "--help"),
        (&["--wp", "up"], "--wp up", "low or high"),
        (&["--ticks-per-byte", "1001"], "--ticks-per-byte 1001", "from 0 to 1,000"),
        (&["--ticks-per-byte=x"], "--ticks-per-byte x", "from 0 to 1,000"),
        (&["--idle", "x"], "--idle x", "such as 60 or 0.5"),
        (&["--idle", "0.001"], "--idle 0.001", "from 0.01"),
        (&["--idle", "-1"], "--idle -1", "0 for ever"),
        (&["--clock", "10"], "was given 10", "write --clock=10"),
        (&["--clock=0"], "--clock=0", "such as 10 or 0.5"),
        (&["--clock=1e9"], "--clock=1e9", "such as 10 or 0.5"),
        (&["--account", "256"], "--account 256", "from 0 to 255"),
        (&["--listen", "8025=256"], "--listen 8025=256", "from 0 to 255"),
        (&["--listen", "=7"], "--listen =7", "PORT=ACCOUNT"),
        (&["--listen", "0=7", "--port", "0"], "--port 0", "--listen 0=ACCOUNT"),
        (&["--image", word(&short)], word(&short), "65,536 or 131,072"),
        (&["--port", "0", "--save", word(&nowhere)], word(&nowhere), "can be written"),
        (&["--port", "0", "--log", word(&nowhere)], word(&nowhere), "name a file"),
    ] {
        let (code, complaint) = refusal(words);
        assert_eq!(code, Some(2), "{words:?}");
        assert!(complaint.starts_with("oxterin: "), "{complaint}");
        assert!(complaint.contains(named) && complaint.contains(remedy), "{complaint}");
    }
}

#[test]
fn a_port_in_use_is_named_and_the_log_of_its_server_stays() {
    let folder = folder("in-use");
    let log = folder.join("log");
    let server = Server::start(&["--log", word(&log)]);
    server.client().frame(&[0x06], &[]);
    let (code, complaint) = refusal(&["--port", &server.ports[0].to_string(), "--log", word(&log)]);
    assert_eq!(code, Some(2));
    assert!(
        complaint.contains(&format!("port {}", server.ports[0])) && complaint.contains("--port"),
        "{complaint}"
    );
    assert!(until(|| (lines_after(&log, "") == "06 account=0 # ST 12 control\n").then_some(())).is_some());
}

#[test]
fn help_is_printed() {
    let Output { status, stdout, .. } = command(&["--help"]).output().expect("the command starts");
    assert!(status.success());
    let text = String::from_utf8(stdout).expect("text");
    for option in "--port --account --listen --idle --once --size --image --set --bpl --bp0 --otp-used --state --wp --clock --ticks-per-byte --save --log \
                   --json --status".split(' ') {
        assert!(text.contains(&format!(" {option} ")), "{option}");
    }
}
