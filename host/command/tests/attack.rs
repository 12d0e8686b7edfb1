//! `oxterin serve` as strangers on the machine treat it: bytes of other protocols, lengths without bounds, random bytes, clients that
//! vanish and clients that stay. Whatever they do, a good client is served, and finds the part as the protocol's whole requests left it.
mod common;

use common::server::{command, operation, port_of, until, ACK, NAK};
use common::{folder, says, word};
use std::fs::{self, File};
use std::io::{BufRead, BufReader, ErrorKind, Read, Write};
use std::net::{Ipv4Addr, Shutdown, TcpStream};
use std::path::{Path, PathBuf};
use std::process::{Child, Command, Stdio};
use std::thread;
use std::time::{Duration, Instant};

/// The commands that are served, and so the bytes with which a client may begin.
const SERVED: [u8; 17] = [
    0x00, 0x01, 0x02, 0x03, 0x04, 0x05, 0x07, 0x08, 0x0B, 0x0E, 0x0F, 0x10, 0x11, 0x12, 0x13, 0x14, 0x15,
];
/// What a stranger wants to be carried out: a write enable, then a chip erase.
const WRECK: [u8; 16] = [0x13, 1, 0, 0, 0, 0, 0, 0x06, 0x13, 1, 0, 0, 0, 0, 0, 0xC7];
/// The longest length that a request can name.
const GIANT: usize = 0xFF_FFFF;
/// Status byte 1 of a part that is idle, not write enabled and not protected.
const IDLE: u8 = 0x10;
/// Status byte 1 while an operation runs.
const BUSY: u8 = 0x11;
/// In no more time a good client is answered.
const AT_ONCE: Duration = Duration::from_secs(5);
/// The longest that a test waits for anything.
const PATIENCE: Duration = Duration::from_secs(10);
/// Where the random numbers begin.
const SEED: u64 = 0x0A77_AC5E_ED00_0001;

/// Random numbers, the same in every run: splitmix64.
struct Random(u64);

impl Random {
    /// The next number.
    fn draw(&mut self) -> u64 {
        self.0 = self.0.wrapping_add(0x9E37_79B9_7F4A_7C15);
        let mut word = self.0;
        word = (word ^ (word >> 30)).wrapping_mul(0xBF58_476D_1CE4_E5B9);
        word = (word ^ (word >> 27)).wrapping_mul(0x94D0_49BB_1331_11EB);
        word ^ (word >> 31)
    }

    /// A number below this one.
    fn below(&mut self, bound: usize) -> usize {
        (self.draw() % bound as u64) as usize
    }

    /// One of these bytes.
    fn one_of(&mut self, bytes: &[u8]) -> u8 {
        bytes[self.below(bytes.len())]
    }

    /// So many bytes.
    fn bytes(&mut self, count: usize) -> Vec<u8> {
        (0..count).map(|_| self.draw() as u8).collect()
    }
}

/// A running server, ended with the test.
struct Server {
    process: Child,
    ports: Vec<u16>,
}

impl Server {
    /// Starts a server that says in a folder's file `errors` what goes wrong, and waits until it listens.
    fn start(folder: &Path, options: &[&str]) -> Server {
        let errors = File::create(folder.join("errors")).expect("a file");
        Server::of(command(options).stderr(errors), 1)
    }

    /// Runs a command that is to listen at so many ports, and waits until it does.
    fn of(command: &mut Command, ports: usize) -> Server {
        let mut process = command.stdout(Stdio::piped()).spawn().expect("the command starts");
        let output = process.stdout.take().expect("standard output is a pipe");
        let mut server = Server {
            process,
            ports: Vec::new(),
        };
        server.ports = BufReader::new(output)
            .lines()
            .take(ports)
            .map(|line| port_of(&line.expect("a line")))
            .collect();
        assert_eq!(server.ports.len(), ports, "{command:?} did not start");
        server
    }

    /// The only port, or the first.
    fn port(&self) -> u16 {
        self.ports[0]
    }

    /// A number that the system gives of the process, such as how many kB of memory it has.
    fn number(&self, name: &str) -> u64 {
        let page = fs::read_to_string(format!("/proc/{}/status", self.process.id())).expect("the process runs");
        let line = page.lines().find_map(|line| line.strip_prefix(name)?.strip_prefix(':'));
        let number = line.and_then(|line| line.split_whitespace().next()?.parse().ok());
        number.unwrap_or_else(|| panic!("{name} is not in {page}"))
    }

    /// How many files and threads the process has.
    fn holds(&self) -> u64 {
        let files = fs::read_dir(format!("/proc/{}/fd", self.process.id())).expect("the process runs");
        files.count() as u64 + self.number("Threads")
    }

    /// Asks the server to end, which it does in time, and well.
    fn end(mut self) {
        let asked = Command::new("kill")
            .arg(self.process.id().to_string())
            .status()
            .expect("kill starts");
        assert!(asked.success());
        let begun = Instant::now();
        let mut ended = None;
        while ended.is_none() && begun.elapsed() < PATIENCE {
            thread::sleep(Duration::from_millis(5));
            ended = self.process.try_wait().expect("the process was started here");
        }
        assert_eq!(ended.and_then(|status| status.code()), Some(0));
    }
}

impl Drop for Server {
    fn drop(&mut self) {
        let _ = self.process.kill();
        let _ = self.process.wait();
    }
}

/// A part whose every byte is known, in files: `image` has its array and `fresh` all of it at first. Its server has `state`, saves the
/// array in `saved`, and tells its frames in `log`.
struct Bench {
    folder: PathBuf,
    image: Vec<u8>,
}

impl Bench {
    /// A fresh part in the folder of a test.
    fn new(name: &str) -> Bench {
        let folder = folder("attack", name);
        let image = Random(SEED).bytes(131_072);
        fs::write(folder.join("image"), &image).expect("an image");
        let bench = Bench { folder, image };
        says(&["state", &bench.file("fresh"), "--new", "--image", &bench.file("image")], "");
        fs::copy(bench.file("fresh"), bench.file("state")).expect("a copy");
        bench
    }

    /// A file of the folder, as a word.
    fn file(&self, name: &str) -> String {
        word(&self.folder.join(name)).to_string()
    }

    /// What is in a file of the folder.
    fn read(&self, name: &str) -> Vec<u8> {
        fs::read(self.folder.join(name)).unwrap_or_else(|error| panic!("{name}: {error}"))
    }

    /// Serves the part.
    fn serve(&self, options: &[&str]) -> Server {
        let (state, saved, log) = (self.file("state"), self.file("saved"), self.file("log"));
        let own = ["--port", "0", "--state", &state, "--save", &saved, "--log", &log];
        Server::start(&self.folder, &[&own, options].concat())
    }

    /// The frames in the log of a server that has ended. Sent to the fresh part, they make the state and the array that the server saved.
    fn replayed(&self) -> Vec<Vec<u8>> {
        fs::copy(self.file("fresh"), self.file("replayed")).expect("a copy");
        let (log, state, array) = (self.file("log"), self.file("replayed"), self.file("array"));
        says(&["run", &log, "--state", &state, "--save", &array], "");
        assert!(self.read("replayed") == self.read("state"), "the replay has another state");
        assert!(self.read("array") == self.read("saved"), "the replay has another array");
        let log = fs::read_to_string(log).expect("text");
        let lines = log.lines().map(|line| line.split('#').next().unwrap_or_default().trim());
        lines.filter(|line| !line.is_empty()).map(frame_of).collect()
    }

    /// Asserts that a good client finds the part as it was at first, and that it is so in the files too once the server has ended. Nobody
    /// but good clients, who only read, has sent a frame.
    fn is_as_it_was(&self, server: Server) {
        let client = connect(server.port());
        assert_eq!(frame(&client, &[0x05], 1), [IDLE]);
        for (index, block) in self.image.chunks(4_096).enumerate() {
            let [_, high, middle, low] = (index as u32 * 4_096).to_be_bytes();
            let found = frame(&client, &[0x03, high, middle, low], block.len());
            assert!(found == block, "block {index} has changed");
        }
        drop(client);
        server.end();
        let strange = self
            .replayed()
            .into_iter()
            .find(|frame| !matches!(frame.first(), Some(0x03 | 0x05 | 0x9F)));
        assert_eq!(strange, None, "a frame of nobody");
        assert!(self.read("saved") == self.image, "the saved array has changed");
    }
}

/// The frame of a line in a log.
fn frame_of(line: &str) -> Vec<u8> {
    let is_byte = |word: &&str| word.len() == 2 && word.bytes().all(|digit| digit.is_ascii_hexdigit());
    let bytes = line.split(' ').take_while(is_byte);
    bytes.map(|word| u8::from_str_radix(word, 16).expect("digits")).collect()
}

/// A new connection.
fn connect(port: u16) -> TcpStream {
    let address = (Ipv4Addr::LOCALHOST, port).into();
    let stream = TcpStream::connect_timeout(&address, PATIENCE).expect("the server listens");
    stream.set_read_timeout(Some(PATIENCE)).expect("a timeout");
    stream.set_write_timeout(Some(PATIENCE)).expect("a timeout");
    stream.set_nodelay(true).expect("no delay");
    stream
}

/// Sends bytes; no matter if the server has hung up, or reads no more for so long as the stream waits.
fn put(mut stream: &TcpStream, bytes: &[u8]) {
    let _ = stream.write_all(bytes);
}

/// All that the server still answers, up to the end of the connection, which has to come.
fn ending(mut stream: &TcpStream) -> Vec<u8> {
    let mut answer = Vec::new();
    if let Err(error) = stream.read_to_end(&mut answer) {
        let waiting = matches!(error.kind(), ErrorKind::WouldBlock | ErrorKind::TimedOut);
        assert!(!waiting, "the server does not hang up, having answered {}", beginning(&answer));
    }
    answer
}

/// The first of some bytes, for people.
fn beginning(bytes: &[u8]) -> String {
    format!("{} bytes: {:02X?}", bytes.len(), &bytes[..bytes.len().min(40)])
}

/// What a client is answered that sends these bytes, says that these are all, and waits for the end.
fn answer_to(port: u16, bytes: &[u8]) -> Vec<u8> {
    let stream = connect(port);
    thread::scope(|scope| {
        scope.spawn(|| {
            put(&stream, bytes);
            let _ = stream.shutdown(Shutdown::Write);
        });
        ending(&stream)
    })
}

/// The request of a frame: these bytes sent, then so many to be read.
fn request(sent: &[u8], read: usize) -> Vec<u8> {
    [&operation(sent.len(), read)[..], sent].concat()
}

/// A frame of a good client, and what it reads.
fn frame(mut stream: &TcpStream, sent: &[u8], read: usize) -> Vec<u8> {
    put(stream, &request(sent, read));
    let mut answer = vec![0; 1 + read];
    stream.read_exact(&mut answer).expect("a good client is answered");
    assert_eq!(answer.remove(0), ACK);
    answer
}

/// Status byte 1 as a good client reads it, who is answered at once.
fn status(port: u16) -> u8 {
    let begun = Instant::now();
    let status = frame(&connect(port), &[0x05], 1)[0];
    assert!(begun.elapsed() < AT_ONCE, "a good client waited for {:?}", begun.elapsed());
    status
}

/// How many bytes belong to a command, of which these follow; none if it is no command of the protocol.
fn parameters(command: u8, rest: &[u8]) -> Option<usize> {
    match command {
        0x12 | 0x15 => Some(1),
        0x09 => Some(3),
        0x0C | 0x0E | 0x14 => Some(4),
        0x0A => Some(6),
        0x0D | 0x13 => Some(6 + length(rest)?),
        0x00..=0x15 => Some(0),
        _ => None,
    }
}

/// A length of three bytes, low byte first.
fn length(bytes: &[u8]) -> Option<usize> {
    let [low, middle, high] = *bytes.first_chunk()?;
    Some(u32::from_le_bytes([low, middle, high, 0]) as usize)
}

/// The frames that the protocol finds in a stream of requests, up to its end or to a byte that is no command.
fn frames_in(mut stream: &[u8]) -> Vec<Vec<u8>> {
    let mut frames = Vec::new();
    while let Some((&command, after)) = stream.split_first() {
        let Some((own, rest)) = parameters(command, after).and_then(|count| after.split_at_checked(count)) else {
            break;
        };
        let read = own
            .get(3..)
            .and_then(length)
            .filter(|read| command == 0x13 && own.len() - 6 + read <= 8_192);
        frames.extend(read.map(|read| [&own[6..], &vec![0; read]].concat()));
        stream = rest;
    }
    frames
}

/// 239 of the 256 bytes are no command that is served. Whether the wreck comes with such a first byte or after the server has hung up, it is
/// not carried out, and the server says who it was.
#[test]
fn who_begins_with_no_command_is_hung_up_on_at_once_and_changes_nothing() {
    let bench = Bench::new("first-bytes");
    let server = bench.serve(&[]);
    let mut names = Vec::new();
    for first in (0..=0xFF).filter(|first| !SERVED.contains(first)) {
        for rest in [&WRECK[..], &[]] {
            let stranger = connect(server.port());
            names.push(stranger.local_addr().expect("an address").to_string());
            let begun = Instant::now();
            put(&stranger, &[&[first], rest].concat());
            assert_eq!(ending(&stranger), [], "{first:02X}h");
            assert!(begun.elapsed() < AT_ONCE, "{first:02X}h: hung up on after {:?}", begun.elapsed());
            put(&stranger, &WRECK);
            assert_eq!(status(server.port()), IDLE, "{first:02X}h");
        }
    }
    bench.is_as_it_was(server);
    let errors = String::from_utf8_lossy(&bench.read("errors")).into_owned();
    for name in names {
        assert!(errors.contains(&name), "{name} is not named among the errors");
    }
}

/// The other 17 are requests, and the stream goes on after them and their parameters. Where these take the beginning of the wreck with
/// them, only its chip erase is carried out, which then is not enabled.
#[test]
fn who_begins_with_a_command_is_answered_as_the_protocol_says() {
    let whole: [(u8, &[u8]); 12] = [
        (0x00, &[ACK]),
        (0x01, &[ACK, 0x01, 0x00]),
        (0x02, &[&[ACK, 0xBF, 0xC9, 0x3F][..], &[0; 29]].concat()),
        (0x03, b"\x06oxterin\0\0\0\0\0\0\0\0\0"),
        (0x04, &[ACK, 0xFF, 0xFF]),
        (0x05, &[ACK, 0x08]),
        (0x07, &[ACK, 0xFF, 0xFF]),
        (0x08, &[ACK, 0xFC, 0x1F, 0x00]),
        (0x0B, &[ACK]),
        (0x0F, &[ACK]),
        (0x10, &[NAK, ACK]),
        (0x11, &[ACK, 0xFC, 0x1F, 0x00]),
    ];
    let parted: [(u8, &[u8]); 5] = [
        (0x0E, &[ACK, ACK, ACK, ACK, NAK, ACK]),
        (0x12, &[NAK, ACK, 0x01, 0x00, ACK, ACK, ACK, ACK, ACK, NAK, ACK]),
        (0x13, &[]), // a frame of 275 bytes, most of which never come
        (0x14, &[ACK, 0x13, 0x01, 0x00, 0x00, ACK, ACK, ACK, NAK, ACK]),
        (0x15, &[ACK, ACK, 0x01, 0x00, ACK, ACK, ACK, ACK, ACK, NAK, ACK]),
    ];
    let server = Server::start(&folder("attack", "commands"), &["--port", "0"]);
    let whole = whole.map(|(first, own)| (first, [own, &[ACK, ACK]].concat(), BUSY));
    let parted = parted.map(|(first, answer)| (first, answer.to_vec(), IDLE));
    for (first, answer, after) in whole.into_iter().chain(parted) {
        assert_eq!(answer_to(server.port(), &[&[first][..], &WRECK].concat()), answer, "{first:02X}h");
        assert_eq!(status(server.port()), after, "{first:02X}h");
        assert_eq!(answer_to(server.port(), &[0x0E, 0xFF, 0xFF, 0xFF, 0xFF, 0x0F]), [ACK, ACK]);
        assert_eq!(status(server.port()), IDLE, "{first:02X}h");
    }
}

/// The wreck after so many requests that do nothing: wherever the server begins to take bytes for requests, it comes to the wreck.
fn slide(zeros: usize) -> Vec<u8> {
    [&vec![0; zeros][..], &WRECK].concat()
}

/// What pages in a browser can have sent to a port. Where a page may send a body, it is long enough for those servers to come to the wreck
/// that take the line end of HTTP for 0Dh, a write of millions of bytes, and skip it.
fn browser() -> Vec<(&'static str, Vec<u8>)> {
    let body = slide(8 << 20);
    let post = format!(
        "POST / HTTP/1.1\r\nHost: 127.0.0.1:8025\r\nConnection: keep-alive\r\nContent-Length: {}\r\n\
         Content-Type: text/plain;charset=UTF-8\r\nOrigin: https://stranger.example\r\nSec-Fetch-Mode: no-cors\r\n\r\n",
        body.len()
    );
    let get = "GET /%13%01%00%00%00%00%00%06 HTTP/1.1\r\nHost: 127.0.0.1:8025\r\nReferer: https://stranger.example/\r\n\r\n";
    let upgrade = "GET / HTTP/1.1\r\nHost: 127.0.0.1:8025\r\nConnection: Upgrade\r\nUpgrade: websocket\r\n\
                   Origin: https://stranger.example\r\nSec-WebSocket-Version: 13\r\nSec-WebSocket-Key: b3h0ZXJpbiBveHRlcmluIQ==\r\n\r\n";
    let preface = b"PRI * HTTP/2.0\r\n\r\nSM\r\n\r\n\0\0\0\x04\0\0\0\0\0";
    // The session that a stranger's server gave to the browser for its name, which now leads to this machine.
    let hello = [
        &[0x16, 0x03, 0x01, 0x00, 0x4F, 0x01, 0x00, 0x00, 0x4B, 0x03, 0x03][..],
        &[0xA5; 32],
        &[0x20],
        &WRECK,
        &WRECK,
        &[0x00, 0x04, 0x13, 0x01, 0x13, 0x02, 0x01, 0x00],
    ];
    vec![
        ("POST", [post.as_bytes(), &body].concat()),
        ("GET", [get.as_bytes(), &slide(64)].concat()),
        ("websocket", [upgrade.as_bytes(), &body].concat()),
        ("HTTP/2", [preface, &body[..]].concat()),
        ("TLS", hello.concat()),
        (
            "TLS of WebRTC",
            [&[0x80, 0x46, 0x01, 0x03, 0x01, 0x00, 0x2D, 0x00, 0x00, 0x00, 0x10][..], &slide(64)].concat(),
        ),
    ]
}

/// A STUN message: a binding request (1) or a TURN allocation (3), and in its only attribute the wreck after as many zeros as there is
/// room.
fn stun(kind: u8, transaction: &[u8], length: u16) -> Vec<u8> {
    let attribute = slide(usize::from(length) - 4 - WRECK.len());
    let [high, low] = length.to_be_bytes();
    let [own_high, own_low] = (length - 4).to_be_bytes();
    let message = [0x00, kind, high, low, 0x21, 0x12, 0xA4, 0x42];
    [&message, transaction, &[0x00, 0x06, own_high, own_low], &attribute].concat()
}

/// None of these begins with a command, so none is answered.
#[test]
fn what_a_browser_sends_is_not_answered_and_changes_nothing() {
    let bench = Bench::new("browser");
    let server = bench.serve(&[]);
    for (name, bytes) in browser() {
        let stranger = connect(server.port());
        put(&stranger, &bytes);
        let answer = ending(&stranger);
        assert!(answer.is_empty(), "{name} was answered with {}", beginning(&answer));
        assert_eq!(status(server.port()), IDLE, "{name}");
    }
    bench.is_as_it_was(server);
}

/// What browsers were once seen to send to a port of this kind.
#[test]
fn what_browsers_were_seen_to_send_changes_nothing() {
    let recorded = Path::new(env!("CARGO_MANIFEST_DIR")).join("tests/browser");
    let paths = fs::read_dir(&recorded)
        .expect("the recordings")
        .map(|entry| entry.expect("an entry").path());
    let recordings: Vec<PathBuf> = paths.filter(|path| path.extension().is_some_and(|end| end == "bin")).collect();
    assert!(!recordings.is_empty(), "the folder of the recordings has none");
    let bench = Bench::new("recorded");
    let server = bench.serve(&[]);
    for path in recordings {
        let bytes = fs::read(&path).expect("a recording");
        let answer = answer_to(server.port(), &bytes);
        let begins_well = bytes.first().is_some_and(|first| SERVED.contains(first));
        assert!(
            begins_well || answer.is_empty(),
            "{path:?} was answered with {}",
            beginning(&answer)
        );
        assert_eq!(status(server.port()), IDLE, "{path:?}");
    }
    bench.is_as_it_was(server);
}

/// STUN and TURN messages begin with 00h, which is a command, and so does their form over TCP, with two bytes for the length before them. The
/// cookie in their head gives them away. If it were not looked for, a length that ends with 14h or 0Ch would take it for its parameters, and
/// the zeros of a transaction would lead to the wreck. Transactions are letters in some browsers, random bytes in others.
#[test]
fn calls_of_webrtc_change_nothing_whatever_their_length() {
    println!("seed {SEED:#018X}");
    let mut random = Random(SEED);
    let bench = Bench::new("webrtc");
    let server = bench.serve(&[]);
    for length in (20..=1_020).step_by(4) {
        let kind = random.one_of(&[1, 3]);
        let (letters, zeros, bytes) = (b"oxterinA+/zZ", &[0; 12], random.bytes(12));
        for message in [&letters[..], zeros, &bytes].map(|transaction| stun(kind, transaction, length)) {
            let framed = [&(length + 20).to_be_bytes()[..], &message].concat();
            for bytes in [message, framed] {
                let stranger = connect(server.port());
                put(&stranger, &bytes);
                ending(&stranger);
            }
        }
        assert_eq!(status(server.port()), IDLE, "length {length}");
    }
    bench.is_as_it_was(server);
}

/// While strangers come, a good client is in the middle of a frame; what they send does not get between its bytes.
#[test]
fn strangers_do_not_get_into_the_frame_of_a_good_client() {
    let bench = Bench::new("between");
    let server = bench.serve(&[]);
    let good = connect(server.port());
    let reading = request(&[0x9F], 2);
    put(&good, &reading[..5]);
    let calls = [("STUN", stun(1, &[0; 12], 108)), ("TURN", stun(3, &[0; 12], 108))];
    let strangers: Vec<TcpStream> = browser()
        .into_iter()
        .chain(calls)
        .map(|(_, bytes)| {
            let stranger = connect(server.port());
            put(&stranger, &bytes[..bytes.len().min(10_000)]);
            stranger
        })
        .collect();
    put(&good, &reading[5..]);
    let mut answer = [0; 3];
    (&good).read_exact(&mut answer).expect("a good client is answered");
    assert_eq!(answer, [ACK, 0x1F, 0x42]);
    drop(good);
    for stranger in &strangers {
        ending(stranger);
    }
    bench.is_as_it_was(server);
}

/// Requests whose lengths are the longest there are, cut off at every point of their head and at many after it, then whole; a queue of
/// clients that send as much as they can; and one that asks for almost 100 MB of answers and reads none. The server keeps none of it.
#[test]
fn lengths_without_bounds_cost_the_server_no_memory() {
    let bench = Bench::new("lengths");
    let server = bench.serve(&[]);
    assert_eq!(status(server.port()), IDLE);
    let before = server.number("VmRSS");
    let bytes = WRECK.repeat(GIANT / WRECK.len() + 1);
    let plain: [(&[u8], usize); 2] = [
        (&[0x0D, 0xFF, 0xFF, 0xFF, 0x00, 0x00, 0x00], GIANT),
        (&[0x0A, 0x00, 0x00, 0x00, 0xFF, 0xFF, 0xFF], 0),
    ];
    let plain = plain.map(|(head, data)| (vec![ACK], [&[0x00], head].concat(), data));
    let frames = [(GIANT, GIANT), (GIANT, 0), (0, GIANT), (8_193, 0), (0, 8_193), (8_192, GIANT)];
    let frames = frames.map(|(sent, read)| (Vec::new(), operation(sent, read).to_vec(), sent));
    for (before, head, data) in plain.into_iter().chain(frames) {
        for end in 1..head.len() {
            assert_eq!(answer_to(server.port(), &head[..end]), before, "{:02X?}", &head[..end]);
        }
        let parts = [0, 1, 4_095, 4_096, 8_191, 8_192, 65_536, 1_000_000];
        for part in parts.into_iter().filter(|part| *part < data) {
            let answer = answer_to(server.port(), &[&head, &bytes[..part]].concat());
            assert_eq!(answer, before, "{head:02X?} and {part} bytes");
        }
        let answer = answer_to(server.port(), &[&head, &bytes[..data], &[0x10]].concat());
        assert_eq!(answer, [&before[..], &[NAK, NAK, ACK]].concat(), "{head:02X?}");
    }
    let good = connect(server.port());
    frame(&good, &[0x05], 1);
    thread::scope(|scope| {
        for _ in 0..8 {
            scope.spawn(|| {
                let waiting = connect(server.port());
                waiting.set_write_timeout(Some(Duration::from_millis(300))).expect("a timeout");
                put(&waiting, &[&operation(GIANT, 0), &bytes[..GIANT]].concat());
            });
        }
    });
    drop(good);
    let deaf = connect(server.port());
    put(&deaf, &[0x02]);
    deaf.peek(&mut [0]).expect("the first answer");
    deaf.set_write_timeout(Some(Duration::from_millis(500))).expect("a timeout");
    put(&deaf, &vec![0x02; 3_000_000]);
    let grown = server.number("VmHWM").max(server.number("VmRSS")).saturating_sub(before);
    assert!(grown < 8_192, "the server took {grown} kB more");
    drop(deaf);
    bench.is_as_it_was(server);
}

/// Opcodes that the part knows, and some that it does not; those without which little happens are there more than once.
const OPCODES: [u8; 36] = [
    0x06, 0x06, 0x06, 0x06, 0x06, 0x06, 0x06, 0x06, 0x06, 0x02, 0x02, 0x02, 0x02, 0x20, 0x52, 0xD8, 0x81, 0xC7, 0x01, 0x9B, 0x77, 0x03,
    0x0B, 0x04, 0x05, 0x15, 0x9F, 0xB9, 0x79, 0xAB, 0xAB, 0xAB, 0xAB, 0xAB, 0xF0, 0xEE,
];

/// A request with random parameters: mostly a frame, or the time before the next one.
fn some_request(random: &mut Random) -> Vec<u8> {
    match random.below(10) {
        0 | 1 => [&[0x0E], &random.bytes(3)[..], &[0x00, 0x0F]].concat(),
        2 => {
            let command = random.one_of(&[0x00, 0x02, 0x03, 0x06, 0x09, 0x0A, 0x0B, 0x0C, 0x10, 0x12, 0x14, 0x15]);
            let own = parameters(command, &[]).expect("these have a fixed length");
            [&[command], &random.bytes(own)[..]].concat()
        }
        3 => {
            let data = random.below(9_000);
            [
                &[random.one_of(&[0x0D, 0x13])],
                &operation(data, random.below(200))[1..],
                &random.bytes(data),
            ]
            .concat()
        }
        _ => {
            let end = random.one_of(&[1, 1, 1, 2, 4, 4, 5, 16]);
            let sent = [&[random.one_of(&OPCODES), random.one_of(&[0, 1])], &random.bytes(14)[..]].concat();
            request(&sent[..end.into()], random.below(20))
        }
    }
}

/// Streams of random bytes, each beginning with a command: bytes of any kind, among which soon is one that is no command; bytes that often
/// spell commands and short lengths; and requests, of which the last is cut off, or followed by what a server must not come to.
fn streams(random: &mut Random) -> Vec<Vec<u8>> {
    let often = [
        0, 0, 0, 0, 0, 0, 0, 1, 1, 2, 3, 4, 5, 6, 6, 0x0A, 0x0B, 0x0E, 0x0F, 0x10, 0x13, 0x13, 0x13, 0x14,
    ];
    let mut streams = Vec::new();
    for _ in 0..1_500 {
        let count = random.below(64);
        streams.push([&[random.one_of(&SERVED)], &random.bytes(count)[..]].concat());
    }
    for _ in 0..200 {
        let count = random.below(400);
        let bytes: Vec<u8> = (0..count).map(|_| random.one_of(&often)).collect();
        streams.push([&[random.one_of(&SERVED)], &bytes[..]].concat());
    }
    for cut_off in [false, true].repeat(10) {
        let mut stream: Vec<u8> = [0x10].into_iter().chain((0..500).flat_map(|_| some_request(random))).collect();
        match cut_off {
            true => stream.truncate(stream.len() - random.below(8)),
            false => stream.extend([&[random.one_of(&[0x16, 0x20, 0x7F, 0xFF])], &WRECK[..]].concat()),
        }
        streams.push(stream);
    }
    streams
}

/// Of random streams the server carries out the frames that the protocol finds in them, one by one, and no other. Its log replayed makes
/// what it saved, and the same bill.
#[test]
fn random_bytes_are_taken_as_the_protocol_says_and_the_log_replays_them() {
    println!("seed {SEED:#018X}");
    let bench = Bench::new("random");
    let server = bench.serve(&["--account", "7", "--ticks-per-byte", "8"]);
    let mut wanted = Vec::new();
    for stream in streams(&mut Random(SEED)) {
        answer_to(server.port(), &stream);
        wanted.extend(frames_in(&stream));
    }
    status(server.port());
    wanted.push(vec![0x05, 0x00]);
    server.end();
    let found = bench.replayed();
    let differs = found.iter().zip(&wanted).position(|(found, wanted)| found != wanted);
    assert_eq!(
        (differs, found.len()),
        (None, wanted.len()),
        "the first frame that differs, and their number"
    );
    assert!(bench.read("saved") != bench.image, "the streams have changed nothing");
    let bill = says(&["bill", &bench.file("log"), "--image", &bench.file("image"), "--csv"], "");
    let kept = says(&["bill", "--state", &bench.file("state"), "--csv"], "");
    assert_eq!(String::from_utf8_lossy(&bill), String::from_utf8_lossy(&kept));
}

/// 300 clients leave without a word, in the middle of a request, with answers that they have not read, which resets the connection, or
/// before their answers come. Nobody listens on the server's standard error either. The seat is free again, and nothing of them is left.
#[test]
fn clients_that_vanish_leave_the_seat_free_and_nothing_behind() {
    let mut command = command(&["--port", "0"]);
    let mut server = Server::of(command.stderr(Stdio::piped()), 1);
    drop(server.process.stderr.take());
    assert_eq!(status(server.port()), IDLE);
    let before = server.holds();
    let enable = request(&[0x06], 0);
    for number in 0..300 {
        let client = connect(server.port());
        let begun = &enable[..number / 3 % enable.len()];
        match number % 3 {
            0 => put(&client, begun),
            1 => {
                put(&client, &[&[0x10], begun].concat());
                client.peek(&mut [0]).expect("an answer");
            }
            _ => put(&client, &[&request(&[0x9F], 8_000).repeat(4), begun].concat()),
        }
    }
    assert_eq!(status(server.port()), IDLE);
    let begun = Instant::now();
    while server.holds() > before + 8 && begun.elapsed() < PATIENCE {
        thread::sleep(Duration::from_millis(20));
    }
    assert!(
        server.holds() <= before + 8,
        "{} files and threads, {before} before",
        server.holds()
    );
}

/// Standard error is a pipe that has room for some hundred lines, and nobody reads it. No line that finds no room there keeps a stranger, a
/// good client or the end waiting.
#[test]
fn strangers_do_not_stop_a_server_whose_errors_nobody_reads() {
    let mut command = command(&["--port", "0"]);
    let server = Server::of(command.stderr(Stdio::piped()), 1);
    for _ in 0..1_200 {
        put(&connect(server.port()), b"G");
    }
    assert_eq!(status(server.port()), IDLE);
    server.end();
}

/// With 40 files a server cannot take 80 connections. It takes the next client when they have gone.
#[test]
fn more_connections_than_the_server_may_open_do_not_end_it() {
    let mut command = Command::new("sh");
    command.args(["-c", "ulimit -n 40 && exec \"$0\" serve --port 0", env!("CARGO_BIN_EXE_oxterin")]);
    let server = Server::of(command.stderr(Stdio::null()), 1);
    let strangers: Vec<TcpStream> = (0..80).map(|_| connect(server.port())).collect();
    thread::sleep(Duration::from_millis(300));
    drop(strangers);
    assert_eq!(frame(&connect(server.port()), &[0x9F], 2), [0x1F, 0x42]);
    server.end();
}

/// A client takes the seat with its first bytes, then sends one more byte every 200 ms, but completes no frame for more than half a second.
/// The next client is served within 3 seconds all the same, though not before, and the first is hung up on.
fn gives_up_the_seat(name: &str, options: &[&str], first: &[u8], slowly: &[u8]) {
    let options = [&["--port", "0", "--idle", "0.5"], options].concat();
    let folder = folder("attack", name);
    let server = Server::start(&folder, &options);
    let begun = Instant::now();
    let holder = connect(server.port());
    assert_eq!(frame(&holder, &[0x9F], 2), [0x1F, 0x42]); // so it has the seat
    put(&holder, first);
    let port = server.port();
    let next = thread::spawn(move || {
        assert_eq!(frame(&connect(port), &[0x9F], 2), [0x1F, 0x42]);
        begun.elapsed()
    });
    for byte in slowly.chunks(1).take_while(|_| !next.is_finished()) {
        put(&holder, byte);
        thread::sleep(Duration::from_millis(200));
    }
    let waited = next.join().expect("the next client is served");
    assert!(waited >= Duration::from_millis(500), "the next client was served after {waited:?}");
    assert!(waited < Duration::from_secs(8), "the next client was served after {waited:?}");
    ending(&holder);
    let peer = holder.local_addr().expect("an address").to_string();
    let said = || fs::read_to_string(folder.join("errors")).expect("text");
    assert!(
        until(|| said().contains(&peer).then_some(())).is_some(),
        "{peer} is not in {}",
        said()
    );
}

/// It has sent one request, and no more.
#[test]
fn a_silent_client_gives_up_the_seat() {
    gives_up_the_seat("silent", &[], &[0x10], &[]);
}

/// Its frame has 8,191 bytes, and would take half an hour.
#[test]
fn a_client_that_sends_a_frame_byte_by_byte_gives_up_the_seat() {
    gives_up_the_seat("slow", &[], &[0x13, 0xFF], &[0x1F, 0, 0, 0, 0, 0, 0, 0, 0, 0, 0, 0, 0, 0, 0]);
}

/// Its requests are whole, but none is a frame.
#[test]
fn a_client_that_sends_no_frame_gives_up_the_seat() {
    gives_up_the_seat("idle", &[], &[0x00], &[0x00; 15]);
}

/// It has sent 4,000 frames, but reads no answer, so the server cannot go on.
#[test]
fn a_client_that_reads_no_answer_gives_up_the_seat() {
    gives_up_the_seat("deaf", &[], &request(&[0x9F], 8_191).repeat(4_000), &[]);
}

/// It asks for a delay of more than an hour, which the server waits for.
#[test]
fn a_client_that_delays_gives_up_the_seat() {
    gives_up_the_seat("delay", &["--clock"], &[0x0E, 0xFF, 0xFF, 0xFF, 0xFF, 0x0F], &[]);
}

/// A frame in time keeps the seat, even if the client says nothing in between.
#[test]
fn a_client_that_sends_frames_in_time_keeps_the_seat() {
    let server = Server::start(&folder("attack", "in-time"), &["--port", "0", "--idle", "2"]);
    let client = connect(server.port());
    for _ in 0..12 {
        assert_eq!(frame(&client, &[0x9F], 2), [0x1F, 0x42]);
        thread::sleep(Duration::from_millis(200));
    }
}

/// One client holds a frame open, one reads no answer, one waits for a delay of an hour, one has said nothing, and nobody is ever hung up
/// on.
#[test]
fn clients_that_stay_do_not_keep_the_server_from_ending() {
    let mut command = command(&["--idle", "0", "--clock", "--listen", "0", "--listen", "0", "--listen", "0"]);
    let server = Server::of(command.stderr(Stdio::null()), 3);
    let open = request(&[0x06], 0)[..5].to_vec();
    let deaf = request(&[0x9F], 8_191).repeat(4_000);
    let delay = vec![0x0E, 0xFF, 0xFF, 0xFF, 0xFF, 0x0F];
    let stay = |(port, bytes): (&u16, Vec<u8>)| {
        let client = connect(*port);
        put(&client, &bytes);
        client
    };
    let mute = connect(server.port());
    let clients: Vec<TcpStream> = server.ports.iter().zip([open, deaf, delay]).map(stay).collect();
    thread::sleep(Duration::from_millis(300));
    server.end();
    drop((mute, clients));
}

/// Ten connections say nothing at all, and ten stop in the middle of a frame. They have no seat, so nobody waits for them.
#[test]
fn connections_that_send_no_frame_keep_nobody_waiting() {
    let server = Server::start(&folder("attack", "mute"), &["--port", "0"]);
    let mute: Vec<TcpStream> = (0..20).map(|_| connect(server.port())).collect();
    for nearly in &mute[10..] {
        put(nearly, &[0x00, 0x13, 0x01]);
    }
    for _ in 0..5 {
        assert_eq!(status(server.port()), IDLE);
    }
    drop(mute);
}

/// A client holds a frame open at one port. At the other port a write enable is carried out meanwhile, and the open frame, a status read,
/// sees it when it becomes whole.
#[test]
fn a_frame_held_open_at_one_port_delays_nobody_at_another() {
    let mut command = command(&["--listen", "0=1", "--listen", "0=2"]);
    let server = Server::of(command.stderr(Stdio::null()), 2);
    let reading = request(&[0x05], 1);
    for end in 1..reading.len() {
        let holder = connect(server.ports[0]);
        put(&holder, &reading[..end]);
        thread::sleep(Duration::from_millis(20));
        let begun = Instant::now();
        let other = connect(server.ports[1]);
        frame(&other, &[0x06], 0);
        assert!(begun.elapsed() < AT_ONCE, "the other client waited for {:?}", begun.elapsed());
        put(&holder, &reading[end..]);
        let mut answer = [0; 2];
        (&holder).read_exact(&mut answer).expect("the frame is whole");
        assert_eq!(answer, [ACK, 0x12]);
        frame(&other, &[0x04], 0);
    }
}

/// Whatever address a stranger from outside would come by, the port is not there. On this machine there are more of them than one.
#[test]
fn nobody_comes_by_another_address_than_the_one_that_is_said() {
    let server = Server::start(&folder("attack", "address"), &["--port", "0"]);
    for address in ["127.0.0.2", "127.1.2.3"] {
        let error = TcpStream::connect((address, server.port())).expect_err("nobody listens there");
        assert_eq!(error.kind(), ErrorKind::ConnectionRefused, "{address}");
    }
    assert_eq!(status(server.port()), IDLE);
}
