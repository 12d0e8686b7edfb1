//! A server of the built command and clients that speak the serial flasher protocol by hand.
use std::io::{BufRead, BufReader, Read, Write};
use std::net::TcpStream;
use std::process::{Child, Command, Output, Stdio};
use std::sync::{Arc, Mutex};
use std::time::Duration;

/// The request was carried out.
pub const ACK: u8 = 0x06;
/// The request was not carried out.
pub const NAK: u8 = 0x15;

/// A running server, ended with the test.
pub struct Server {
    /// Its process.
    pub process: Child,
    /// Its ports, in the order of the options.
    pub ports: Vec<u16>,
    /// What it says on standard error.
    said: Arc<Mutex<String>>,
}

impl Server {
    /// Starts a server at a free port, unless the options name its ports, and waits until it is ready.
    pub fn start(options: &[&str]) -> Server {
        let named = options.iter().filter(|option| option.starts_with("--listen")).count();
        let port: &[&str] = if named == 0 { &["--port", "0"] } else { &[] };
        Server::of(command(port).args(options), named.max(1))
    }

    /// Runs a command that is to listen at so many ports, and waits until it is ready.
    pub fn of(command: &mut Command, ports: usize) -> Server {
        let mut process = command
            .stdout(Stdio::piped())
            .stderr(Stdio::piped())
            .spawn()
            .expect("the command starts");
        let said = collected(process.stderr.take().expect("standard error is a pipe"));
        let output = BufReader::new(process.stdout.take().expect("standard output is a pipe"));
        let lines: Vec<String> = output.lines().take(ports).map(|line| line.expect("a line")).collect();
        assert_eq!(lines.len(), ports, "the server is not ready: {}", said.lock().expect("text"));
        Server {
            process,
            ports: lines.iter().map(|line| port_of(line)).collect(),
            said,
        }
    }

    /// A new client at the first port.
    pub fn client(&self) -> Client {
        self.client_at(0)
    }

    /// A new client at one of the ports.
    pub fn client_at(&self, place: usize) -> Client {
        let stream = TcpStream::connect(("127.0.0.1", self.ports[place])).expect("the server listens");
        stream.set_read_timeout(Some(Duration::from_secs(20))).expect("a timeout");
        stream.set_nodelay(true).expect("no delay");
        Client { stream }
    }

    /// Sends it a signal, such as TERM.
    pub fn signal(&self, name: &str) {
        let id = self.process.id().to_string();
        let sent = Command::new("kill").args(["-s", name, &id]).status().expect("the command kill");
        assert!(sent.success());
    }

    /// Whether the server ends by itself, and well.
    pub fn ends_well(&mut self) -> bool {
        await_end(&mut self.process);
        self.process.wait().expect("the server has ended").success()
    }

    /// Whether it ends well when it is asked to.
    pub fn ends_when_asked(&mut self) -> bool {
        self.signal("TERM");
        self.ends_well()
    }

    /// Waits until it has said these words on standard error: all that it has said.
    pub fn says(&self, words: &str) -> String {
        until(|| {
            let said = self.said.lock().expect("text").clone();
            said.contains(words).then_some(said)
        })
        .unwrap_or_else(|| panic!("'{words}' was not said: {}", self.said.lock().expect("text")))
    }
}

/// What comes through a pipe, as far as it has come.
fn collected(pipe: impl Read + Send + 'static) -> Arc<Mutex<String>> {
    let said = Arc::new(Mutex::new(String::new()));
    let told = Arc::clone(&said);
    std::thread::spawn(move || {
        for line in BufReader::new(pipe).lines().map_while(Result::ok) {
            *told.lock().expect("text") += &(line + "\n");
        }
    });
    said
}

/// The port of a line that a server says when it is ready.
pub fn port_of(line: &str) -> u16 {
    let port = line.strip_prefix("listening on 127.0.0.1:").and_then(|rest| rest.split(' ').next());
    let port = port.and_then(|port| port.parse().ok());
    port.unwrap_or_else(|| panic!("'{line}' is not the line of a server that is ready"))
}

/// Asks until there is an answer, for ten seconds at most.
pub fn until<T>(ask: impl Fn() -> Option<T>) -> Option<T> {
    for _ in 0..1_000 {
        let answer = ask();
        if answer.is_some() {
            return answer;
        }
        std::thread::sleep(Duration::from_millis(10));
    }
    None
}

impl Drop for Server {
    fn drop(&mut self) {
        let _ = self.process.kill();
        let _ = self.process.wait();
    }
}

/// A client of the server; it leaves when it is dropped.
pub struct Client {
    /// Its connection.
    pub stream: TcpStream,
}

impl Client {
    /// Sends bytes.
    pub fn send(&mut self, bytes: &[u8]) {
        self.stream.write_all(bytes).expect("the server reads");
    }

    /// Asserts that the next bytes from the server are these.
    pub fn expect(&mut self, bytes: &[u8]) {
        let mut answer = vec![0; bytes.len()];
        self.stream.read_exact(&mut answer).expect("the server answers");
        assert_eq!(answer, bytes);
    }

    /// Asserts the whole answer to a request: after it comes that of a following synchronisation, and no other byte.
    pub fn ask(&mut self, request: &[u8], answer: &[u8]) {
        self.send(request);
        self.send(&[0x10]);
        self.expect(&[answer, &[NAK, ACK]].concat());
    }

    /// A frame: these bytes sent, then those to be read.
    pub fn frame(&mut self, sent: &[u8], read: &[u8]) {
        let request = [&operation(sent.len(), read.len())[..], sent].concat();
        self.ask(&request, &[&[ACK], read].concat());
    }

    /// Lets ticks pass.
    pub fn wait(&mut self, ticks: u32) {
        self.ask(&[&[0x0E], &ticks.to_le_bytes()[..]].concat(), &[ACK]);
        self.ask(&[0x0F], &[ACK]);
    }
}

/// The command with these words after `serve`, and with signals as they are by default: who runs the tests may ignore some, as nohup does.
pub fn command(words: &[&str]) -> Command {
    let mut command = Command::new("env");
    command
        .args(["--default-signal=TERM,INT,HUP,USR1", env!("CARGO_BIN_EXE_oxterin"), "serve"])
        .args(words);
    command
}

/// Waits until a process ends by itself; one that does not is killed.
pub fn await_end(process: &mut Child) {
    for _ in 0..1_000 {
        if process.try_wait().expect("the process was started here").is_some() {
            return;
        }
        std::thread::sleep(Duration::from_millis(20));
    }
    process.kill().expect("the process was still there");
}

/// What becomes of a server that is not to start.
pub fn refusal(words: &[&str]) -> (Option<i32>, String) {
    let mut process = command(words)
        .stdout(Stdio::piped())
        .stderr(Stdio::piped())
        .spawn()
        .expect("the command starts");
    await_end(&mut process);
    let Output { status, stdout, stderr } = process.wait_with_output().expect("the command has ended");
    assert_eq!(stdout, b"");
    (status.code(), String::from_utf8(stderr).expect("the complaint is text"))
}

/// The head of an `O_SPIOP`.
pub fn operation(sent: usize, read: usize) -> [u8; 7] {
    let [s0, s1, s2, ..] = sent.to_le_bytes();
    let [r0, r1, r2, ..] = read.to_le_bytes();
    [0x13, s0, s1, s2, r0, r1, r2]
}
