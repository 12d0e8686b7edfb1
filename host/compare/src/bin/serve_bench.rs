//! How many serprog requests a second `oxterin serve` answers: one built command, or two of them in turn.
use compare::measure::{processor, short};
use std::ffi::OsString;
use std::fs;
use std::io::{self, BufRead, BufReader, Read, Write};
use std::net::{Ipv4Addr, TcpStream};
use std::path::{Path, PathBuf};
use std::process::{Child, Command, ExitCode, Stdio};
use std::sync::mpsc::sync_channel;
use std::thread::{self, ScopedJoinHandle};
use std::time::{Duration, Instant};

/// `serve_bench --help`.
const HELP: &str = "\
serve_bench: how many serprog requests a second 'oxterin serve' answers

Usage: serve_bench COMMAND [COMMAND2]

COMMAND and COMMAND2 are paths of built oxterin commands, such as that of then and that of now. Both are
measured in one run, in turn, and a table is printed. A case with an option that 'COMMAND serve --help'
does not name has a dash. A run takes one to three minutes, and up to some gigabytes of files in a new
folder among the temporary ones; nothing of it is left.

Where there is taskset, 'taskset -c 0 serve_bench ...' keeps clients and servers on one core. That says
nothing of two ports at once, but one by one and connections are steadier.
";

/// How often each server is measured; odd, so that one of the rounds is the median.
const ROUNDS: usize = 7;
/// About how long a round takes.
const ROUND: Duration = Duration::from_millis(500);
/// How long nothing is asked after a round, for what a server does when a client has left.
const PAUSE: Duration = Duration::from_millis(50);
/// How long a client waits for a reply.
const PATIENCE: Duration = Duration::from_secs(20);
/// How long a reader of many replies sleeps when it has read those that are there.
const NAP: Duration = Duration::from_millis(1);
/// How many requests a batch has.
const BATCH: usize = 4_000;
/// How many batches may be under way beside the one whose replies are read.
const AHEAD: usize = 4;
/// The options that status reads are measured with.
const VARIANTS: [&str; 6] = ["", "--log", "--save", "--state", "--log --state --json", "--clock"];

/// How often in a second: the median of the rounds, the least and the most.
type Rates = [f64; 3];
/// A request and its reply.
type Exchange<'a> = (&'a [u8], &'a [u8]);
/// The reply that has nothing but ACK.
const ACK: &[u8] = &[0x06];
/// A frame that reads status byte 1 of an idle part.
const STATUS_READ: Exchange = (&[0x13, 0x01, 0x00, 0x00, 0x01, 0x00, 0x00, 0x05], &[0x06, 0x10]);

/// A row of the table.
struct Case {
    name: &'static str,
    work: Work,
    /// The options of the server that it needs.
    options: &'static str,
}

/// What clients do for a round.
enum Work {
    /// One status read after the other, each when the one before was answered.
    OneByOne,
    /// Batches written ahead at each port, by a client that sleeps so long between its reads.
    Pipelined(Batch, Duration),
    /// One connection after the other, with a NOP each.
    Connections,
}

/// Requests that are written at once, and all their replies.
struct Batch {
    requests: Vec<u8>,
    replies: Vec<u8>,
}

/// A command to be measured.
struct Tested {
    path: PathBuf,
    /// What its `serve --help` says.
    help: String,
}

/// A running server, which is ended when it is dropped.
struct Server {
    child: Child,
    ports: Vec<u16>,
}

fn main() -> ExitCode {
    let words: Vec<OsString> = std::env::args_os().skip(1).collect();
    if let Err(wrong) = bench(&words) {
        eprintln!("serve_bench: {wrong}");
        return ExitCode::from(2);
    }
    ExitCode::SUCCESS
}

/// Measures the commands that the words name.
fn bench(words: &[OsString]) -> Result<(), String> {
    if words.iter().any(|word| word == "--help") {
        print!("{HELP}");
        return Ok(());
    }
    let is_option = |word: &OsString| word.to_string_lossy().starts_with('-');
    if words.iter().any(is_option) || !(1..=2).contains(&words.len()) {
        return Err("give one or two commands, and no option but --help".to_string());
    }
    if cfg!(debug_assertions) {
        return Err("a debug build says nothing about speed; run it with --release".to_string());
    }
    let tested = words.iter().map(tested).collect::<Result<Vec<_>, _>>()?;
    let folder = std::env::temp_dir().join(format!("oxterin-serve-bench-{}", std::process::id()));
    fs::create_dir(&folder).map_err(|error| format!("{}: {error}", folder.display()))?;
    let ended = print_table(&tested, &folder);
    let _ = fs::remove_dir_all(&folder);
    ended
}

/// Measures commands whose files are in this folder, and prints how and what.
fn print_table(tested: &[Tested], folder: &Path) -> Result<(), String> {
    print_conditions(tested)?;
    match tested.len() {
        1 => println!("| case | a second | least to most |\n|---|--:|--:|"),
        _ => println!("| case | then | least to most | now | least to most | now / then |\n|---|--:|--:|--:|--:|--:|"),
    }
    for case in cases() {
        let name = format!("{} {}", case.name, case.options);
        let name = name.trim_end();
        let rates = case.rates(tested, folder).map_err(|wrong| format!("{name}: {wrong}"))?;
        println!("| {name} |{}", cells(&rates));
    }
    Ok(())
}

/// The rows in the order of the table.
fn cases() -> Vec<Case> {
    let case = |name, work, options| Case { name, work, options };
    let pipelined = |nap| Work::Pipelined(Batch::new(&[STATUS_READ]), nap);
    let mut cases = Vec::new();
    cases.extend(VARIANTS.map(|options| case("one by one", Work::OneByOne, options)));
    cases.extend(VARIANTS.map(|options| case("pipelined", pipelined(NAP), options)));
    cases.push(case("pipelined, eager reader", pipelined(Duration::ZERO), ""));
    cases.push(case("pipelined, page programs", Work::Pipelined(Batch::page_programs(), NAP), ""));
    cases.push(case("pipelined, two ports at once", pipelined(NAP), "--listen"));
    cases.extend(["", "--save"].map(|options| case("connections", Work::Connections, options)));
    cases
}

impl Case {
    /// The rates of each command; none if it lacks an option. The commands take turns, and in each round another is the first.
    fn rates(&self, tested: &[Tested], folder: &Path) -> Result<Vec<Option<Rates>>, String> {
        let start = |(number, tested): (usize, &Tested)| {
            let able = self.options.split_whitespace().all(|option| tested.help.contains(option));
            let server = || Server::start(tested, self.options, &folder.join(number.to_string()));
            able.then(server).transpose()
        };
        let servers = tested.iter().enumerate().map(start).collect::<Result<Vec<_>, String>>()?;
        let mut rates: Vec<_> = servers.iter().map(|server| server.as_ref().map(|_| Vec::new())).collect();
        for turn in 0..ROUNDS * servers.len() {
            let number = (turn + turn / servers.len()) % servers.len();
            if let (Some(server), Some(rates)) = (&servers[number], &mut rates[number]) {
                let rate = self.work.round(&server.ports);
                rates.push(rate.map_err(|error| format!("{}: {error}", tested[number].path.display()))?);
                thread::sleep(PAUSE);
            }
        }
        let told = |mut rates: Vec<f64>| {
            rates.sort_by(f64::total_cmp);
            [rates[ROUNDS / 2], rates[0], rates[ROUNDS - 1]]
        };
        Ok(rates.into_iter().map(|rates| rates.map(told)).collect())
    }
}

impl Work {
    /// Does it for a round; how often in a second.
    fn round(&self, ports: &[u16]) -> io::Result<f64> {
        match self {
            Work::OneByOne => {
                let mut client = connect(ports[0])?;
                repeat(|| exchange(&mut client, STATUS_READ))
            }
            Work::Connections => repeat(|| connect(ports[0]).map(drop)),
            Work::Pipelined(batch, nap) => thread::scope(|scope| {
                let start = |&port| scope.spawn(move || batch.pipelined(port, *nap));
                let clients: Vec<_> = ports.iter().map(start).collect();
                let join = |client: ScopedJoinHandle<_>| client.join().expect("no client panics");
                clients.into_iter().map(join).sum()
            }),
        }
    }
}

impl Batch {
    /// These requests again and again.
    fn new(exchanges: &[Exchange]) -> Batch {
        let (requests, replies): (Vec<_>, Vec<_>) = exchanges.iter().copied().unzip();
        let [requests, replies] = [requests, replies].map(|bytes| bytes.concat().repeat(BATCH / exchanges.len()));
        Batch { requests, replies }
    }

    /// Programs of a page: write enable, 256 bytes, a delay as long as the program takes, its execution, a status read.
    fn page_programs() -> Batch {
        let enable = [0x13, 0x01, 0x00, 0x00, 0x00, 0x00, 0x00, 0x06];
        let head = [0x13, 0x04, 0x01, 0x00, 0x00, 0x00, 0x00, 0x02, 0x00, 0x40, 0x00];
        let program = [&head[..], &[0x5A; 256]].concat();
        let ticks = oxterin::Settings::typical().longer_program as u32;
        let delay = [&[0x0E][..], &ticks.to_le_bytes()].concat();
        let [enable, program, delay, execute] = [&enable, &program[..], &delay, &[0x0F]].map(|request| (request, ACK));
        Batch::new(&[enable, program, delay, execute, STATUS_READ])
    }

    /// Writes it again and again for a round while another thread reads the replies; how many requests in a second.
    fn pipelined(&self, port: u16, nap: Duration) -> io::Result<f64> {
        let mut client = connect(port)?;
        let mut writer = client.try_clone()?;
        let (ahead, written) = sync_channel(AHEAD - 1);
        let start = Instant::now();
        thread::scope(|scope| {
            let writing = scope.spawn(move || {
                while start.elapsed() < ROUND && ahead.send(()).is_ok() {
                    writer.write_all(&self.requests)?;
                }
                io::Result::Ok(())
            });
            let mut replies = vec![0; self.replies.len()];
            let mut count = 0;
            for () in written {
                let mut left = &mut replies[..];
                while !left.is_empty() {
                    match client.read(left)? {
                        0 => return Err(io::ErrorKind::UnexpectedEof.into()),
                        read => left = &mut left[read..],
                    }
                    thread::sleep(if left.is_empty() { Duration::ZERO } else { nap });
                }
                check(&replies, &self.replies)?;
                count += BATCH;
            }
            let seconds = start.elapsed().as_secs_f64();
            writing.join().expect("the writer does not panic")?;
            Ok(count as f64 / seconds)
        })
    }
}

/// Does something over and over for a round; how often in a second.
fn repeat(mut once: impl FnMut() -> io::Result<()>) -> io::Result<f64> {
    let start = Instant::now();
    let mut count = 0;
    while start.elapsed() < ROUND {
        once()?;
        count += 1;
    }
    Ok(f64::from(count) / start.elapsed().as_secs_f64())
}

/// A client of this port, whose turn it is: a NOP was answered.
fn connect(port: u16) -> io::Result<TcpStream> {
    let mut client = TcpStream::connect((Ipv4Addr::LOCALHOST, port))?;
    client.set_nodelay(true)?;
    client.set_read_timeout(Some(PATIENCE))?;
    client.set_write_timeout(Some(PATIENCE))?;
    exchange(&mut client, (&[0x00], ACK))?;
    Ok(client)
}

/// Sends a request and waits for its reply.
fn exchange(client: &mut TcpStream, (request, expected): Exchange) -> io::Result<()> {
    let mut reply = [0; 2];
    let reply = &mut reply[..expected.len()];
    client.write_all(request)?;
    client.read_exact(reply)?;
    check(reply, expected)
}

/// Makes sure that replies are the right ones.
fn check(replies: &[u8], expected: &[u8]) -> io::Result<()> {
    let wrong = replies.iter().zip(expected).find(|(reply, expected)| reply != expected);
    wrong.map_or(Ok(()), |(reply, expected)| {
        Err(io::Error::other(format!("a reply has {reply:02X}h in place of {expected:02X}h")))
    })
}

/// The command at a path.
fn tested(path: &OsString) -> Result<Tested, String> {
    let path = fs::canonicalize(path).map_err(|error| format!("{}: {error}", path.display()))?;
    let help = said(Command::new(&path).args(["serve", "--help"]))?;
    Ok(Tested { path, help })
}

/// What a command prints that has to succeed.
fn said(command: &mut Command) -> Result<String, String> {
    let ended = command.output().map_err(|error| format!("{command:?}: {error}"))?;
    if !ended.status.success() {
        return Err(format!("{command:?} fails: {}", String::from_utf8_lossy(&ended.stderr).trim_end()));
    }
    Ok(String::from_utf8_lossy(&ended.stdout).into_owned())
}

impl Server {
    /// Starts a server with these options, whose files are in a new folder at this path, and waits until it listens.
    fn start(tested: &Tested, options: &str, folder: &Path) -> Result<Server, String> {
        let _ = fs::remove_dir_all(folder);
        fs::create_dir(folder).map_err(|error| format!("{}: {error}", folder.display()))?;
        let mut serve = Command::new(&tested.path);
        serve.arg("serve").stdin(Stdio::null()).stdout(Stdio::piped());
        for option in options.split_whitespace() {
            let file = folder.join(&option[2..]);
            if option == "--state" {
                said(Command::new(&tested.path).arg("state").arg(&file).arg("--new"))?;
            }
            match option {
                "--clock" => serve.arg(option),
                "--listen" => serve.args([option, "0=1", option, "0=2"]),
                _ => serve.arg(option).arg(file),
            };
        }
        let count = if options == "--listen" { 2 } else { 1 };
        if count == 1 {
            serve.args(["--port", "0"]);
        }
        let child = serve.spawn().map_err(|error| format!("{serve:?}: {error}"))?;
        let mut server = Server { child, ports: Vec::new() };
        let mut output = BufReader::new(server.child.stdout.as_mut().expect("it is piped"));
        for _ in 0..count {
            let mut line = String::new();
            output.read_line(&mut line).map_err(|error| format!("{serve:?}: {error}"))?;
            let told = line.strip_prefix("listening on 127.0.0.1:");
            let port = told.and_then(|told| told.split_whitespace().next()?.parse().ok());
            let port = port.ok_or_else(|| format!("{serve:?} does not say where it listens, but {line:?}"))?;
            server.ports.push(port);
        }
        Ok(server)
    }
}

impl Drop for Server {
    fn drop(&mut self) {
        let _ = self.child.kill();
        let _ = self.child.wait();
    }
}

/// Says on what and how the rates were taken.
fn print_conditions(tested: &[Tested]) -> Result<(), String> {
    let cores = thread::available_parallelism().map_or("unknown".to_string(), |cores| cores.to_string());
    println!("Machine: {}, {}, cores: {cores}", std::env::consts::ARCH, processor());
    for (name, tested) in ["then", "now"].iter().zip(tested) {
        let version = said(Command::new(&tested.path).arg("--version"))?;
        println!("{name}: {}, {}", tested.path.display(), version.trim_end().replace('\n', ", "));
    }
    println!(
        "\
Requests a second, or connections. Median of {ROUNDS} rounds of about {ROUND:?} each, the servers in turn, and the least
and the most of them. A dash: the command has no such option. The clients share the machine's cores with the
server, and whatever else runs there makes the figures noisy: trust no difference within least to most.
One by one: a status read, and the next when it is answered; much hangs on which cores the two run.
Pipelined: batches of {BATCH} status reads by one thread while another reads the replies, those that are there each
{NAP:?}. An eager reader waits for them in the call that reads, and may be woken by every one.
Page programs: five requests each, write enable, 256 bytes, a delay that lasts as long as the program, its
execution, a status read. Two ports: a pipelined client at each, their sum.
Connections: connect, NOP, leave, one after the other.
"
    );
    Ok(())
}

/// The cells of a row after its name.
fn cells(rates: &[Option<Rates>]) -> String {
    let told = |[median, least, most]: [String; 3]| format!(" {median} | {least} to {most} |");
    let told = |rates: &Option<Rates>| rates.map_or(" - | - |".to_string(), |rates| told(rates.map(short)));
    let mut cells: String = rates.iter().map(told).collect();
    if let [then, now] = rates {
        let ratio = then.zip(*now).map(|(then, now)| short(now[0] / then[0]));
        cells += &format!(" {} |", ratio.unwrap_or("-".to_string()));
    }
    cells
}
