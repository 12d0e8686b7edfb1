//! A server at work, as it is billed: accounts at several ports, logs that give the same bill as its books, state from server to server,
//! and the machine's clock. What a log says is followed on the independent model of the part, whose books are independent, too.
mod common;

use common::server::{operation, refusal, until, Client, Server, ACK, NAK};
use common::{complaint, word};
use model::{Books, Cause, Outcome, Pins, Record, Running, Settings, Tables};
use std::collections::{BTreeMap, BTreeSet};
use std::fs;
use std::io::Read;
use std::path::{Path, PathBuf};
use std::thread;
use std::time::{Duration, Instant};

/// An empty folder for a test's files.
fn folder(name: &str) -> PathBuf {
    common::folder("live", name)
}

/// Runs the command, which has to end well and complain of nothing: what it says.
fn says(words: &[&str]) -> String {
    String::from_utf8(common::says(words, "")).expect("text")
}

/// A text file.
fn text(path: &Path) -> String {
    fs::read_to_string(path).expect("a text")
}

/// The heads of a bill as comma-separated values.
const HEADS: &str = "account,total,most,operations\n";

/// The bill of the books of a state.
fn of_books(state: &Path) -> String {
    says(&["bill", "--state", word(state), "--csv"])
}

/// The options after a log's name in the command with which it begins.
fn options(log: &Path) -> Vec<String> {
    let text = text(log);
    let command = format!("; bill it by oxterin bill {}", word(log));
    let (_, options) = text.lines().next().and_then(|line| line.split_once(&command)).expect("a command");
    options.split_whitespace().map(String::from).collect()
}

/// What a call on a log says, with the options with which it begins.
fn on_log(subcommand: &str, log: &Path, more: &[&str]) -> String {
    let options = options(log);
    let options: Vec<&str> = options.iter().map(String::as_str).collect();
    says(&[&[subcommand, word(log)], more, &options[..]].concat())
}

/// The bill of a log.
fn of_log(log: &Path) -> String {
    on_log("bill", log, &["--csv"])
}

/// Waits until a log has so many frames, which it has when its server is quiet.
fn await_frames(log: &Path, count: usize) {
    let there = until(|| {
        let text = text(log);
        (text.ends_with('\n') && text.matches(" # ST ").count() >= count).then_some(text)
    });
    let there = there.unwrap_or_else(|| panic!("{count} frames are not in the log: {}", text(log)));
    assert_eq!(frames(&there).len(), count);
}

/// Waits until the books of a state come to this bill, which they do when the server that uses them is quiet.
fn await_bill(state: &Path, bill: &str) {
    if until(|| (of_books(state) == bill).then_some(())).is_none() {
        assert_eq!(of_books(state), bill);
    }
}

/// A frame as a line has it.
struct Line {
    bytes: Vec<u8>,
    elapsed: u64,
    ticks_per_byte: u64,
    wp_high: bool,
    account: u8,
    /// The comment.
    said: String,
}

impl Line {
    /// The frame of a line; none if it is only a comment.
    fn read(line: &str) -> Option<Line> {
        let (words, said) = line.split_once('#').unwrap_or((line, ""));
        if words.is_empty() {
            return None;
        }
        let mut read = Line {
            bytes: Vec::new(),
            elapsed: 0,
            ticks_per_byte: 0,
            wp_high: true,
            account: 0,
            said: said.trim().to_string(),
        };
        for word in words.split_whitespace() {
            if let Some(ticks) = word.strip_prefix('+') {
                read.elapsed = ticks.parse().expect("ticks");
            } else if let Some(ticks) = word.strip_prefix('@') {
                read.ticks_per_byte = ticks.parse().expect("ticks");
            } else if let Some(account) = word.strip_prefix("account=") {
                read.account = account.parse().expect("an account");
            } else if word == "wp=low" {
                read.wp_high = false;
            } else if word != "/0" {
                read.bytes.push(u8::from_str_radix(word, 16).expect("a byte"));
            }
        }
        Some(read)
    }

    /// The ticks that pass before it and with it.
    fn ticks(&self) -> u64 {
        self.elapsed + self.bytes.len() as u64 * self.ticks_per_byte
    }
}

/// The frames of a text.
fn frames(text: &str) -> Vec<Line> {
    text.lines().filter_map(Line::read).collect()
}

/// The durations, as `--set` names them.
const DURATIONS: [&str; 8] = [
    "byte-program",
    "longer-program",
    "page-erase",
    "erase-4k",
    "erase-32k",
    "chip-erase",
    "otp-program",
    "status-write",
];

/// The model of the part with its books.
struct Twin {
    record: Record,
    settings: Settings,
    array: Vec<u8>,
    register: Vec<u8>,
    books: Books,
}

/// What came of a frame.
struct Taken {
    output: Vec<u8>,
    outcome: Outcome,
    /// Why, if it came to nothing or was aborted.
    cause: Option<&'static str>,
    /// Status byte 1 afterwards.
    status: u8,
    /// Who was billed for it, and for how many ticks.
    billed: Option<(u8, u64)>,
    /// Whether a reset stopped an operation.
    stopped: bool,
}

impl Taken {
    /// What a log's comment says of it.
    fn comment(&self) -> String {
        let cause = self.cause.map_or_else(String::new, |cause| format!(": {cause}"));
        format!("ST {:02X} {}{cause}", self.status, name(self.outcome))
    }
}

impl Twin {
    /// A blank part with typical durations but these, and empty books.
    fn new(changed: &[(&str, u64)]) -> Twin {
        let (record, mut settings) = (Record::fresh(false, false, false), Settings::typical());
        for (name, ticks) in changed {
            let place = DURATIONS.iter().position(|known| known == name).expect("a duration");
            settings.durations[place] = *ticks;
        }
        Twin {
            record,
            settings,
            array: vec![0xFF; 131_072],
            register: vec![0xFF; 128],
            books: Books::open(Tables::empty(), Running::NOBODY, &record),
        }
    }

    /// Takes a frame.
    fn take(&mut self, line: &Line) -> Taken {
        let pins = Pins {
            bits: 8 * line.bytes.len() as u64,
            wp_high: line.wp_high,
            elapsed: line.elapsed,
            ticks_per_byte: line.ticks_per_byte,
        };
        let mut output = vec![0; line.bytes.len()];
        let before = self.books.tables().totals;
        let left = self.record.busy.saturating_sub(line.ticks());
        let answer = self.books.frame(
            self.record,
            &self.settings,
            &mut self.array,
            &mut self.register,
            &line.bytes,
            pins,
            &mut output,
            line.account.into(),
        );
        assert_eq!(answer.refusal, 0, "{:02X?}", line.bytes);
        self.record = answer.record;
        let after = self.books.tables().totals;
        let billed = (0..=255u8).find(|account| before[usize::from(*account)] != after[usize::from(*account)]);
        Taken {
            output,
            outcome: answer.outcome,
            cause: answer.cause.map(Cause::words),
            status: self.record.status(line.wp_high)[0],
            billed: billed.map(|account| (account, after[usize::from(account)] - before[usize::from(account)])),
            stopped: left > 0 && self.record.busy == 0,
        }
    }

    /// Takes frames of a server's log, whose comments have to say what came of each.
    fn follow(&mut self, lines: &[Line]) -> Vec<Taken> {
        let one = |line: &Line| {
            let taken = self.take(line);
            assert_eq!(line.said, taken.comment(), "{:02X?}", line.bytes);
            taken
        };
        lines.iter().map(one).collect()
    }

    /// The bill of its books.
    fn bill(&self) -> String {
        let Tables { totals, most, numbers } = self.books.tables();
        let rows = (0..256).filter(|place| totals[*place] > 0 || numbers[*place] > 0);
        let rows = rows.map(|place| format!("{place},{},{},{}\n", totals[place], most[place], numbers[place]));
        format!("{HEADS}{}", rows.collect::<String>())
    }

    /// Closes a month in its books; what is running goes on.
    fn close(&mut self) {
        self.books.close();
    }
}

/// The word for an outcome.
fn name(outcome: Outcome) -> &'static str {
    match outcome {
        Outcome::Nothing => "nothing",
        Outcome::Read => "read",
        Outcome::Control => "control",
        Outcome::Aborted => "aborted",
        Outcome::Begun => "begun",
    }
}

/// Account 20 begins a chip erase of 1,600,000 ticks and leaves. Account 31 polls every 500,000 ticks: after 500,000, 1,000,000 and
/// 1,500,000 the part is busy, after 2,000,000 idle, and the last 400,000 are nobody's. Account 31 programs a page, 2,000 ticks, of which
/// account 20 sees 1,200 pass. Then account 31 erases a page, 7,000 ticks, and polls after 6,999 of them: the first bill, where 31 has
/// 2,000 + 6,999 and at most 6,999. A tick later account 20 enables a write and programs a byte, and 5 of its 12 ticks pass: the second,
/// where 20 has 1,600,000 + 5 and 31 has 2,000 + 7,000.
#[test]
fn a_part_that_is_handed_over_while_busy_is_billed_to_who_began() {
    let folder = folder("handed-over");
    let (state, log) = (folder.join("state"), folder.join("log"));
    says(&["state", word(&state), "--new"]);
    let words = ["--listen", "0=20", "--listen", "0=31", "--state", word(&state), "--log", word(&log)];
    let mut server = Server::start(&words);
    let mut first = server.client_at(0);
    first.frame(&[0x06], &[]);
    first.frame(&[0xC7], &[]);
    drop(first);

    let mut second = server.client_at(1);
    for busy in [1, 1, 1, 0] {
        second.wait(500_000);
        second.frame(&[0x05], &[0x10 | busy]);
    }
    let page: Vec<u8> = (0..=255).collect();
    second.frame(&[0x06], &[]);
    second.frame(&[&[0x02, 0x00, 0x10, 0x00], &page[..]].concat(), &[]);
    let mut first = server.client_at(0);
    first.wait(1_200);
    first.frame(&[0x06], &[]); // busy: not heard
    first.frame(&[0x05], &[0x11]);
    second.wait(800);
    second.frame(&[0x03, 0x00, 0x10, 0x00], &page);
    second.frame(&[0x06], &[]);
    second.frame(&[0x81, 0x00, 0x10, 0x00], &[]);
    second.wait(6_999);
    second.frame(&[0x05], &[0x11]);
    let wanted = format!("{HEADS}20,1600000,1600000,1\n31,8999,6999,2\n");
    await_bill(&state, &wanted);
    await_frames(&log, 14);
    assert_eq!(of_log(&log), wanted);

    first.wait(1);
    first.frame(&[0x06], &[]);
    first.frame(&[0x02, 0x00, 0x00, 0x00, 0x5A], &[]);
    second.wait(5);
    second.frame(&[0x05], &[0x11]);
    let wanted = format!("{HEADS}20,1600005,1600000,2\n31,9000,7000,2\n");
    await_bill(&state, &wanted);
    await_frames(&log, 17);
    assert_eq!(of_log(&log), wanted);
    assert!(server.ends_when_asked());
    assert_eq!(of_books(&state), wanted);
    assert_eq!(of_log(&log), wanted);
    let mut twin = Twin::new(&[]);
    twin.follow(&frames(&text(&log)));
    assert_eq!(twin.bill(), wanted);
}

/// Numbers that a seed determines: splitmix64.
struct Random(u64);

impl Random {
    /// A number below this one.
    fn below(&mut self, bound: u64) -> u64 {
        self.0 = self.0.wrapping_add(0x9E37_79B9_7F4A_7C15);
        let mixed = (self.0 ^ (self.0 >> 30)).wrapping_mul(0xBF58_476D_1CE4_E5B9);
        let mixed = (mixed ^ (mixed >> 27)).wrapping_mul(0x94D0_49BB_1331_11EB);
        (mixed ^ (mixed >> 31)) % bound
    }

    /// One of these.
    fn pick<T: Copy>(&mut self, choices: &[T]) -> T {
        choices[self.below(choices.len() as u64) as usize]
    }

    /// So many bytes.
    fn bytes(&mut self, count: u64) -> Vec<u8> {
        (0..count).map(|_| self.below(256) as u8).collect()
    }

    /// An opcode and an address, which is near the beginning of one of the 32-KiB blocks.
    fn at(&mut self, opcode: u8) -> Vec<u8> {
        let (block, page, offset) = (self.below(4), self.below(4), self.below(256));
        vec![opcode, (block / 2) as u8, (block % 2 * 0x80 + page) as u8, offset as u8]
    }
}

/// A request of a client.
enum Request {
    /// These bytes sent, and so many to be read.
    Frame(Vec<u8>, usize),
    /// A delay, buffered and carried out.
    Delay(u32),
    /// A frame that is too long by a byte.
    TooLong,
}

/// A client that sends by chance, and what it has sent and read.
struct Guest<'a> {
    server: &'a Server,
    place: usize,
    client: Client,
    random: Random,
    /// The operands of its writes of status byte 1.
    operands: &'static [u8],
    /// The bytes of each frame, and those that it read.
    frames: Vec<(Vec<u8>, Vec<u8>)>,
    /// The ticks of its delays.
    delays: u64,
    /// How many frames were refused.
    refused: usize,
}

impl<'a> Guest<'a> {
    fn new(server: &'a Server, place: usize, operands: &'static [u8]) -> Guest<'a> {
        Guest {
            server,
            place,
            client: server.client_at(place),
            random: Random(20_261_116 + place as u64),
            operands,
            frames: Vec::new(),
            delays: 0,
            refused: 0,
        }
    }

    /// Sends requests in one piece and takes their replies.
    fn exchange(&mut self, requests: Vec<Request>) {
        let mut bytes = Vec::new();
        for request in &requests {
            match request {
                Request::Frame(sent, read) => bytes.extend([&operation(sent.len(), *read)[..], sent].concat()),
                Request::Delay(ticks) => bytes.extend([&[0x0E], &ticks.to_le_bytes()[..], &[0x0F]].concat()),
                Request::TooLong => bytes.extend([&operation(1, 8_192)[..], &[0x06]].concat()),
            }
        }
        self.client.send(&bytes);
        for request in requests {
            match request {
                Request::Frame(mut sent, read) => {
                    self.client.expect(&[ACK]);
                    let mut output = vec![0; read];
                    self.client.stream.read_exact(&mut output).expect("the server answers");
                    sent.resize(sent.len() + read, 0);
                    self.frames.push((sent, output));
                }
                Request::Delay(ticks) => {
                    self.client.expect(&[ACK, ACK]);
                    self.delays += u64::from(ticks);
                }
                Request::TooLong => {
                    self.client.expect(&[NAK]);
                    self.refused += 1;
                }
            }
        }
    }

    /// Does something.
    fn step(&mut self) {
        let random = &mut self.random;
        let bytes = |bytes: &[u8]| Request::Frame(bytes.to_vec(), 0);
        let requests = match random.below(200) {
            0..60 => vec![bytes(&[0x06]), Request::Frame(change(random, self.operands), 0)],
            60..66 => vec![bytes(&[0x06]), bytes(&[0x31, random.pick(&[0x10, 0x10, 0x10, 0x00])])],
            66..76 => vec![bytes(&[0xF0, random.pick(&[0xD0, 0xD0, 0xD0, 0x0D])])],
            76..106 => vec![Request::Frame(vec![0x05], random.below(20) as usize)],
            106..118 => {
                let opcode = random.pick(&[0x03, 0x0B, 0x77]);
                vec![Request::Frame(random.at(opcode), random.below(80) as usize)]
            }
            118..122 => vec![Request::Frame(vec![random.pick(&[0x9F, 0x15])], 5)],
            122 => vec![bytes(&[random.pick(&[0xB9, 0x79])])],
            123..135 => vec![bytes(&[0xAB])],
            135..139 => vec![bytes(&[random.pick(&[0x06, 0x04])])],
            139..147 => {
                let count = random.below(12);
                vec![Request::Frame(random.bytes(count), random.below(8) as usize)]
            }
            147..151 => {
                let whole = [bytes(&[0x06]), Request::Frame(change(random, self.operands), 0)];
                whole.into_iter().map(|request| cut(random, request)).collect()
            }
            151..197 => vec![Request::Delay(random.below(1_500) as u32), Request::Frame(vec![0x05], 2)],
            197 | 198 => vec![Request::TooLong],
            _ => return self.come_again(),
        };
        self.exchange(requests);
    }

    /// Leaves in the middle of a request, or is hung up on after what is no command, and comes again.
    fn come_again(&mut self) {
        if self.random.below(2) == 0 {
            let whole = [&operation(2, 1)[..], &[0x01, 0x84]].concat();
            let end = 1 + self.random.below(whole.len() as u64 - 1) as usize;
            self.client.send(&whole[..end]);
        } else {
            self.client.send(&[0x00, self.random.pick(&[0x16, 0x47, 0xFF])]);
            let mut rest = Vec::new();
            self.client.stream.read_to_end(&mut rest).expect("the server hangs up");
            assert_eq!(rest, [ACK, NAK]);
        }
        self.client = self.server.client_at(self.place);
    }
}

/// A frame that changes something if a write is enabled.
fn change(random: &mut Random, operands: &[u8]) -> Vec<u8> {
    let opcode = random.pick(&[
        0x02, 0x02, 0x02, 0x02, 0x81, 0x81, 0x20, 0x20, 0x52, 0xD8, 0x60, 0x62, 0xC7, 0x9B, 0x01,
    ]);
    match opcode {
        0x60 | 0x62 | 0xC7 => vec![opcode],
        0x01 => vec![opcode, random.pick(operands)],
        0x02 | 0x9B => {
            let count = random.pick(&[1, 2, 100, 256, 300]);
            [random.at(opcode), random.bytes(count)].concat()
        }
        _ => random.at(opcode),
    }
}

/// The same frame, by chance without its last byte.
fn cut(random: &mut Random, request: Request) -> Request {
    match request {
        Request::Frame(mut bytes, read) if random.below(2) == 0 => {
            bytes.pop();
            Request::Frame(bytes, read)
        }
        whole => whole,
    }
}

/// Lets guests at all ports send at the same time, so many rounds of so many steps. All are done with a round before the next begins, so
/// that each account's frames come between those of the others at least that often.
fn send_at_once(guests: &mut [Guest<'_>], rounds: usize, steps: usize) {
    for _ in 0..rounds {
        thread::scope(|scope| {
            for guest in guests.iter_mut() {
                scope.spawn(|| (0..steps).for_each(|_| guest.step()));
            }
        });
    }
}

/// Short durations, so that many operations begin and end.
const SHORT: [(&str, u64); 8] = [
    ("byte-program", 12),
    ("longer-program", 300),
    ("page-erase", 700),
    ("erase-4k", 1_100),
    ("erase-32k", 2_300),
    ("chip-erase", 4_100),
    ("otp-program", 40),
    ("status-write", 200),
];

/// Makes a state of a fresh part with these durations.
fn make_state(state: &Path, durations: &[(&str, u64)]) {
    let set: Vec<String> = durations.iter().map(|(name, ticks)| format!("--set={name}={ticks}")).collect();
    let set: Vec<&str> = set.iter().map(String::as_str).collect();
    says(&[&["state", word(state), "--new"], &set[..]].concat());
}

/// The bill is the same by the books while the server is still there, by those that it leaves, by its log, and by the model's books; the
/// array is the same by `--save`, by a run of the log, in the state, and in the model. Each guest has read what the model answers to the
/// frames in the log's order. The ticks that elapse before frames are those of all delays, each of which a frame follows.
#[test]
fn whatever_three_accounts_send_at_once_is_billed_as_the_log_says() {
    let folder = folder("at-once");
    let [state, log, out, again, shown] = ["state", "log", "out", "again", "shown"].map(|name| folder.join(name));
    make_state(&state, &SHORT);
    let accounts = [7, 200, 255];
    let ports = accounts.map(|account| format!("--listen=0={account}"));
    let ports = ports.each_ref().map(String::as_str);
    let files = ["--state", word(&state), "--log", word(&log), "--save", word(&out)];
    let mut server = Server::start(&[&ports[..], &files, &["--ticks-per-byte", "2"]].concat());
    let operands = &[0x00, 0x00, 0x00, 0x04, 0x80, 0x84];
    let mut guests = [0, 1, 2].map(|place| Guest::new(&server, place, operands));
    send_at_once(&mut guests, 12, 120);
    let delays: u64 = guests.iter().map(|guest| guest.delays).sum();
    let sent = guests.map(|guest| (guest.frames, guest.refused));
    await_frames(&log, sent.iter().map(|(frames, _)| frames.len()).sum());
    let live = of_log(&log);
    await_bill(&state, &live);
    assert!(server.ends_when_asked());

    let (told, mut twin) = (text(&log), Twin::new(&SHORT));
    let lines = frames(&told);
    assert_eq!(lines.iter().map(|line| line.elapsed).sum::<u64>(), delays);
    let taken = twin.follow(&lines);
    for bill in [live, of_books(&state), of_log(&log)] {
        assert_eq!(bill, twin.bill());
    }
    on_log("run", &log, &["--save", word(&again)]);
    says(&["state", word(&state), "--save", word(&shown)]);
    for saved in [out, again, shown] {
        assert!(fs::read(&saved).expect("saved") == twin.array, "{saved:?}");
    }
    for (account, (sent, refused)) in accounts.into_iter().zip(&sent) {
        let mine = lines.iter().zip(&taken).filter(|(line, _)| line.account == account);
        assert_eq!(mine.clone().count(), sent.len());
        for ((line, taken), (bytes, read)) in mine.zip(sent) {
            assert_eq!((&line.bytes, &taken.output[bytes.len() - read.len()..]), (bytes, &read[..]));
        }
        let (begin, end) = (
            "# refused: 1 bytes sent, 8192 to be read: refusal 3: ",
            format!("; account={account}"),
        );
        let refusals = told.lines().filter(|line| line.starts_with(begin) && line.ends_with(&end));
        assert_eq!(refusals.count(), *refused);
    }
    assert_causes(&log, &lines, &taken);
    assert_varied(&lines, &taken, &accounts);
}

/// Asserts that `oxterin why` lists the frames of a log that came to nothing or were aborted, each with its line and its cause, and that it
/// and `oxterin bill` count them, by cause and by account. Those of no bytes are not among them.
fn assert_causes(log: &Path, lines: &[Line], taken: &[Taken]) {
    let numbers = text(log);
    let numbers = (1..)
        .zip(numbers.lines())
        .filter(|(_, line)| !line.starts_with('#'))
        .map(|(number, _)| number);
    let all = numbers.zip(lines).zip(taken).filter(|((_, line), _)| !line.bytes.is_empty());
    let missed = all.filter_map(|((number, line), taken)| Some((number, line.account, name(taken.outcome), taken.cause?)));
    let missed: Vec<(usize, u8, &str, &str)> = missed.collect();
    let listed = on_log("why", log, &["--all"]);
    let entries: Vec<&str> = listed.lines().take_while(|line| !line.is_empty()).collect();
    assert_eq!(entries.len(), missed.len());
    for (entry, (number, account, outcome, cause)) in entries.iter().zip(&missed) {
        let (begin, middle) = (format!("line {number}: "), format!(" account={account} > {outcome}: {cause}"));
        assert!(entry.starts_with(&begin) && entry.contains(&middle), "{entry}");
    }
    let (mut causes, mut accounts) = (BTreeMap::<&str, usize>::new(), BTreeMap::<(u8, &str), usize>::new());
    for (_, account, _, cause) in missed {
        *causes.entry(cause).or_default() += 1;
        *accounts.entry((account, cause)).or_default() += 1;
    }
    let words = |line: &str| line.replace(',', "").split_whitespace().collect::<Vec<_>>().join(" ");
    let counted = |text: &str, row: &str| text.lines().any(|line| words(line).starts_with(row));
    for (cause, count) in causes {
        assert!(counted(&listed, &format!("{count} {cause} line ")), "{count} {cause}: {listed}");
    }
    let bill = on_log("bill", log, &[]);
    for ((account, cause), count) in accounts {
        assert!(
            counted(&bill, &format!("{account} {count} {cause} line ")),
            "{account} {count} {cause}: {bill}"
        );
    }
}

/// Asserts that a series is not a dull one: all changes begin, all outcomes come about, resets stop operations, and many a frame lets ticks
/// pass for another account.
fn assert_varied(lines: &[Line], taken: &[Taken], accounts: &[u8]) {
    let both = || lines.iter().zip(taken);
    assert!(lines.len() > 4_000, "{}", lines.len());
    let begun = both().filter(|(_, taken)| taken.outcome == Outcome::Begun);
    let opcodes: BTreeSet<u8> = begun.clone().map(|(line, _)| line.bytes[0]).collect();
    assert_eq!(
        opcodes,
        BTreeSet::from([0x01, 0x02, 0x20, 0x52, 0x60, 0x62, 0x81, 0x9B, 0xC7, 0xD8])
    );
    for account in accounts {
        assert!(begun.clone().filter(|(line, _)| line.account == *account).count() > 50);
    }
    let outcomes: BTreeSet<&str> = taken.iter().map(|taken| name(taken.outcome)).collect();
    assert_eq!(outcomes.len(), 5);
    assert!(taken.iter().any(|taken| taken.stopped));
    let causes: BTreeSet<&str> = taken.iter().filter_map(|taken| taken.cause).collect();
    assert!(causes.len() >= 10, "{causes:?}");
    let others = both().filter(|(line, taken)| taken.billed.is_some_and(|(account, _)| account != line.account));
    assert!(others.count() > 100);
}

/// The values of a JSON object that is a line, whose keys are these. No text in it has a comma or a colon.
fn values<'a, const COUNT: usize>(line: &'a str, keys: [&str; COUNT]) -> [&'a str; COUNT] {
    let inside = line.strip_prefix('{').and_then(|line| line.strip_suffix('}')).expect("an object");
    let pairs: Vec<(&str, &str)> = inside.split(',').map(|pair| pair.split_once(':').expect("a pair")).collect();
    let found: Vec<&str> = pairs.iter().map(|(key, _)| *key).collect();
    assert_eq!(found, keys.map(|key| format!("\"{key}\"")), "{line}");
    std::array::from_fn(|place| pairs[place].1)
}

/// A value that is a number.
fn number(value: &str) -> u64 {
    let plain = value.bytes().all(|byte| byte.is_ascii_digit()) && (value == "0" || !value.starts_with('0'));
    assert!(plain, "{value}");
    value.parse().expect("a number")
}

/// A value that is a text.
fn inner(value: &str) -> &str {
    value.strip_prefix('"').and_then(|value| value.strip_suffix('"')).expect("a text")
}

/// Bytes as a value has them.
fn pairs(bytes: &[u8]) -> String {
    bytes.iter().map(|byte| format!("{byte:02X}")).collect()
}

#[test]
fn the_json_log_has_the_same_frames_with_output_and_ticks_billed() {
    let folder = folder("json");
    let (log, json) = (folder.join("log"), folder.join("json"));
    let set = SHORT.map(|(name, ticks)| format!("--set={name}={ticks}"));
    let set = set.each_ref().map(String::as_str);
    let ports = ["--listen", "0=20", "--listen", "0=31"];
    let signals = ["--wp", "low", "--ticks-per-byte", "3"];
    let files = ["--log", word(&log), "--json", word(&json)];
    let mut server = Server::start(&[&set[..], &ports, &signals, &files].concat());
    let mut guests = [0, 1].map(|place| Guest::new(&server, place, &[0x00, 0x04]));
    send_at_once(&mut guests, 5, 100);
    let refused: usize = guests.map(|guest| guest.refused).iter().sum();
    assert!(server.ends_when_asked());

    let (lines, objects) = (text(&log), text(&json));
    let lines: Vec<&str> = lines.lines().filter(|line| !line.starts_with("# oxterin serve 20")).collect();
    assert_eq!(objects.lines().count(), lines.len());
    let (mut twin, mut tick, mut totals) = (Twin::new(&SHORT), 0, BTreeMap::<u8, u64>::new());
    let (mut refusals, mut causes) = (0, BTreeSet::new());
    for (line, object) in lines.into_iter().zip(objects.lines()) {
        let Some(frame) = Line::read(line) else {
            let [at, account, sent, read, refusal] = values(object, ["tick", "account", "sent", "read", "refusal"]).map(number);
            assert_eq!([at, sent, read, refusal], [tick, 1, 8_192, 3]);
            let begin = format!("# refused: {sent} bytes sent, {read} to be read: refusal {refusal}: ");
            assert!(
                line.starts_with(&begin) && line.ends_with(&format!("; account={account}")),
                "{line}"
            );
            refusals += 1;
            continue;
        };
        let keys = ["tick", "account", "bytes", "output", "outcome", "cause", "billed", "billed_to"];
        let [at, account, bytes, output, outcome, cause, billed, billed_to] = values(object, keys);
        let taken = twin.take(&frame);
        tick += frame.ticks();
        assert_eq!((number(at), number(account)), (tick, frame.account.into()));
        assert_eq!((inner(bytes), inner(output)), (&pairs(&frame.bytes)[..], &pairs(&taken.output)[..]));
        assert_eq!((inner(outcome), &frame.said), (name(taken.outcome), &taken.comment()));
        assert_eq!((cause != "null").then(|| inner(cause)), taken.cause, "{line}");
        causes.extend(taken.cause);
        let billed = match (number(billed), billed_to) {
            (0, "null") => None,
            (ticks, account) => Some((u8::try_from(number(account)).expect("an account"), ticks)),
        };
        assert_eq!(billed, taken.billed, "{line}");
        if let Some((account, ticks)) = billed {
            *totals.entry(account).or_default() += ticks;
        }
    }
    assert_eq!(refusals, refused);
    assert!(refused > 0);
    assert!(causes.is_superset(&BTreeSet::from(["busy", "latch clear"])), "{causes:?}");
    let bill = of_log(&log);
    assert_eq!(bill, twin.bill());
    let billed = bill.lines().skip(1).map(|row| {
        let mut cells = row.split(',').map(number);
        (cells.next().expect("an account") as u8, cells.next().expect("a total"))
    });
    assert_eq!(billed.collect::<BTreeMap<u8, u64>>(), totals);
    assert_eq!(totals.len(), 2);
}

/// A chip erase of 1,000,000 ticks is account 20's. The first server is stopped with 250,000 of them billed and 50,000 passed since the last
/// frame. These are billed on the way out, and 700,000 more at the second server. There account 31 programs two bytes:
/// 1,999 of 2,000 ticks, and the last with `run`, where account 7 begins a 4-KiB erase of 50,000 ticks: 10 pass, and 100 with `bill`. The
/// month is closed. In the new one 1,000 ticks pass with `bill`, and the other 48,890 at a third server: 49,890 in all for an operation that is
/// one of the old month's. Account 31's byte takes 12.
#[test]
fn books_go_on_from_server_to_server_and_are_closed_for_a_month() {
    let folder = folder("months");
    let [state, log, day, later] = ["state", "log", "day", "later"].map(|name| folder.join(name));
    let durations = [("chip-erase", 1_000_000)];
    make_state(&state, &durations);
    let mut twin = Twin::new(&durations);
    let words = ["--listen", "0=20", "--listen", "0=31", "--state", word(&state), "--log", word(&log)];
    let mut first = Server::start(&words);
    let mut client = first.client_at(0);
    client.frame(&[0x06], &[]);
    client.frame(&[0xC7], &[]);
    client.wait(250_000);
    client.frame(&[0x05], &[0x11]);
    client.wait(50_000);
    assert!(first.ends_when_asked());
    let wanted = format!("{HEADS}20,300000,300000,1\n");
    assert_eq!((of_books(&state), of_log(&log)), (wanted.clone(), wanted));
    assert!(text(&log).ends_with("\n/0 +50000 account=20 # ST 11 nothing: too few bits\n"));
    let shown = says(&["state", word(&state)]);
    assert!(
        shown.contains("700,000 ticks left of an operation of account 20, billed so far for 300,000\n"),
        "{shown}"
    );

    let mut second = Server::start(&words);
    let mut client = second.client_at(1);
    client.frame(&[0x05], &[0x11]);
    await_bill(&state, &format!("{HEADS}20,300000,300000,1\n"));
    client.wait(699_999);
    client.frame(&[0x05], &[0x11]);
    client.wait(1);
    client.frame(&[0x05], &[0x10]);
    client.frame(&[0x06], &[]);
    client.frame(&[0x02, 0x00, 0x00, 0x00, 0x5A, 0xA5], &[]);
    client.wait(1_999);
    client.frame(&[0x05], &[0x11]);
    let in_use = complaint(&["bill", "--state", word(&state), "--close"], "");
    assert!(in_use.contains(word(&state)) && in_use.contains("using this file"), "{in_use}");
    assert!(second.ends_when_asked());
    let wanted = format!("{HEADS}20,1000000,1000000,1\n31,1999,1999,1\n");
    assert_eq!((of_books(&state), of_log(&log)), (wanted.clone(), wanted.clone()));
    let both = frames(&text(&log));
    twin.follow(&both);
    assert_eq!(twin.bill(), wanted);

    let mut send = |subcommand: &str, lines: &str, more: &[&str]| {
        fs::write(&day, lines).expect("written");
        frames(lines).iter().for_each(|line| drop(twin.take(line)));
        let said = says(&[&[subcommand, word(&day), "--state", word(&state)], more].concat());
        (said, twin.bill())
    };
    let lines = "05 00 +1 account=7\n06 account=7\n20 00 10 00 account=7\n05 00 +10 account=9\n";
    let wanted = format!("{HEADS}7,10,10,1\n20,1000000,1000000,1\n31,2000,2000,1\n");
    assert_eq!(send("run", lines, &[]).1, wanted);
    assert_eq!(of_books(&state), wanted);
    let wanted = format!("{HEADS}7,110,110,1\n20,1000000,1000000,1\n31,2000,2000,1\n");
    assert_eq!(send("bill", "05 00 +100 account=3\n", &["--csv"]), (wanted.clone(), wanted.clone()));
    assert_eq!(of_books(&state), wanted);

    let close = ["bill", "--state", word(&state), "--close", "--csv"];
    assert_eq!(says(&close), wanted);
    assert_eq!(of_books(&state), HEADS);
    assert_eq!(says(&close), HEADS);
    twin.close();
    let shown = says(&["state", word(&state)]);
    assert!(
        shown.contains("49,890 ticks left of an operation of account 7, billed so far for 0\n"),
        "{shown}"
    );
    fs::write(&later, "05 00 +1000 account=3\n").expect("written");
    frames(&text(&later)).iter().for_each(|line| drop(twin.take(line)));
    let wanted = format!("{HEADS}7,1000,1000,0\n");
    assert_eq!(says(&["bill", word(&later), "--state", word(&state), "--csv"]), wanted);
    assert_eq!((of_books(&state), twin.bill()), (wanted.clone(), wanted));

    let mut third = Server::start(&words);
    let mut client = third.client_at(1);
    client.wait(48_889);
    client.frame(&[0x05], &[0x11]);
    client.wait(1);
    client.frame(&[0x06], &[]);
    client.frame(&[0x02, 0x00, 0x10, 0x00, 0x5A], &[]);
    client.wait(100);
    client.frame(&[0x03, 0x00, 0x10, 0x00], &[0x5A, 0xFF]);
    assert!(third.ends_when_asked());
    twin.follow(&frames(&text(&log))[both.len()..]);
    let wanted = format!("{HEADS}7,49890,49890,0\n31,12,12,1\n");
    assert_eq!((of_books(&state), twin.bill()), (wanted.clone(), wanted));
}

/// A moment, and how long an operation has run by then.
type Ran = (Instant, Duration);

/// Begins a chip erase: a moment just before it runs, and one at which it runs.
fn begin(client: &mut Client) -> [Ran; 2] {
    client.frame(&[0x06], &[]);
    let before = Instant::now();
    client.frame(&[0xC7], &[]);
    [before, Instant::now()].map(|now| (now, Duration::ZERO))
}

/// Only polls until the part is idle. `most` counts from a moment that is too early, and `least` from one that is too late, so that a slow
/// machine is no failure: an operation that is over has run for its time by `most`, and one that is not over has not by `least`.
fn watch(client: &mut Client, time: Duration, [most, least]: [Ran; 2]) {
    let ran = |(since, before): Ran, now: Instant| before + (now - since);
    let tick = Duration::from_micros(10); // whole ticks are counted
    loop {
        let asked = Instant::now();
        client.send(&[&operation(1, 1)[..], &[0x05]].concat());
        let mut answer = [0; 2];
        client.stream.read_exact(&mut answer).expect("the server answers");
        let answered = Instant::now();
        match answer {
            [ACK, 0x11] => assert!(ran(least, asked) <= time + tick, "busy after {:?}", ran(least, asked)),
            [ACK, 0x10] => break assert!(ran(most, answered) + tick >= time, "idle after {:?}", ran(most, answered)),
            other => panic!("{other:02X?}"),
        }
        thread::sleep(time / 40);
    }
}

/// Asserts that a clocked server's books, its log and the model come to the bill of one chip erase of 200,000 ticks, account 9's: all of
/// them are billed, as the part was seen idle. Answers how many ticks have passed.
fn assert_erased(state: &Path, log: &Path) -> u64 {
    let wanted = format!("{HEADS}9,200000,200000,1\n");
    assert_eq!((of_books(state), of_log(log)), (wanted.clone(), wanted.clone()));
    let (mut twin, lines) = (Twin::new(&[("chip-erase", 200_000)]), frames(&text(log)));
    twin.follow(&lines);
    assert_eq!(twin.bill(), wanted);
    lines.iter().map(Line::ticks).sum()
}

/// 200,000 ticks of a microsecond, of a thousandth of one, and of two.
#[test]
fn with_the_clock_a_client_that_only_polls_sees_busy_fall() {
    let folder = folder("clock");
    for (clock, microseconds) in [("--clock", 200_000), ("--clock=1000", 200), ("--clock=0.5", 400_000)] {
        let [state, log] = ["state", "log"].map(|name| folder.join(format!("{name}{microseconds}")));
        make_state(&state, &[("chip-erase", 200_000)]);
        let started = Instant::now();
        let mut server = Server::start(&[clock, "--state", word(&state), "--log", word(&log), "--account", "9"]);
        let mut client = server.client();
        let ran = begin(&mut client);
        watch(&mut client, Duration::from_micros(microseconds), ran);
        assert!(server.ends_when_asked());
        let passed = started.elapsed();
        let (ticks, most) = (assert_erased(&state, &log), passed.as_micros() as u64 * 200_000 / microseconds);
        assert!((200_000..=most).contains(&ticks), "{ticks} ticks in {passed:?}");
    }
}

/// Of 200,000 ticks some 50,000 pass at the first server, and the others at the second. Between them 100 milliseconds are no time.
#[test]
fn with_the_clock_no_time_passes_while_no_server_runs() {
    let folder = folder("stopped-clock");
    let (state, log) = (folder.join("state"), folder.join("log"));
    make_state(&state, &[("chip-erase", 200_000)]);
    let words = ["--clock", "--state", word(&state), "--log", word(&log), "--account", "9"];
    let mut first = Server::start(&words);
    let mut client = first.client();
    let [most, least] = begin(&mut client);
    thread::sleep(Duration::from_millis(50));
    let asked = Instant::now();
    assert!(first.ends_when_asked());
    let (most, least) = (most.0.elapsed(), asked - least.0);
    thread::sleep(Duration::from_millis(100));
    let before = Instant::now();
    let mut second = Server::start(&words);
    let ready = Instant::now();
    watch(&mut second.client(), Duration::from_millis(200), [(before, most), (ready, least)]);
    assert!(second.ends_when_asked());
    assert_erased(&state, &log);
}

/// The part is busy with a chip erase of 60,000,000 ticks. Delays of 100,000 ticks of a microsecond and of 60,000,000 of a hundredth of one
/// take 100 and 600 milliseconds, and are not counted twice. One of 4,294,967,295 ticks would take more than an hour.
#[test]
fn a_delay_is_waited_for_with_the_clock_only() {
    let folder = folder("delays");
    for (clock, ticks, milliseconds) in [
        (Some("--clock"), 100_000, 100),
        (Some("--clock=100"), 60_000_000, 600),
        (None, u32::MAX, 0),
    ] {
        let log = folder.join(format!("log{ticks}"));
        let words = ["--log", word(&log), "--set", "chip-erase=60000000"];
        let mut server = Server::start(&clock.into_iter().chain(words).collect::<Vec<_>>());
        let mut client = server.client();
        let start = Instant::now();
        begin(&mut client);
        let before = Instant::now();
        client.wait(ticks);
        let waited = before.elapsed();
        client.send(&[&operation(1, 1)[..], &[0x05]].concat());
        client.stream.read_exact(&mut [0; 2]).expect("the server answers");
        let passed = start.elapsed();
        assert!(server.ends_when_asked());
        let lines = frames(&text(&log));
        let [_, _, Line { elapsed, .. }, ref last @ ..] = lines[..] else {
            panic!("{}", text(&log))
        };
        let last: u64 = last.iter().map(|line| line.elapsed).sum(); // what passed on the way out
        let ticks = u64::from(ticks);
        if clock.is_some() {
            assert!(waited >= Duration::from_millis(milliseconds), "{waited:?} for {ticks} ticks");
            let most = passed.as_micros() as u64 * ticks / (1_000 * milliseconds);
            assert!((ticks..=most + 100).contains(&elapsed), "{elapsed} ticks in {passed:?}");
        } else {
            assert_eq!(elapsed, ticks);
        }
        assert_eq!(of_log(&log), format!("{HEADS}0,{0},{0},1\n", (elapsed + last).min(60_000_000)));
    }
}

/// The number or the words that a page of counters has for something, if it has any.
fn counter<'a>(page: &'a str, what: &str) -> Option<&'a str> {
    let rows = page.lines().filter_map(|line| line.strip_prefix(what));
    rows.filter(|rest| rest.starts_with("  ")).map(str::trim).next()
}

/// Account 0 enables a write and erases 4 KiB, 50,000 ticks, of which 20,000 pass before a poll: three frames. Two more come while the part
/// is busy, and a third, of no bytes, asks for nothing. Two more are too long. There is about a second between two pages.
#[test]
fn the_page_of_counters_follows_and_a_signal_has_it_said() {
    let page = folder("status").join("page");
    let server = Server::start(&["--status", word(&page)]);
    let begun = text(&page);
    assert_eq!(
        (
            counter(&begun, "frames"),
            counter(&begun, "refused, number 3"),
            counter(&begun, "not carried out, busy")
        ),
        (Some("0"), None, None),
        "{begun}"
    );
    let since = counter(&begun, "since").expect("a date");
    let mut client = server.client();
    client.frame(&[0x06], &[]);
    client.frame(&[0x20, 0x00, 0x00, 0x00], &[]);
    client.wait(20_000);
    client.frame(&[0x05], &[0x11]);
    client.frame(&[0x06], &[]);
    client.frame(&[0xC7], &[]);
    client.frame(&[], &[]);
    client.ask(&operation(0, 8_193), &[NAK]);
    client.ask(&[&operation(8_193, 0)[..], &[0x04; 8_193]].concat(), &[NAK]);
    let wanted = [
        ("since", since),
        ("frames", "6"),
        ("not carried out, busy", "2"),
        ("refused, number 3", "2"),
        ("busy ticks billed", "20,000"),
        ("busy ticks left", "30,000"),
        ("clients served now", "1"),
        ("clients served", "1"),
    ];
    let is_wanted = |page: &str| wanted.iter().all(|(what, value)| counter(page, what) == Some(value));
    assert!(until(|| is_wanted(&text(&page)).then_some(())).is_some(), "{}", text(&page));
    server.signal("USR1");
    let said = server.says("strangers hung up on");
    assert!(is_wanted(&said), "{said}");
    assert_eq!(said.matches("not carried out").count(), 1, "{said}");
    let written = |page: &Path| fs::metadata(page).and_then(|there| there.modified()).expect("a time");
    let before = written(&page);
    drop(client);
    let left = until(|| (counter(&text(&page), "clients served now") == Some("0")).then_some(()));
    assert!(left.is_some(), "{}", text(&page));
    let between = written(&page).duration_since(before).expect("a later time");
    assert!(between > Duration::from_millis(500), "{between:?}");
}

#[test]
fn logs_are_added_to() {
    let folder = folder("added");
    let [log, json, state] = ["log", "json", "state"].map(|name| folder.join(name));
    make_state(&state, &[]);
    fs::write(&log, "# kept\n\n").expect("written");
    fs::write(&json, "{}\n").expect("written");
    let mut before = (text(&log), text(&json));
    for begin in ["a fresh part; ", "goes on at tick 0 after 1 frames"] {
        let mut server = Server::start(&["--once", "--log", word(&log), "--json", word(&json), "--state", word(&state)]);
        server.client().frame(&[0x05], &[0x10]);
        assert!(server.ends_well());
        let after = (text(&log), text(&json));
        let added = after.0.strip_prefix(&before.0).expect("what was there stays");
        let [head, line] = added.lines().collect::<Vec<_>>()[..] else {
            panic!("{added}")
        };
        assert!(head.starts_with("# oxterin serve 20") && head.contains(begin), "{head}");
        assert_eq!(line, "05 00 account=0 # ST 10 read");
        let object = r#"{"tick":0,"account":0,"bytes":"0500","output":"FF10","outcome":"read","cause":null,"billed":0,"billed_to":null}"#;
        assert_eq!(after.1, format!("{}{object}\n", before.1));
        before = after;
    }
}

/// Two parts in one log would be billed as one: the second one's frames would come while the first one's erase still runs.
#[test]
fn a_fresh_part_does_not_go_on_with_the_log_of_another() {
    let folder = folder("another");
    let [log, json, state] = ["log", "json", "state"].map(|name| folder.join(name));
    let mut server = Server::start(&["--once", "--log", word(&log)]);
    let mut client = server.client();
    client.frame(&[0x06], &[]);
    client.frame(&[0xC7], &[]);
    drop(client);
    assert!(server.ends_well());
    let before = text(&log);
    make_state(&state, &[]);
    for more in [&[][..], &["--state", word(&state)], &["--size=65536"]] {
        let words = [&["--port", "0", "--log", word(&log), "--json", word(&json)], more].concat();
        let (code, said) = refusal(&words);
        assert_eq!(code, Some(2));
        assert!(said.contains("it has frames already, and this part is fresh"), "{said}");
        assert_eq!((text(&log), json.exists()), (before.clone(), false));
    }
}

#[test]
fn a_log_whose_last_line_has_no_end_is_not_added_to() {
    let folder = folder("no-end");
    let [log, out, state] = ["log", "out", "state"].map(|name| folder.join(name));
    make_state(&state, &[]);
    let old = fs::read(&state).expect("a state");
    for option in ["--log", "--json"] {
        for ragged in ["06", "06 account=3\n05 00", "\n "] {
            fs::write(&log, ragged).expect("written");
            let files = [option, word(&log), "--save", word(&out), "--state", word(&state)];
            let (code, said) = refusal(&[&["--port", "0"], &files[..]].concat());
            assert_eq!(code, Some(2), "{said}");
            let begin = format!("oxterin: {option} {}: ", word(&log));
            assert!(said.starts_with(&begin) && said.contains("its last line was cut off"), "{said}");
            assert_eq!(
                (text(&log), fs::read(&state).expect("a state") == old, out.exists()),
                (ragged.into(), true, false)
            );
        }
    }
    fs::write(&log, "").expect("written");
    drop(Server::start(&["--log", word(&log)]));
}

/// The first client's write enable is whole only when its last byte has come; the status that others see says so.
#[test]
fn a_client_in_the_middle_of_a_frame_keeps_nobody_at_other_ports_waiting() {
    let server = Server::start(&["--listen", "0=20", "--listen", "0=31", "--listen", "0"]);
    let mut first = server.client_at(0);
    first.send(&operation(1, 0));
    let mut second = server.client_at(1);
    second.frame(&[0x05], &[0x10]);
    second.send(&[0x13, 0x04]);
    let mut third = server.client_at(2);
    third.frame(&[0x9F], &[0x1F, 0x42]);
    third.frame(&[0x05], &[0x10]);
    first.send(&[0x06]);
    first.expect(&[ACK]);
    third.frame(&[0x05], &[0x12]);
    second.send(&[0x00, 0x00, 0x00, 0x00, 0x00, 0x81, 0x00, 0x10, 0x00]);
    second.expect(&[ACK]);
    first.frame(&[0x05], &[0x11]);
}
