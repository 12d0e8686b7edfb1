//! How long calls take in two builds of the proved library: whole frames, bare and through a ledger, and HEX text. One is the build of
//! another checkout, called then, the other that of this one, called now. host/against builds both, gives their functions names of their
//! own, and runs this.
#[path = "compare/src/measure.rs"]
mod measure;

use measure::{processor, short, Contender, ROUND, ROUNDS};
use std::cell::RefCell;
use std::hint::black_box;
use std::process::ExitCode;
use std::rc::Rc;

/// The first version that has HEX text.
const HEX: u64 = 1_001_000;

/// The first version whose signals have four words; before, they had three.
const FOUR_SIGNALS: u64 = 1_002_000;

/// The first version that has a ledger.
const LEDGER: u64 = 1_003_000;

/// The outcome of a read, as a word.
const READ: u64 = 1;

/// The outcome of a control command.
const CONTROL: u64 = 2;

/// The outcome of an operation that took effect.
const BEGUN: u64 = 4;

/// The busy ticks that a poll finds.
const BUSY: u64 = 32_768;

/// The account for which frames go through the ledger.
const ACCOUNT: u64 = 9;

/// How many accounts a ledger has; the number itself stands for nobody.
const ACCOUNTS: usize = 256;

/// The length of an array whose content is written as HEX text or read from it.
const IMAGE: usize = 65_536;

/// How many characters that text has.
const CHARACTERS: usize = 180_252;

/// How many frames there are to a row whose frames go on from place to place, sent in turn.
const FRAMES: usize = 64;

/// A function of the library.
#[derive(Clone, Copy)]
enum Function {
    /// `oxterin_frame`.
    Frame,
    /// `oxterin_ledger_frame`.
    LedgerFrame,
    /// `oxterin_hex_write`: the part's array is written, and its output is the text.
    HexWrite,
    /// `oxterin_hex_read`: the input is the text, and the part's array is read into.
    HexRead,
}

/// A call to be measured.
struct Call {
    /// What the table calls it.
    name: &'static str,
    /// The function that is called.
    function: Function,
    /// What it finds in the array.
    array: Vec<u8>,
    /// The busy ticks that it finds.
    busy: u64,
    /// The frame's bytes, or the text.
    input: Vec<u8>,
    /// How many bytes it has for its output.
    output: usize,
    /// The first word that it has to tell: the outcome, the characters written, or the place of a fault, 0 for none.
    told: u64,
    /// By how many places each frame of the row lies behind the one before.
    on: usize,
}

/// What a call finds and leaves.
struct Part {
    /// The array.
    array: Vec<u8>,
    /// The security register.
    register: Vec<u8>,
    /// What a frame drives, or the text that is written.
    output: Vec<u8>,
    /// The record's words.
    record: [u64; 7],
    /// The answer's words, the outcome first; HEX text tells one word.
    answer: [u64; 3],
    /// The ledger.
    ledger: Ledger,
}

/// A ledger.
#[derive(PartialEq)]
struct Ledger {
    /// The running operation: its account, and what it was billed so far.
    running: [u64; 2],
    /// The ticks billed to each account.
    totals: [u64; ACCOUNTS],
    /// The most ticks billed for one operation.
    most: [u64; ACCOUNTS],
    /// How many operations each account began.
    numbers: [u64; ACCOUNTS],
}

/// One of the two builds.
struct Build {
    /// What it is called.
    name: &'static str,
    /// The version of its face.
    version: u64,
    /// Calls its `oxterin_frame`.
    frame: Caller,
    /// Calls its `oxterin_ledger_frame`, if the version has it; so with the others.
    ledger_frame: Caller,
    /// Calls its `oxterin_hex_write`.
    hex_write: Caller,
    /// Calls its `oxterin_hex_read`.
    hex_read: Caller,
}

/// Makes a call with the settings' and the signals' words and the input. The number is the refusal's, 0 for an accepted call.
type Caller = fn(&mut Part, &[u64], &[u64], &[u8]) -> u64;

/// What both builds of a row are measured on.
struct Scene {
    /// The inputs, in turn.
    inputs: Vec<Vec<u8>>,
    /// The settings' words.
    settings: [u64; 8],
    /// The record's words that each call is handed.
    record: [u64; 7],
    /// The part, which the two take in turn.
    part: RefCell<Part>,
}

/// A row of the table.
struct Row {
    /// What the table calls it.
    name: &'static str,
    /// Then and now, if they have it.
    contenders: [Option<Contender>; 2],
}

extern "C" {
    fn then_oxterin_version() -> u64;
    fn now_oxterin_version() -> u64;
    fn now_oxterin_typical(settings: *mut u64, settings_len: usize) -> u64;
}

// Safety, for every call below: the proved function reads and writes inside the slices whose pointers and lengths it is handed, and keeps
// no pointer; a table of a ledger has the 256 words that it takes it to have.

/// Sends a frame of a part to the build whose own function has that name, which may take more than the frame.
macro_rules! frame {
    ($frame:ident, $part:ident $(, $more:ident: $kind:ty = $given:expr)*) => {{
        extern "C" {
            fn $frame(
                record: *mut u64,
                record_len: usize,
                settings: *const u64,
                settings_len: usize,
                signals: *const u64,
                signals_len: usize,
                array: *mut u8,
                array_len: usize,
                register: *mut u8,
                register_len: usize,
                input: *const u8,
                input_len: usize,
                output: *mut u8,
                output_len: usize,
                answer: *mut u64,
                answer_len: usize,
                $($more: $kind,)*
            ) -> u64;
        }
        |$part, settings, signals, input| unsafe {
            $frame(
                $part.record.as_mut_ptr(),
                $part.record.len(),
                settings.as_ptr(),
                settings.len(),
                signals.as_ptr(),
                signals.len(),
                $part.array.as_mut_ptr(),
                $part.array.len(),
                $part.register.as_mut_ptr(),
                $part.register.len(),
                input.as_ptr(),
                input.len(),
                $part.output.as_mut_ptr(),
                $part.output.len(),
                $part.answer.as_mut_ptr(),
                $part.answer.len(),
                $($given,)*
            )
        }
    }};
}

/// The same through the part's ledger.
macro_rules! ledger_frame {
    ($frame:ident) => {
        frame!(
            $frame,
            part,
            account: u64 = ACCOUNT,
            running: *mut u64 = part.ledger.running.as_mut_ptr(),
            running_len: usize = part.ledger.running.len(),
            totals: *mut u64 = part.ledger.totals.as_mut_ptr(),
            most: *mut u64 = part.ledger.most.as_mut_ptr(),
            numbers: *mut u64 = part.ledger.numbers.as_mut_ptr()
        )
    };
}

/// Has the build's function of that name make HEX text of an array, or an array of text.
macro_rules! hex {
    ($hex:ident, $part:ident, $input:ident, $from:expr => $to:expr) => {{
        extern "C" {
            fn $hex(from: *const u8, from_len: usize, to: *mut u8, to_len: usize, told: *mut u64, told_len: usize) -> u64;
        }
        |$part, _, _, $input| unsafe {
            $hex(
                $from.as_ptr(),
                $from.len(),
                $to.as_mut_ptr(),
                $to.len(),
                $part.answer.as_mut_ptr(),
                1,
            )
        }
    }};
}

fn main() -> ExitCode {
    let told: Vec<String> = std::env::args().skip(1).collect();
    let [then, now] = &told[..] else {
        eprintln!("measure: run host/against, which builds both libraries and says here which they are");
        return ExitCode::from(2);
    };
    let builds = builds();
    let calls = match checked_calls(&builds) {
        Ok(calls) => calls,
        Err(fault) => {
            eprintln!("host/against: {fault}");
            return ExitCode::FAILURE;
        }
    };
    print_conditions(&builds, [then, now]);
    let mut rows: Vec<Row> = calls.iter().map(|call| row(call, &builds)).collect();
    for _ in 0..ROUNDS {
        let contenders = rows.iter_mut().flat_map(|row| &mut row.contenders);
        contenders.flatten().for_each(Contender::measure);
    }
    print_table(&rows);
    ExitCode::SUCCESS
}

/// Then and now.
fn builds() -> [Build; 2] {
    // Safety: both take nothing, and give a number.
    let (then, now) = unsafe { (then_oxterin_version(), now_oxterin_version()) };
    [
        Build {
            name: "then",
            version: then,
            frame: frame!(then_oxterin_frame, part),
            ledger_frame: ledger_frame!(then_oxterin_ledger_frame),
            hex_write: hex!(then_oxterin_hex_write, part, _input, part.array => part.output),
            hex_read: hex!(then_oxterin_hex_read, part, input, input => part.array),
        },
        Build {
            name: "now",
            version: now,
            frame: frame!(now_oxterin_frame, part),
            ledger_frame: ledger_frame!(now_oxterin_ledger_frame),
            hex_write: hex!(now_oxterin_hex_write, part, _input, part.array => part.output),
            hex_read: hex!(now_oxterin_hex_read, part, input, input => part.array),
        },
    ]
}

/// The calls in the order of the table, all of them checked.
fn checked_calls(builds: &[Build; 2]) -> Result<Vec<Call>, String> {
    let mut calls = frames();
    let write = hex_write();
    let text = write.after(&builds[1], &[]).ok_or("now has no HEX text")??.output;
    calls.extend([write, hex_read(text)]);
    calls.iter().try_for_each(|call| call.check(builds))?;
    Ok(calls)
}

/// The frames in the order of the table.
fn frames() -> Vec<Call> {
    let still = |name, input: Vec<u8>, told| Call {
        name,
        function: Function::Frame,
        array: content(131_072),
        busy: 0,
        output: input.len(),
        input,
        told,
        on: 0,
    };
    let poll = |name, positions: usize| Call {
        busy: BUSY,
        ..still(name, [&[0x05][..], &vec![0; positions - 1]].concat(), READ)
    };
    let programs = |name, head: [u8; 4], data: usize, on| Call {
        on,
        ..still(name, [&head[..], &vec![0x5A; data]].concat(), BEGUN)
    };
    let program = |name, start, data, on| programs(name, [0x02, 0x00, 0x40, start], data, on);
    let once = |name, data| programs(name, [0x9B, 0x00, 0x00, 0x00], data, data);
    let read = |name, data: usize| still(name, [&[0x03, 0x00, 0x40, 0x00][..], &vec![0; data]].concat(), READ);
    vec![
        still("status read, 1 byte", vec![0x05, 0], READ),
        poll("status read of 2 positions, busy", 2),
        poll("status read of 64 positions, busy", 64),
        still("write enable", vec![0x06], CONTROL),
        program("program, 1 byte", 0, 1, 1),
        program("program, 3 bytes", 0, 3, 4),
        program("program, 4 bytes", 0, 4, 4),
        program("program, 7 bytes", 0, 7, 8),
        program("program, 16 bytes", 0, 16, 16),
        program("program, 64 bytes", 0, 64, 64),
        program("program, 256 bytes", 0, 256, 256),
        program("program, 4 bytes from FEh of a page", 0xFE, 4, 256),
        program("program, 256 bytes from 80h of a page", 0x80, 256, 256),
        program("program, 300 bytes", 0, 300, 256),
        once("one-time program, 4 bytes", 4),
        once("one-time program, 64 bytes", 64),
        still("4-KiB erase", vec![0x20, 0x00, 0x40, 0x00], BEGUN),
        still("chip erase, 131,072 bytes", vec![0xC7], BEGUN),
        read("read, 4 bytes", 4),
        read("read, 4,096 bytes", 4_096),
        read("read, 8,188 bytes", 8_188),
        Call {
            function: Function::LedgerFrame,
            ..program("4-byte program through the ledger", 0, 4, 4)
        },
    ]
}

/// An array's content written as HEX text.
fn hex_write() -> Call {
    Call {
        name: "HEX text of 65,536 bytes written",
        function: Function::HexWrite,
        array: content(IMAGE),
        busy: 0,
        input: vec![],
        output: CHARACTERS,
        told: CHARACTERS as u64,
        on: 0,
    }
}

/// HEX text read into an array that has another content.
fn hex_read(text: Vec<u8>) -> Call {
    Call {
        name: "HEX text of 65,536 bytes read",
        function: Function::HexRead,
        array: vec![0; IMAGE],
        busy: 0,
        input: text,
        output: 0,
        told: 0,
        on: 0,
    }
}

/// What stands in an array of so many bytes.
fn content(bytes: usize) -> Vec<u8> {
    (0..bytes).map(|place| (place * 7 / 5) as u8).collect()
}

impl Call {
    /// The inputs of the row: one, or frames that lie the given number of places behind the one before.
    fn inputs(&self) -> Vec<Vec<u8>> {
        let inputs = if self.on == 0 { 1 } else { FRAMES };
        (0..inputs).map(|k| moved(&self.input, k * self.on)).collect()
    }

    /// The record's words: WEL set, the OTP-used mark clear, awake.
    fn record(&self) -> [u64; 7] {
        [0, 0, 1, 0, 0, 0, self.busy]
    }

    /// The part before the call.
    fn part(&self) -> Part {
        Part {
            array: self.array.clone(),
            register: vec![0xFF; 128],
            output: vec![0; self.output],
            record: self.record(),
            answer: [0; 3],
            ledger: Ledger {
                running: [ACCOUNTS as u64, 0],
                totals: [0; ACCOUNTS],
                most: [0; ACCOUNTS],
                numbers: [0; ACCOUNTS],
            },
        }
    }

    /// Finds fault with a call of the row that comes to something else than it has to, or after which the two builds differ.
    fn check(&self, builds: &[Build; 2]) -> Result<(), String> {
        for input in self.inputs() {
            let parts = builds.iter().filter_map(|build| self.after(build, &input));
            let parts = parts.collect::<Result<Vec<Part>, String>>()?;
            let mut pairs = parts.windows(2);
            if let Some(what) = pairs.find_map(|pair| pair[0].difference(&pair[1])) {
                return Err(format!("{}: then and now do not leave the same {what}", self.name));
            }
        }
        Ok(())
    }

    /// What a build leaves after the call with that input, if it has the function.
    fn after(&self, build: &Build, input: &[u8]) -> Option<Result<Part, String>> {
        let mut part = self.part();
        let refusal = build.caller(self.function)?(&mut part, &settings(), &build.signals(input), input);
        let (told, expected) = (part.answer[0], self.told);
        if (refusal, told) == (0, expected) {
            return Some(Ok(part));
        }
        let (row, name) = (self.name, build.name);
        Some(Err(format!(
            "{row}: {name} comes to refusal {refusal} and tells {told}, not to 0 and {expected}"
        )))
    }
}

/// A frame's bytes with its address so many places further on.
fn moved(input: &[u8], by: usize) -> Vec<u8> {
    let mut input = input.to_vec();
    if by > 0 {
        let [_, high, middle, low] = [input[0], input[1], input[2], input[3]].map(u32::from);
        let place = high * 65_536 + middle * 256 + low + by as u32;
        input[1..4].copy_from_slice(&place.to_be_bytes()[1..]);
    }
    input
}

impl Part {
    /// What is first found to differ in two parts.
    fn difference(&self, other: &Part) -> Option<&'static str> {
        let same = [
            ("array", self.array == other.array),
            ("register", self.register == other.register),
            ("output", self.output == other.output),
            ("record", self.record == other.record),
            ("answer", self.answer == other.answer),
            ("ledger", self.ledger == other.ledger),
        ];
        same.into_iter().find(|(_, same)| !same).map(|(name, _)| name)
    }
}

impl Build {
    /// How a function is called, if the version has it.
    fn caller(&self, function: Function) -> Option<Caller> {
        let (caller, first) = match function {
            Function::Frame => (self.frame, 0),
            Function::LedgerFrame => (self.ledger_frame, LEDGER),
            Function::HexWrite => (self.hex_write, HEX),
            Function::HexRead => (self.hex_read, HEX),
        };
        (self.version >= first).then_some(caller)
    }

    /// The signals' words of a frame of whole bytes with WP high that takes no time, as this build takes them.
    fn signals(&self, input: &[u8]) -> Vec<u64> {
        let words = [8 * input.len() as u64, 1, 0, 0];
        words[..if self.version < FOUR_SIGNALS { 3 } else { 4 }].to_vec()
    }
}

/// The data sheet's typical durations.
fn settings() -> [u64; 8] {
    let mut settings = [0; 8];
    // Safety: the proved function writes inside the slice whose pointer and length it is handed.
    unsafe { now_oxterin_typical(settings.as_mut_ptr(), settings.len()) };
    settings
}

/// The row of a call.
fn row(call: &Call, builds: &[Build; 2]) -> Row {
    let scene = Rc::new(Scene {
        inputs: call.inputs(),
        settings: settings(),
        record: call.record(),
        part: RefCell::new(call.part()),
    });
    let contender = |build: &Build| {
        let (scene, signals) = (Rc::clone(&scene), build.signals(&call.input));
        let caller = build.caller(call.function)?;
        Some(Contender::new(Box::new(move |times| {
            let part = &mut *scene.part.borrow_mut();
            for input in scene.inputs.iter().cycle().take(times as usize) {
                part.record = scene.record;
                black_box(caller(part, &scene.settings, &signals, input));
            }
        })))
    };
    Row {
        name: call.name,
        contenders: builds.each_ref().map(contender),
    }
}

/// Says on what and how the times were taken.
fn print_conditions(builds: &[Build; 2], told: [&String; 2]) {
    println!("Machine: {}, {}", std::env::consts::ARCH, processor());
    for (build, told) in builds.iter().zip(told) {
        let (first, second, third) = (build.version / 1_000_000, build.version / 1_000 % 1_000, build.version % 1_000);
        println!("{}: version {first}.{second}.{third}, {told}", build.name);
    }
    println!("Array of 131,072 bytes, for HEX text of 65,536. Best of {ROUNDS} rounds of about {ROUND:?} each, the contenders in turn,");
    println!("in one process.");
    println!("Buffers and ledger were warmed up and are not cleared; both builds of a row work on the same ones. The builds' functions");
    println!("begin at multiples of 64 bytes.");
    println!(
        "The {FRAMES} programs of a row go on from place to place, each behind the one before, or at the next place of four or eight;"
    );
    println!("those of 256 bytes and more, and those that wrap, from page to page; in the register they begin again at its end.");
    println!("All calls go through the C face; - where a build has no such function. Each frame is handed a record with WEL set and the");
    println!("OTP-used mark clear, with no busy ticks, or, where the row says busy, with 32,768. Before the measuring, both builds left");
    println!("the same after each call.");
    println!();
}

/// The rows, with the least times.
fn print_table(rows: &[Row]) {
    println!("| what | then, ns | now, ns | now / then | then / now |");
    println!("|---|--:|--:|--:|--:|");
    let ratio = |over: Option<f64>, under: Option<f64>| over.zip(under).map(|(over, under)| over / under);
    for row in rows {
        let [then, now] = row.contenders.each_ref().map(|one| one.as_ref().map(Contender::best));
        let cells = [then, now, ratio(now, then), ratio(then, now)];
        let cells = cells.map(|number| number.map_or("-".to_string(), short));
        println!("| {} | {} |", row.name, cells.join(" | "));
    }
}
