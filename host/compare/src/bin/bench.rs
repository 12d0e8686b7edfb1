//! How long a frame takes: the proved part, the model, and a plain copy or fill of as many bytes; and the proved part bare and through a
//! ledger.
use compare::measure::{processor, short, Contender, ROUND, ROUNDS};
use oxterin::{raw, Ledger};
use std::hint::black_box;
use std::process::ExitCode;

/// A frame to be measured.
struct Case {
    /// What the table calls it.
    name: &'static str,
    /// Its bytes.
    input: Vec<u8>,
    /// The busy ticks left at its first bit.
    busy: u64,
    /// The ticks that each of its positions takes.
    ticks_per_byte: u64,
    /// What it has to come to.
    outcome: &'static str,
    /// What it is compared with, beside the model.
    plain: Plain,
}

/// What the same number of bytes would cost without a part.
#[derive(Clone, Copy)]
enum Plain {
    /// There is nothing to compare with.
    None,
    /// Copying so many bytes.
    Copy(usize),
    /// Filling so many bytes.
    Fill(usize),
}

/// A frame to be measured by words, bare and through a ledger.
struct Billed {
    /// What the table calls it.
    name: &'static str,
    /// Its bytes.
    input: Vec<u8>,
    /// The words of the record that it is handed.
    record: [u64; raw::RECORD],
    /// The number of the outcome that it has to come to.
    outcome: u64,
}

fn main() -> ExitCode {
    if cfg!(debug_assertions) {
        eprintln!("bench: a debug build says nothing about speed; run it with --release");
        return ExitCode::from(2);
    }
    print_conditions();
    let cases = cases();
    let mut contenders: Vec<Vec<Contender>> = cases.iter().map(contenders).collect();
    let billed = billed();
    let mut pairs: Vec<[Contender; 2]> = billed.iter().map(bare_and_billed).collect();
    for _ in 0..ROUNDS {
        contenders.iter_mut().flatten().for_each(Contender::measure);
        pairs.iter_mut().flatten().for_each(Contender::measure);
    }
    print_table(&cases, &contenders);
    print_billed(&billed, &pairs);
    ExitCode::SUCCESS
}

/// The frames in the order of the table.
fn cases() -> Vec<Case> {
    let program = |data: usize| [&[0x02, 0x00, 0x40, 0x00][..], &vec![0x5A; data]].concat();
    let read = [&[0x03, 0x00, 0x40, 0x00][..], &[0; 8_188]].concat();
    let case = |name, input, outcome, plain| Case {
        name,
        input,
        busy: 0,
        ticks_per_byte: 0,
        outcome,
        plain,
    };
    let poll = |name, busy, ticks_per_byte| Case {
        busy,
        ticks_per_byte,
        ..case(name, [&[0x05][..], &[0; 8_191]].concat(), "read", Plain::None)
    };
    vec![
        case("status read, 1 byte", vec![0x05, 0], "read", Plain::None),
        case("write enable", vec![0x06], "control", Plain::None),
        case("program, 1 byte", program(1), "begun", Plain::None),
        case("program, 256 bytes", program(256), "begun", Plain::None),
        case("4-KiB erase", vec![0x20, 0x00, 0x40, 0x00], "begun", Plain::Fill(4_096)),
        case("chip erase, 131,072 bytes", vec![0xC7], "begun", Plain::Fill(131_072)),
        case("read, 8,188 bytes", read, "read", Plain::Copy(8_188)),
        poll("status read of 8,192 positions, busy, ticks per byte 0", 32_768, 0),
        poll("status read of 8,192 positions, busy for half of them, ticks per byte 8", 32_768, 8),
    ]
}

/// The frames that are measured bare and through a ledger, in the order of the table.
fn billed() -> Vec<Billed> {
    let idle = [0, 0, 1, 0, 0, 0, 0];
    let poll = |name, positions| {
        let mut input = vec![0; positions];
        input[0] = 0x05;
        let record = [0, 0, 1, 0, 0, 0, 32_768];
        Billed {
            name,
            input,
            record,
            outcome: 1,
        }
    };
    vec![
        poll("status read of 2 positions, busy", 2),
        poll("status read of 64 positions, busy", 64),
        poll("status read of 128 positions, busy", 128),
        poll("status read of 8,192 positions, busy", 8_192),
        Billed {
            name: "write enable",
            input: vec![0x06],
            record: idle,
            outcome: 2,
        },
        Billed {
            name: "program, 4 bytes",
            input: vec![0x02, 0x00, 0x40, 0x00, 0x5A, 0x5A, 0x5A, 0x5A],
            record: idle,
            outcome: 4,
        },
    ]
}

/// The proved part, the model, and the plain way if there is one.
fn contenders(case: &Case) -> Vec<Contender> {
    let mut contenders = vec![Contender::new(proved(case)), Contender::new(modelled(case))];
    match case.plain {
        Plain::None => {}
        Plain::Copy(bytes) => contenders.push(Contender::new(copy(bytes))),
        Plain::Fill(bytes) => contenders.push(Contender::new(fill(bytes))),
    }
    contenders
}

/// The frame on the proved part, through the safe wrapper.
fn proved(case: &Case) -> Box<dyn FnMut(u64)> {
    let (input, outcome) = (case.input.clone(), case.outcome);
    let (mut array, mut register, mut output) = memories(input.len());
    let ready = oxterin::Record {
        wel: true,
        busy: case.busy,
        ..oxterin::Record::fresh(false, false, false)
    };
    let settings = oxterin::Settings::typical();
    let signals = oxterin::Signals {
        ticks_per_byte: case.ticks_per_byte,
        ..oxterin::Signals::whole(&input)
    };
    let mut frame = move || {
        let mut record = black_box(ready);
        let answer = oxterin::frame(
            &mut record,
            &settings,
            &mut array,
            &mut register,
            black_box(&input),
            signals,
            &mut output,
        );
        black_box((&array, &output, record));
        answer
    };
    assert_eq!(frame().map(|answer| answer.outcome.word()), Ok(outcome));
    Box::new(move |times| {
        for _ in 0..times {
            let _ = black_box(frame());
        }
    })
}

/// The frame on the model.
fn modelled(case: &Case) -> Box<dyn FnMut(u64)> {
    let (input, outcome) = (case.input.clone(), case.outcome);
    let (mut array, mut register, mut output) = memories(input.len());
    let ready = model::Record {
        wel: true,
        busy: case.busy,
        ..model::Record::fresh(false, false, false)
    };
    let settings = model::Settings::typical();
    let pins = model::Pins {
        bits: 8 * input.len() as u64,
        wp_high: true,
        elapsed: 0,
        ticks_per_byte: case.ticks_per_byte,
    };
    let mut frame = move || {
        let answer = model::frame(
            black_box(ready),
            &settings,
            &mut array,
            &mut register,
            black_box(&input),
            pins,
            &mut output,
        );
        black_box((&array, &output));
        answer
    };
    assert_eq!(format!("{:?}", frame().outcome).to_lowercase(), outcome);
    Box::new(move |times| {
        for _ in 0..times {
            black_box(frame());
        }
    })
}

/// A frame by words, bare and through a ledger whose words say that an operation of account 7 runs.
fn bare_and_billed(case: &Billed) -> [Contender; 2] {
    let mut ledger = Box::new(Ledger::empty());
    let bare = by_words(case, |words, settings, signals, [array, register, output], input, answer| {
        raw::frame(words, settings, signals, array, register, input, output, answer)
    });
    let through = by_words(case, move |words, settings, signals, [array, register, output], input, answer| {
        let mut running = black_box([7, 0]);
        let Ledger { totals, most, numbers, .. } = ledger.as_mut();
        let number = raw::ledger_frame(
            words,
            settings,
            signals,
            array,
            register,
            input,
            output,
            answer,
            9,
            &mut running,
            totals,
            most,
            numbers,
        );
        black_box((&ledger, running));
        number
    });
    [Contender::new(bare), Contender::new(through)]
}

/// A frame by words, before which a tick elapses, carried out by a call that is handed a record, settings, signals, the array, the register
/// and the output, the input, and an answer.
fn by_words(
    case: &Billed,
    mut call: impl FnMut(&mut [u64], &[u64], &[u64], [&mut [u8]; 3], &[u8], &mut [u64]) -> u64 + 'static,
) -> Box<dyn FnMut(u64)> {
    let (input, ready) = (case.input.clone(), case.record);
    let (mut array, mut register, mut output) = memories(input.len());
    let settings = oxterin::Settings::typical().words();
    let signals = [8 * input.len() as u64, 1, 1, 0];
    let mut frame = move || {
        let mut record = black_box(ready);
        let mut answer = [0; raw::ANSWER];
        let lent = [&mut array[..], &mut register, &mut output];
        let number = call(&mut record, &settings, &signals, lent, black_box(&input), &mut answer);
        black_box((&array, &output, record));
        (number, answer[0])
    };
    assert_eq!(frame(), (0, case.outcome), "{}", case.name);
    Box::new(move |times| {
        for _ in 0..times {
            black_box(frame());
        }
    })
}

/// An array, a register and an output buffer for so many input bytes.
fn memories(input: usize) -> (Vec<u8>, Vec<u8>, Vec<u8>) {
    let array = (0..131_072u32).map(|place| (place * 7 / 5) as u8).collect();
    (array, vec![0xFF; 128], vec![0; input])
}

/// A plain copy of so many bytes.
fn copy(bytes: usize) -> Box<dyn FnMut(u64)> {
    let (array, _, mut output) = memories(bytes);
    Box::new(move |times| {
        for _ in 0..times {
            output.copy_from_slice(black_box(&array[..bytes]));
            black_box(&output);
        }
    })
}

/// A plain fill of so many bytes.
fn fill(bytes: usize) -> Box<dyn FnMut(u64)> {
    let (mut array, _, _) = memories(0);
    Box::new(move |times| {
        for _ in 0..times {
            black_box(&mut array[..bytes]).fill(0xFF);
            black_box(&array);
        }
    })
}

/// Says on what and how the times were taken.
fn print_conditions() {
    println!("Machine: {}, {}", std::env::consts::ARCH, processor());
    println!("Proved library: {}", oxterin::BUILT);
    println!("Array of 131,072 bytes. Best of {ROUNDS} rounds of about {ROUND:?} each, the contenders in turn.");
    println!("Buffers were warmed up and are not cleared between frames.");
    println!("Each frame is handed a record with WEL set and no busy ticks by value, so that every program and erase begins; the status");
    println!("reads of 8,192 positions are handed 32,768 busy ticks. No other frame is in its time. The proved part is called through the");
    println!("safe wrapper.");
    println!(
        "The second table is of the same run: frames by words, bare (oxterin_frame) and through a ledger (oxterin_ledger_frame). A tick"
    );
    println!("elapses before each, and the ledger is warmed up and not cleared. There the status reads are handed 32,768 busy ticks of an");
    println!("operation of another account, to which the one that elapses is billed. For write enable and program the part is idle, and");
    println!("only the ledger's words name another account.");
    println!();
}

/// A row for each frame, with the least times.
fn print_table(cases: &[Case], contenders: &[Vec<Contender>]) {
    println!("| frame | proved, ns | proved, frames/s | model, ns | model, frames/s | proved / model | copy or fill, ns | proved / copy or fill |");
    println!("|---|--:|--:|--:|--:|--:|--:|--:|");
    for (case, contenders) in cases.iter().zip(contenders) {
        let proved = contenders[0].best();
        let model = contenders[1].best();
        let plain = contenders.get(2).map(Contender::best);
        println!(
            "| {} | {} | {} | {} | {} | {} | {} | {} |",
            case.name,
            short(proved),
            short(1e9 / proved),
            short(model),
            short(1e9 / model),
            short(proved / model),
            plain.map_or("-".to_string(), short),
            plain.map_or("-".to_string(), |plain| short(proved / plain)),
        );
    }
}

/// A row for each frame that was measured both ways, with the least times.
fn print_billed(billed: &[Billed], pairs: &[[Contender; 2]]) {
    println!();
    println!("| frame | bare, ns | through a ledger, ns | through a ledger / bare |");
    println!("|---|--:|--:|--:|");
    for (case, [bare, through]) in billed.iter().zip(pairs) {
        let (bare, through) = (bare.best(), through.best());
        println!(
            "| {} | {} | {} | {} |",
            case.name,
            short(bare),
            short(through),
            short(through / bare)
        );
    }
}
