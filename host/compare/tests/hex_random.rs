//! Random texts of Intel HEX, good and damaged, read on all sides; and the same records in other dress.
//!
//! `COMPARE_TEXTS` asks for more texts than usual, `COMPARE_SEED` for those of an earlier run, and `COMPARE_TEXT` names a file with a text
//! to read, into an array of `COMPARE_ARRAY` bytes or of either size.
use compare::hex::{replay, report, Case, Generator, Reply, Tally, Trial};
use compare::{asked, clock, Random};
use oxterin::Size;
use std::env;
use std::thread;

/// How many texts a usual run has, both sizes together.
const TEXTS: u64 = 240_000;

/// How often each refusal, and an array that changes, has to be seen for each size.
const LEAST: u64 = 1_000;

/// How many texts of a size are read in two dresses.
const DRESSED: u64 = 4_000;

/// A text that was accepted.
const ACCEPTED: Reply = Reply { refusal: 0, word: 0 };

#[test]
fn random_texts_are_read_alike() {
    let seed = asked("COMPARE_SEED").unwrap_or_else(clock);
    let texts = asked("COMPARE_TEXTS").unwrap_or(0).max(TEXTS);
    println!("COMPARE_SEED={seed} COMPARE_TEXTS={texts}");
    let runs = thread::scope(|scope| {
        Size::ALL
            .map(|size| scope.spawn(move || many_texts(seed, size, texts.div_ceil(2))))
            .map(|thread| thread.join().expect("the texts end"))
    });
    for (size, run) in Size::ALL.into_iter().zip(runs) {
        let tally = run.unwrap_or_else(|case| panic!("COMPARE_SEED={seed}, {size:?}: {}", report(case)));
        println!("{size:?}: {tally}");
        let gaps = tally.gaps(LEAST);
        assert!(gaps.is_empty(), "seen fewer than {LEAST} times: {gaps:?}");
    }
}

/// So many texts, each read into the array that the one before left; or the one in which the sides differ.
fn many_texts(seed: u64, size: Size, texts: u64) -> Result<Tally, Case> {
    let mut generator = generator(seed, size);
    let mut trial = Trial::new(size.bytes() + 1);
    let mut tally = Tally::default();
    while tally.texts() < texts {
        let case = generator.case();
        match trial.read(&case.text, case.array) {
            Ok(reply) => tally.note(&reply, trial.has_changed()),
            Err(_) => return Err(case),
        }
    }
    Ok(tally)
}

#[test]
fn neither_case_nor_line_endings_count() {
    let seed = asked("COMPARE_SEED").unwrap_or_else(clock);
    println!("COMPARE_SEED={seed}");
    for size in Size::ALL {
        let mut generator = generator(seed, size);
        let [mut one, mut other] = [0; 2].map(|_| Trial::new(size.bytes()));
        for _ in 0..DRESSED {
            let text = generator.good();
            let dressed = generator.redressed(&text);
            for (trial, text) in [(&mut one, text), (&mut other, dressed)] {
                let reply = trial.read(&text, size.bytes());
                assert_eq!(reply, Ok(ACCEPTED), "COMPARE_SEED={seed}, {size:?}: {}", text.escape_ascii());
            }
            assert!(
                one.array() == other.array(),
                "COMPARE_SEED={seed}, {size:?}: {}",
                other.text().escape_ascii()
            );
        }
    }
}

#[test]
fn the_case_of_a_refused_text_does_not_count_either() {
    let seed = asked("COMPARE_SEED").unwrap_or_else(clock);
    println!("COMPARE_SEED={seed}");
    for size in Size::ALL {
        let mut generator = generator(seed, size);
        let mut trial = Trial::new(size.bytes() + 1);
        for _ in 0..DRESSED {
            let Case { text, array } = generator.case();
            let replies = [text.to_ascii_lowercase(), text.to_ascii_uppercase(), text].map(|text| trial.read(&text, array));
            assert!(
                replies.iter().all(|reply| reply.is_ok() && *reply == replies[0]),
                "COMPARE_SEED={seed}, {size:?}: {}",
                trial.text().escape_ascii()
            );
        }
    }
}

#[test]
fn a_named_text_is_read_alike() {
    let built_in = b":02FFFE0012ab44\r\n:00000001FF\n".to_vec();
    let text = env::var("COMPARE_TEXT").map_or(built_in, |path| std::fs::read(path).expect("the text can be read"));
    let arrays = asked("COMPARE_ARRAY").map_or(Size::ALL.map(Size::bytes).to_vec(), |array| vec![array as usize]);
    for array in arrays {
        let text = text.clone();
        match replay(&Case { text, array }) {
            Ok(reply) => println!("an array of {array} bytes: {reply}"),
            Err(difference) => panic!("the sides differ with an array of {array} bytes:\n{difference}"),
        }
    }
}

/// The texts of a seed for a size.
fn generator(seed: u64, size: Size) -> Generator {
    Generator::new(Random::seeded(seed ^ size.bytes() as u64), size.bytes())
}
