//! Long random series of calls, each given the record that the one before gave back.
//!
//! `COMPARE_FRAMES` asks for more frames than usual, `COMPARE_SEED` for the series of an earlier run, and `COMPARE_REPLAY` names a file
//! with a series to run again.
use compare::{both_sizes, replay, text, Call, Care, Generator, Random, Tally, Trial};
use oxterin::Size;
use std::env;

/// How many frames a usual run has, both sizes together.
const FRAMES: u64 = 1_000_000;

/// The least share of frames that begin an operation, in percent.
const LEAST_BEGUN: f64 = 15.0;

#[test]
fn long_random_series_agree() {
    for (size, tally) in both_sizes(FRAMES, many_series) {
        println!("{size:?}: {tally}");
        assert!(tally.gaps().is_empty(), "never seen: {:?}", tally.gaps());
        assert!(tally.share("begun") >= LEAST_BEGUN, "too few operations begin");
    }
}

#[test]
fn a_written_series_is_replayed() {
    let built_in = "06\n02 00 00 FE 11 22 33\n05 00*2 elapsed=1\n03 00 00 FE 00*3 elapsed=2000\n06 bits=9\n\
                    06\n20 00*3 ticks-per-byte=1000\n05 00*4 elapsed=49980 ticks-per-byte=8\n\
                    06 account=3\n20 00*3 account=3\n05 00*2 account=7 elapsed=9 ticks-per-byte=8\n06 account=256\n\
                    05 account=7 elapsed=60000 running=7,5 totals=7:9000000000000000000\n05 account=7\n"
        .to_string();
    let series = env::var("COMPARE_REPLAY").map_or(built_in, |path| std::fs::read_to_string(path).expect("the series can be read"));
    let calls = text::read(&series).unwrap_or_else(|wrong| panic!("{wrong}"));
    replay(&calls).unwrap_or_else(|mismatch| panic!("the sides differ {mismatch}"));
}

/// Series after series on one size of the array, until there are so many frames; or the series in which the sides differ.
fn many_series(seed: u64, size: Size, frames: u64) -> Result<Tally, Vec<Call>> {
    let mut random = Random::seeded(seed ^ size.bytes() as u64);
    let mut trial = Trial::new(Care::WhenDue);
    let mut tally = Tally::default();
    while tally.calls() < frames {
        let generator = Generator::new(Random::seeded(random.word()), size.bytes());
        let length = 300 + random.below(600);
        series(&mut trial, generator, length, &mut tally)?;
    }
    Ok(tally)
}

/// One series on fresh memories, which are compared whole in the end; or its calls if the sides differ.
fn series(trial: &mut Trial, mut generator: Generator, length: u64, tally: &mut Tally) -> Result<(), Vec<Call>> {
    let mut calls = Vec::new();
    for _ in 0..length {
        let last = *trial.record();
        let call = generator.call(&last);
        let outcome = trial.run(&call);
        calls.push(call);
        let Ok(reply) = outcome else {
            return Err(calls);
        };
        let call = &calls[calls.len() - 1];
        tally.note(&call.record.unwrap_or(last), call, &reply);
    }
    trial.reset().map_err(|_| calls)
}
