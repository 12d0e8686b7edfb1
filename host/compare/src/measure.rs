//! Measuring times: contenders in turn, the least time of each kept; and numbers for tables.
use std::process::Command;
use std::time::{Duration, Instant};

/// How often each contender is measured.
pub const ROUNDS: u32 = 15;

/// About how long one measurement takes.
pub const ROUND: Duration = Duration::from_millis(20);

/// Something that can be done over and over, and the least time it took.
pub struct Contender {
    /// Does it so many times.
    repeat: Box<dyn FnMut(u64)>,
    /// How many times make a round.
    times: u64,
    /// The fewest nanoseconds for one time so far.
    best: f64,
}

impl Contender {
    /// Warms up, and finds how many times make a round.
    #[must_use]
    pub fn new(mut repeat: Box<dyn FnMut(u64)>) -> Contender {
        let mut times = 1;
        loop {
            let start = Instant::now();
            repeat(times);
            let taken = start.elapsed();
            if taken >= ROUND / 4 {
                let wanted = times as f64 * ROUND.as_secs_f64() / taken.as_secs_f64();
                return Contender {
                    repeat,
                    times: (wanted as u64).max(1),
                    best: f64::INFINITY,
                };
            }
            times *= 2;
        }
    }

    /// One round; its nanoseconds for one time are kept if they are the fewest so far.
    pub fn measure(&mut self) {
        let start = Instant::now();
        (self.repeat)(self.times);
        let nanoseconds = start.elapsed().as_secs_f64() * 1e9 / self.times as f64;
        self.best = self.best.min(nanoseconds);
    }

    /// The fewest nanoseconds for one time.
    #[must_use]
    pub fn best(&self) -> f64 {
        self.best
    }
}

/// The processor's name, from the system's files or else from `lscpu`.
#[must_use]
pub fn processor() -> String {
    let listed = Command::new("lscpu").output().map(|told| told.stdout).unwrap_or_default();
    let known = std::fs::read_to_string("/proc/cpuinfo").unwrap_or_default() + &String::from_utf8_lossy(&listed);
    let name = known.lines().filter_map(|line| line.split_once(':'));
    let mut name = name.filter(|(key, _)| key.trim().eq_ignore_ascii_case("model name"));
    name.next()
        .map_or("an unnamed processor".to_string(), |(_, value)| value.trim().to_string())
}

/// A number with three digits that count, thousands set apart.
#[must_use]
pub fn short(number: f64) -> String {
    match number {
        number if number < 0.1 => format!("{number:.4}"),
        number if number < 1.0 => format!("{number:.3}"),
        number if number < 10.0 => format!("{number:.2}"),
        number if number < 100.0 => format!("{number:.1}"),
        number => grouped(&format!("{number:.0}")),
    }
}

/// Digits with a comma before every third from the end.
fn grouped(digits: &str) -> String {
    let mut text = String::new();
    for (place, digit) in digits.chars().enumerate() {
        if place > 0 && (digits.len() - place).is_multiple_of(3) {
            text.push(',');
        }
        text.push(digit);
    }
    text
}
