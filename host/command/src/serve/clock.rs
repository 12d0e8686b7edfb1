//! The machine's clock as the part's time.
use std::time::{Duration, Instant};

/// Ticks that pass with the machine's monotonic clock.
#[derive(Clone, Copy, Debug)]
pub struct Clock {
    start: Instant,
    /// How many ticks pass with each microsecond.
    speed: f64,
}

/// The nanoseconds of a microsecond.
const NANOSECONDS: f64 = 1_000.0;

impl Clock {
    /// A clock that starts now, with so many ticks for each microsecond.
    pub fn start(speed: f64) -> Clock {
        Clock {
            start: Instant::now(),
            speed,
        }
    }

    /// The ticks that have passed since it started.
    pub fn ticks(self) -> u64 {
        ticks(self.start.elapsed(), self.speed)
    }

    /// How long so many ticks take; the longest time there is if they take longer.
    pub fn time(self, ticks: u64) -> Duration {
        let seconds = ticks as f64 * NANOSECONDS / self.speed / 1e9;
        Duration::try_from_secs_f64(seconds).unwrap_or(Duration::MAX)
    }
}

/// The ticks of a time. A number that is too large becomes the largest.
fn ticks(time: Duration, speed: f64) -> u64 {
    (time.as_nanos() as f64 * speed / NANOSECONDS) as u64
}

#[cfg(test)]
mod tests {
    use super::*;

    #[test]
    fn a_tick_is_a_microsecond_at_speed_1() {
        let time = Duration::from_micros(50_000);
        assert_eq!([1.0, 10.0, 0.5].map(|speed| ticks(time, speed)), [50_000, 500_000, 25_000]);
        assert_eq!(ticks(Duration::from_nanos(1_999), 1.0), 1);
        assert_eq!(ticks(Duration::MAX, 1e6), u64::MAX);
        let clock = Clock::start(10.0);
        assert_eq!(clock.time(500_000), Duration::from_millis(50));
        assert_eq!(Clock::start(1e-6).time(u64::MAX), Duration::MAX);
        assert!(clock.ticks() < 10_000_000);
    }
}
