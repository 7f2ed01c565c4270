//! Times taken by turns.

use std::iter::Sum;
use std::time::{Duration, Instant};

/// The shortest times of the two sides.
#[derive(Clone, Copy)]
pub struct Shortest {
    proved: Duration,
    rust: Duration,
}

impl Shortest {
    /// Has both sides worked so many times, in turn. Each says how long it took by itself, so that
    /// it can prepare what is not to be timed.
    pub fn of(
        repetitions: usize,
        mut proved: impl FnMut() -> Duration,
        mut rust: impl FnMut() -> Duration,
    ) -> Self {
        let mut shortest = Shortest { proved: Duration::MAX, rust: Duration::MAX };
        for _ in 0..repetitions {
            shortest.proved = shortest.proved.min(proved());
            shortest.rust = shortest.rust.min(rust());
        }
        shortest
    }

    /// A line of a table.
    pub fn row(&self, name: &str) -> String {
        self.row_a_part(name, 1)
    }

    /// A line of a table that has the time of one of so many parts.
    pub fn row_a_part(&self, name: &str, parts: usize) -> String {
        let micros = |time: Duration| time.as_secs_f64() * 1e6 / parts as f64;
        let (proved, rust) = (micros(self.proved), micros(self.rust));
        format!("{name:<56}{proved:>9.3} us{rust:>9.3} us{:>8.2}", proved / rust)
    }
}

impl Sum for Shortest {
    fn sum<I: Iterator<Item = Self>>(times: I) -> Self {
        let none = Shortest { proved: Duration::ZERO, rust: Duration::ZERO };
        times.fold(none, |all, one| Shortest {
            proved: all.proved + one.proved,
            rust: all.rust + one.rust,
        })
    }
}

/// The line over a table.
pub fn heading(what: &str) -> String {
    format!("{what:<56}{:>12}{:>12}{:>8}", "proved", "Rust", "ratio")
}

/// How long some work takes. What it gives is dropped after the time is taken.
pub fn once<T>(work: impl FnOnce() -> T) -> Duration {
    let start = Instant::now();
    let given = work();
    let time = start.elapsed();
    drop(given);
    time
}
