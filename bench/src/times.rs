//! Times of many runs.

use std::hint::black_box;
use std::time::{Duration, Instant};

pub struct Times {
    sorted: Vec<Duration>,
}

impl Times {
    /// Runs `work` once on each item and keeps each time and each result. All
    /// items are gone through once before, so that no run meets cold memory.
    pub fn of<Item, Result>(
        items: &[Item],
        mut work: impl FnMut(&Item) -> Result,
    ) -> (Self, Vec<Result>) {
        for item in items {
            black_box(work(black_box(item)));
        }
        let mut sorted = Vec::with_capacity(items.len());
        let mut results = Vec::with_capacity(items.len());
        for item in items {
            let begin = Instant::now();
            let result = black_box(work(black_box(item)));
            sorted.push(begin.elapsed());
            results.push(result);
        }
        sorted.sort_unstable();
        (Times { sorted }, results)
    }

    pub fn median(&self) -> Duration {
        self.sorted[self.sorted.len() / 2]
    }

    pub fn slowest(&self) -> Duration {
        self.sorted[self.sorted.len() - 1]
    }
}

/// Microseconds with one digit after the point.
pub fn micros(time: Duration) -> String {
    format!("{:.1} us", time.as_nanos() as f64 / 1_000.0)
}
