//! A line on standard error every few seconds, for anything slow.

use std::time::{Duration, Instant};

const BETWEEN_LINES: Duration = Duration::from_secs(5);

pub struct Progress {
    what: String,
    total: u64,
    start: Instant,
    last: Instant,
}

impl Progress {
    pub fn new(what: &str, total: u64) -> Progress {
        let now = Instant::now();
        Progress { what: what.to_string(), total, start: now, last: now }
    }

    pub fn show(&mut self, done: u64) {
        if self.last.elapsed() >= BETWEEN_LINES {
            self.last = Instant::now();
            let seconds = self.start.elapsed().as_secs();
            eprintln!("{}: {done} of {} after {seconds} s", self.what, self.total);
        }
    }

    pub fn seconds(&self) -> f64 {
        self.start.elapsed().as_secs_f64()
    }
}
