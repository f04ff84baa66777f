//! Rounds of timed work, and what is said of them.

use crate::clock::spent;
use std::time::Duration;

/// One way of doing a row's work.
pub struct Side<'a> {
    pub name: &'static str,
    pub work: Box<dyn FnMut() + 'a>,
}

pub struct Timing {
    pub name: &'static str,
    /// Seconds a call, one a round, rising.
    seconds: Vec<f64>,
}

/// At least this long is one sample: long beside what asking for the time takes.
const SAMPLE: Duration = Duration::from_millis(2);

/// In every round each side takes its turn, so that what disturbs the machine disturbs all.
pub fn measure(rounds: usize, sides: &mut [Side]) -> Vec<Timing> {
    let calls: Vec<u32> = sides.iter_mut().map(|side| calls_in_a_sample(&mut side.work)).collect();
    let mut timings: Vec<Timing> =
        sides.iter().map(|side| Timing { name: side.name, seconds: Vec::new() }).collect();
    for _ in 0..rounds {
        for ((side, &calls), timing) in sides.iter_mut().zip(&calls).zip(&mut timings) {
            timing.seconds.push(time(&mut side.work, calls).as_secs_f64() / f64::from(calls));
        }
    }
    for timing in &mut timings {
        timing.seconds.sort_by(f64::total_cmp);
    }
    timings
}

fn calls_in_a_sample(work: &mut impl FnMut()) -> u32 {
    let mut calls = 1;
    while time(work, calls) < SAMPLE {
        calls *= 2;
    }
    calls
}

fn time(work: &mut impl FnMut(), calls: u32) -> Duration {
    let start = spent();
    for _ in 0..calls {
        work();
    }
    spent() - start
}

impl Timing {
    /// The second at this quarter of the rounds; 2 is the median.
    pub fn quarter(&self, quarter: usize) -> f64 {
        self.seconds[(self.seconds.len() - 1) * quarter / 4]
    }

    /// The ratio of the medians.
    pub fn to(&self, other: &Timing) -> String {
        format!("{:.2}", self.quarter(2) / other.quarter(2))
    }
}

/// Three digits and a unit.
pub fn shown(seconds: f64) -> String {
    let (value, unit) = match seconds {
        s if s < 1e-6 => (s * 1e9, "ns"),
        s if s < 1e-3 => (s * 1e6, "µs"),
        s if s < 1.0 => (s * 1e3, "ms"),
        s => (s, "s"),
    };
    let digits = 2 - value.log10().floor().clamp(0.0, 2.0) as usize;
    format!("{value:.digits$} {unit}")
}
