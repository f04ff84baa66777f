//! The benchmark: the same work by the gate and by plain Rust in one run, as ratios. bench/run builds
//! and calls it:
//!
//!     bench GATE PLAIN FOLDER ROUNDS [NAME...]
//!
//! GATE and PLAIN are the folders of the programs, FOLDER is for the files that the programs read.

mod calls;
mod clock;
mod dice;
mod gate;
mod measure;
mod programs;
mod work;

use measure::{shown, Timing};
use std::path::PathBuf;

pub struct Setting {
    gate: PathBuf,
    plain: PathBuf,
    folder: PathBuf,
    rounds: usize,
}

impl Setting {
    /// A round of calls takes milliseconds, so there can be many.
    fn call_rounds(&self) -> usize {
        10 * self.rounds
    }
}

const BUFFERS: &str = "Buffers are warm: made before the first round, used again by every call and not \
                       cleared in between. Files are in the page cache; what programs print goes to \
                       /dev/null.";

type Row = fn(&Setting) -> Vec<Timing>;

const ROWS: [(&str, &str, Row); 15] = [
    ("judge-4096", "judge, strips of 4,096 words", calls::judge_4096),
    ("judge-even", "the same, ticks and kinds in a pattern", calls::judge_even),
    ("judge-8", "judge, strips of 8 words", calls::judge_8),
    ("spans-4096", "spans, strips of 4,096 words", calls::spans_4096),
    ("spans-even", "the same, ticks and kinds in a pattern", calls::spans_even),
    ("spans-8", "spans, strips of 8 words", calls::spans_8),
    ("book-0", "reading a book, T = 1,000,000, 0 records", calls::book_0),
    ("book-4096", "the same, 4,096 records", calls::book_4096),
    ("deliver-empty", "delivery from an empty store", calls::deliver_empty),
    ("deliver-small", "delivery of 256 sheets of 100 bytes", calls::deliver_small),
    ("deliver-large", "delivery of 20 sheets of 52,400 bytes", calls::deliver_large),
    ("start", "listing program, an empty file", programs::start),
    ("listing", "listing program, a full book", programs::listing),
    ("spans", "spans program, the same book", programs::spans),
    ("keeper", "keeper program, 1,000,000 commands", programs::keeper),
];

fn main() {
    let mut arguments = std::env::args().skip(1);
    let mut next = || arguments.next().expect("GATE PLAIN FOLDER ROUNDS [NAME...]");
    let [gate, plain, folder] = std::array::from_fn(|_| PathBuf::from(next()));
    let rounds = next().parse().ok().filter(|&rounds| rounds > 0).expect("a number of rounds");
    let setting = Setting { gate, plain, folder, rounds };
    let names: Vec<String> = arguments.collect();
    let rows = ROWS.iter().filter(|row| names.is_empty() || names.iter().any(|name| name == row.0));
    let timed: Vec<_> = rows
        .map(|(name, what, row)| {
            eprintln!("bench: {name}");
            (*name, *what, row(&setting))
        })
        .collect();
    print(&timed);
    println!(
        "\nProcessor time: medians, with quartiles, of {} rounds for a call and of {} for a program. \
         {BUFFERS}",
        setting.call_rounds(),
        setting.rounds,
    );
}

fn print(rows: &[(&str, &str, Vec<Timing>)]) {
    println!("| Row | Work | Gate | Plain Rust | Gate to plain Rust |");
    println!("|---|---|---|---|---|");
    for (name, what, timings) in rows {
        let [gate, plain] = [&timings[0], &timings[1]];
        println!("| `{name}` | {what} | {} | {} | {} |", cell(gate), cell(plain), gate.to(plain));
    }
    for (name, _, timings) in rows.iter().filter(|row| row.2.len() > 2) {
        println!("\n| `{name}` beside | Time | Gate to it |\n|---|---|---|");
        for timing in &timings[2..] {
            println!("| {} | {} | {} |", timing.name, cell(timing), timings[0].to(timing));
        }
    }
}

fn cell(timing: &Timing) -> String {
    let [low, median, high] = [1, 2, 3].map(|quarter| shown(timing.quarter(quarter)));
    format!("{median} ({low} .. {high})")
}
