//! `listing`: a book on standard input, its grants on standard output.

use second::limits::BOOK_BYTES;
use second::listing::listing;
use second::wrong::reading_from_environment;
use std::io::{self, Read, Write};
use std::process::ExitCode;

const HELP: &str = "\
listing < BOOK
Reads an event book on standard input and prints who may read what, as judged at its
last closed tick: `group G ticks T records N`, then a line `MODEL SHEET add|join TICK` for
each grant by model then sheet, then `granted COUNT`. A book that isn't one gets a line
`refused R` or `refused R at PLACE`.
";

fn main() -> ExitCode {
    match std::env::args().nth(1).as_deref() {
        None => {}
        Some("--help") => {
            print!("{HELP}");
            return ExitCode::SUCCESS;
        }
        Some(other) => {
            eprintln!("listing: {other} is not known; listing --help says more");
            return ExitCode::from(2);
        }
    }
    match run() {
        Ok(()) => ExitCode::SUCCESS,
        Err(reason) => {
            eprintln!("listing: {reason}");
            ExitCode::from(2)
        }
    }
}

fn run() -> Result<(), String> {
    let reading = reading_from_environment()?;
    let mut book = Vec::new();
    let input = io::stdin().lock().take(BOOK_BYTES as u64 + 1).read_to_end(&mut book);
    input.map_err(|error| format!("can't read the book: {error}"))?;
    let output = io::stdout().lock().write_all(listing(&book, reading).as_bytes());
    output.map_err(|error| format!("can't print: {error}"))
}
