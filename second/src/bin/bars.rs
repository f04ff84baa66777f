//! `bars`: a book on standard input, what a picture of its spans must have on standard output.

use second::bars::{bars, USAGE};
use second::limits::BOOK_BYTES;
use second::wrong::reading_from_environment;
use std::io::{self, Read, Write};
use std::process::ExitCode;

fn main() -> ExitCode {
    match run() {
        Ok(()) => ExitCode::SUCCESS,
        Err(reason) => {
            eprintln!("bars: {reason}");
            ExitCode::from(2)
        }
    }
}

fn run() -> Result<(), String> {
    let reading = reading_from_environment()?;
    let said = match std::env::args_os().nth(1) {
        Some(_) => USAGE.to_string(),
        None => bars(&book()?, reading),
    };
    let output = io::stdout().lock().write_all(said.as_bytes());
    output.map_err(|error| format!("can't print: {error}"))
}

fn book() -> Result<Vec<u8>, String> {
    let mut book = Vec::new();
    let input = io::stdin().lock().take(BOOK_BYTES as u64 + 1).read_to_end(&mut book);
    input.map_err(|error| format!("can't read the book: {error}"))?;
    Ok(book)
}
