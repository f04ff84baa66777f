//! `spans`: a book on standard input, the spans of its grants on standard output.

use second::limits::BOOK_BYTES;
use second::spans_of_book::{spans_of_book, Asked, USAGE};
use second::wrong::reading_from_environment;
use std::io::{self, Read, Write};
use std::os::unix::ffi::OsStringExt;
use std::process::ExitCode;

fn main() -> ExitCode {
    match run() {
        Ok(()) => ExitCode::SUCCESS,
        Err(reason) => {
            eprintln!("spans: {reason}");
            ExitCode::from(2)
        }
    }
}

fn run() -> Result<(), String> {
    let reading = reading_from_environment()?;
    let arguments: Vec<Vec<u8>> = std::env::args_os().skip(1).map(OsStringExt::into_vec).collect();
    let said = match Asked::by(&arguments) {
        None => USAGE.to_string(),
        Some(asked) => spans_of_book(&book()?, &asked, reading),
    };
    let output = io::stdout().lock().write_all(said.as_bytes());
    output.map_err(|error| format!("can't print: {error}"))
}

fn book() -> Result<Vec<u8>, String> {
    let mut book = Vec::new();
    let input = io::stdin().lock().take(BOOK_BYTES as u64 + 1).read_to_end(&mut book);
    input.map_err(|error| format!("can't read the book: {error}"))?;
    Ok(book)
}
