//! `seen`: a book in a file, questions on standard input, their answers on standard output.

use second::files::{Disk, Files};
use second::limits::BOOK_BYTES;
use second::seen::{seen, USAGE};
use second::wrong::reading_from_environment;
use std::io::{self, BufWriter};
use std::os::unix::ffi::OsStringExt;
use std::process::ExitCode;

/// How it ends where it was asked wrongly or can't go on, and where the book can't be read.
const CANNOT_GO_ON: u8 = 2;
const CANNOT_READ_THE_BOOK: u8 = 3;

fn main() -> ExitCode {
    let arguments: Vec<Vec<u8>> = std::env::args_os().skip(1).map(OsStringExt::into_vec).collect();
    let [name] = &arguments[..] else {
        print!("{USAGE}");
        return ExitCode::from(CANNOT_GO_ON);
    };
    match run(name) {
        Ok(()) => ExitCode::SUCCESS,
        Err((status, reason)) => {
            eprintln!("seen: {reason}");
            ExitCode::from(status)
        }
    }
}

fn run(name: &[u8]) -> Result<(), (u8, String)> {
    let reading = reading_from_environment().map_err(|reason| (CANNOT_GO_ON, reason))?;
    let book = Disk.read(name, BOOK_BYTES + 1);
    let book = book.map_err(|_| (CANNOT_READ_THE_BOOK, "can't read the book".to_string()))?;
    let answered = seen(&book, reading, io::stdin().lock(), BufWriter::new(io::stdout().lock()));
    answered.map_err(|error| (CANNOT_GO_ON, format!("can't answer: {error}")))
}
