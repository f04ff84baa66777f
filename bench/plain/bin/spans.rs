//! The spans program in plain Rust.

use plain::book::LONGEST;
use plain::event::{MODELS, SHEETS};
use plain::spans::of_book;
use std::ffi::OsString;
use std::io::{self, Read, Write};
use std::ops::Range;

const MOST_DIGITS: usize = 20;

fn main() -> io::Result<()> {
    let arguments: Vec<OsString> = std::env::args_os().skip(1).collect();
    let Some((models, sheets)) = asked(&arguments) else {
        let (model, sheet) = (MODELS - 1, SHEETS - 1);
        println!(
            "usage: spans [MODEL [SHEET]] < BOOK, with MODEL 0 to {model} and SHEET 0 to {sheet}"
        );
        return Ok(());
    };
    let mut bytes = Vec::with_capacity(LONGEST + 1);
    io::stdin().take(LONGEST as u64 + 1).read_to_end(&mut bytes)?;
    io::stdout().write_all(&of_book(&bytes, models, sheets)?)
}

/// The models and the sheets that are asked for.
fn asked(arguments: &[OsString]) -> Option<(Range<usize>, Range<usize>)> {
    if arguments.len() > 2 {
        return None;
    }
    let mut arguments = arguments.iter();
    let mut next = |numbers| match arguments.next() {
        Some(argument) => one(argument.to_str()?, numbers),
        None => Some(0..numbers as usize),
    };
    Some((next(MODELS)?, next(SHEETS)?))
}

/// The one number that an argument names, if it is below `numbers`.
fn one(argument: &str, numbers: u32) -> Option<Range<usize>> {
    let good = argument.len() <= MOST_DIGITS && argument.bytes().all(|byte| byte.is_ascii_digit());
    let number: u128 = good.then(|| argument.parse().ok())??;
    (number < u128::from(numbers)).then(|| number as usize..number as usize + 1)
}
