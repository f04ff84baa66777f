//! What `spans` prints for its arguments and a book. ../docs/SPANS.md has it to the letter.

use crate::book;
use crate::event::Side;
use crate::group::Group;
use crate::limits::{ARGUMENT_DIGITS, STRIP_WORDS};
use crate::listing::first_line;
use crate::wrong::{spans_by, Reading};
use std::fmt::Write;
use std::ops::Range;

pub const USAGE: &str =
    "usage: spans [MODEL [SHEET]] < BOOK, with MODEL 0 to 63 and SHEET 0 to 255\n";

/// Whose spans are asked for: everybody's, a model's, or a pair's.
pub struct Asked {
    models: Range<u32>,
    sheets: Range<u32>,
}

impl Asked {
    /// None where an argument can't be taken, or there are too many.
    pub fn by<A: AsRef<[u8]>>(arguments: &[A]) -> Option<Asked> {
        if arguments.len() > 2 {
            return None;
        }
        let carriers = |place: usize, side: Side| match arguments.get(place) {
            None => Some(0..side.carriers()),
            Some(argument) => {
                number(argument.as_ref(), side.carriers()).map(|number| number..number + 1)
            }
        };
        Some(Asked { models: carriers(0, Side::Model)?, sheets: carriers(1, Side::Sheet)? })
    }
}

/// A decimal number below a limit: digits only, not too many of them.
pub fn number(argument: &[u8], limit: u32) -> Option<u32> {
    let digits = (1..=ARGUMENT_DIGITS).contains(&argument.len());
    if !digits || !argument.iter().all(u8::is_ascii_digit) {
        return None;
    }
    let number = argument.iter().fold(0, |sum: u128, digit| sum * 10 + u128::from(digit - b'0'));
    (number < u128::from(limit)).then_some(number as u32)
}

/// The whole output for a book; a refused one is one line.
pub fn spans_of_book(book: &[u8], asked: &Asked, reading: Reading) -> String {
    match book::read(book, STRIP_WORDS) {
        Ok(group) => list(&group, asked, reading),
        Err(refusal) => format!("{refusal}\n"),
    }
}

fn list(group: &Group, asked: &Asked, reading: Reading) -> String {
    let mut out = format!("{}\n", first_line(group));
    let (models, sheets) = (group.strips(Side::Model), group.strips(Side::Sheet));
    let mut count = 0;
    for model in asked.models.clone() {
        for sheet in asked.sheets.clone() {
            let (model_strip, sheet_strip) = (&models[model as usize], &sheets[sheet as usize]);
            for span in spans_by(reading, model_strip, sheet_strip, group.closed) {
                writeln!(out, "{model} {sheet} {} {}", span.first, span.last)
                    .expect("a string takes every line");
                count += 1;
            }
        }
    }
    writeln!(out, "spans {count}").expect("a string takes every line");
    out
}
