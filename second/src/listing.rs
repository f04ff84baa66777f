//! What `listing` prints for a book.

use crate::book;
use crate::event::Side;
use crate::group::Group;
use crate::judge::{Moment, Verdict};
use crate::limits::STRIP_WORDS;
use crate::wrong::Reading;
use std::fmt::Write;

/// The whole output for a book; a refused one is one line.
pub fn listing(book: &[u8], reading: Reading) -> String {
    match book::read(book, STRIP_WORDS) {
        Ok(group) => list(&group.with_reading(reading)),
        Err(refusal) => format!("{refusal}\n"),
    }
}

fn list(group: &Group) -> String {
    let mut out = format!("{}\n", first_line(group));
    let (models, sheets) = (group.strips(Side::Model), group.strips(Side::Sheet));
    let mut granted = 0;
    for (model, model_strip) in models.iter().enumerate() {
        for (sheet, sheet_strip) in sheets.iter().enumerate() {
            let Verdict::Granted(moment) = group.verdict(model_strip, sheet_strip) else {
                continue;
            };
            let (name, tick) = match moment {
                Moment::Add(tick) => ("add", tick),
                Moment::Join(tick) => ("join", tick),
            };
            writeln!(out, "{model} {sheet} {name} {tick}").expect("a string takes every line");
            granted += 1;
        }
    }
    writeln!(out, "granted {granted}").expect("a string takes every line");
    out
}

/// `group G ticks T records N`, for a group as it came from a book.
pub fn first_line(group: &Group) -> String {
    format!("group {} ticks {} records {}", group.number, group.closed, group.events.len())
}
