//! What `bars` prints for a book: what a picture of its spans must have, a bar for each of them.

use crate::book;
use crate::event::Side;
use crate::formula::History;
use crate::group::Group;
use crate::judge::Moment;
use crate::limits::STRIP_WORDS;
use crate::listing::first_line;
use crate::spans::Span;
use crate::wrong::{beginnings_by, spans_by, Reading};
use std::fmt::Write;

pub const USAGE: &str = "usage: bars < BOOK\n";

/// The whole output for a book; a refused one is one line.
pub fn bars(book: &[u8], reading: Reading) -> String {
    match book::read(book, STRIP_WORDS) {
        Ok(group) => list(&group, reading),
        Err(refusal) => format!("{refusal}\n"),
    }
}

fn list(group: &Group, reading: Reading) -> String {
    let mut out = format!("{}\n", first_line(group));
    let (models, sheets) = (group.strips(Side::Model), group.strips(Side::Sheet));
    let mut count = 0;
    for (model, model_strip) in models.iter().enumerate() {
        for (sheet, sheet_strip) in sheets.iter().enumerate() {
            let spans = spans_by(reading, model_strip, sheet_strip, group.closed);
            let moments = beginnings_by(reading, model_strip, sheet_strip, &spans);
            for (span, moment) in spans.iter().zip(moments) {
                let kind = kind(moment);
                let end = if span.last == group.closed { "open" } else { "ended" };
                writeln!(out, "{model} {sheet} {} {} {kind} {end}", span.first, span.last)
                    .expect("a string takes every line");
                count += 1;
            }
        }
    }
    writeln!(out, "bars {count}").expect("a string takes every line");
    out
}

/// The moment at each span's first tick, by the bracket that holds there; where both do, by add.
pub fn beginnings(history: &History, spans: &[Span]) -> Vec<Moment> {
    let (by_add, by_join) = history.moments();
    let moment_at = |tick| match history.place_of(tick)? {
        t if by_add[t] => Some(Moment::Add(tick)),
        t if by_join[t] => Some(Moment::Join(tick)),
        _ => None,
    };
    spans.iter().map(|span| moment_at(span.first).expect("a span begins at a moment")).collect()
}

fn kind(moment: Moment) -> &'static str {
    match moment {
        Moment::Add(_) => "add",
        Moment::Join(_) => "join",
    }
}
