//! The spans: the longest runs of ticks in which the grant held, by the judge's checks and one pass over
//! the ticks of two strips; of one pair into a lent list, and of a book's pairs as text.

use crate::book;
use crate::event::{EVENTS, LA, LJ, SA, SJ, SL, SR, TICKS};
use crate::group::Group;
use crate::judge::{check_good, Events, NO_KIND, NO_TICK};
use crate::listing::strips;
use crate::refusal::{refused, Refusal};
use std::io::Write;
use std::ops::Range;

/// A span's first and last tick.
type Span = [u32; 2];

/// Writes the spans up to tick `now` to the front of the list, two numbers each, and answers how many
/// there are.
pub fn spans(model: &[u32], sheet: &[u32], now: u32, list: &mut [u32]) -> Result<usize, Refusal> {
    if now > TICKS {
        return refused(10);
    }
    if model.len() > EVENTS {
        return refused(11);
    }
    if sheet.len() > EVENTS {
        return refused(12);
    }
    check_good(model, sheet, now)?;
    // The first span takes a join and an add, every other an end and a moment of its own: two numbers for
    // two events. So only a list shorter than both strips has to be counted for, by a pass of its own.
    let enough = list.len() >= model.len() + sheet.len();
    let (list, _) = list.as_chunks_mut();
    if !enough && pass::<false>(model, sheet, now, list) > list.len() {
        return refused(40);
    }
    Ok(pass::<true>(model, sheet, now, list))
}

/// Counts the spans of two good strips, and writes them to a list that has room. The judge's loop with other
/// ends: a loop for both made the judge a tenth slower. Not inlined, for the judge's reason.
#[inline(never)]
fn pass<const WRITE: bool>(model: &[u32], sheet: &[u32], now: u32, list: &mut [Span]) -> usize {
    let mut count = 0;
    let mut span = |first, last| {
        if WRITE {
            list[count] = [first, last];
        }
        count += 1;
    };
    let (mut models, mut sheets) = (Events::of(model), Events::of(sheet));
    let mut member = false;
    let mut liberal = false;
    let mut open = None;
    loop {
        let tick = models.tick.min(sheets.tick);
        if tick == NO_TICK {
            break;
        }
        let (model, sheet) = (models.take(tick), sheets.take(tick));
        match model {
            SJ | LJ => member = true,
            NO_KIND => {}
            _ => member = false,
        }
        match sheet {
            LA => liberal = true,
            SA | NO_KIND => {}
            _ => liberal = false,
        }
        match open {
            None => {
                if member && (sheet == SA || sheet == LA) || model == LJ && liberal {
                    open = Some(tick);
                }
            }
            Some(first) => {
                if model == SL || sheet == SR {
                    span(first, tick - 1);
                    open = None;
                }
            }
        }
    }
    if let Some(first) = open {
        span(first, now);
    }
    count
}

/// What the spans program prints for the bytes of a book, of these models and these sheets.
pub fn of_book(
    bytes: &[u8],
    models: Range<usize>,
    sheets: Range<usize>,
) -> std::io::Result<Vec<u8>> {
    let mut out = Vec::new();
    let mut list = [0; EVENTS];
    let mut group = Group::fresh(0);
    match book::read(bytes, &mut list, &mut group) {
        Ok(count) => print(&group, &list[..count], models, sheets, &mut out)?,
        Err(refusal) => writeln!(out, "{refusal}")?,
    }
    Ok(out)
}

/// The strips come out of a book that was read, so they are good and are not checked again; all of them
/// together have no more words than the book has records.
fn print(
    group: &Group,
    records: &[u32],
    models: Range<usize>,
    sheets: Range<usize>,
    out: &mut Vec<u8>,
) -> std::io::Result<()> {
    let (number, ticks) = (group.number, group.closed);
    writeln!(out, "group {number} ticks {ticks} records {}", records.len())?;
    let (model_strips, sheet_strips) = strips(records);
    let mut list = [Span::default(); EVENTS / 2];
    let mut spans = 0;
    for model in models {
        for sheet in sheets.clone() {
            let count = pass::<true>(&model_strips[model], &sheet_strips[sheet], ticks, &mut list);
            for &[first, last] in &list[..count] {
                put(model as u32, b' ', out);
                put(sheet as u32, b' ', out);
                put(first, b' ', out);
                put(last, b'\n', out);
            }
            spans += count;
        }
    }
    writeln!(out, "spans {spans}")
}

/// A number and what follows it. A full book has many spans: with `writeln!` the program would take half
/// as long again.
fn put(mut number: u32, end: u8, out: &mut Vec<u8>) {
    let mut digits = [end; 11];
    let mut at = digits.len() - 1;
    loop {
        at -= 1;
        digits[at] = b'0' + (number % 10) as u8;
        number /= 10;
        if number == 0 {
            break;
        }
    }
    out.extend_from_slice(&digits[at..]);
}
