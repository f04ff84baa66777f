//! Stands in for the gate's C library while compare is tried: the second program under the
//! gate's names. SECOND_WRONG_LIBRARY names the call that is to be wrong, in one way each; the
//! spans have further names, for the ways in which they may be misread, and the judge takes those
//! of the wrong readings.

use second::answers::{
    BookReadAnswer, BookWriteAnswer, DeliveryAnswer, GroupAnswer, Part, SpansAnswer, ValueAnswer,
};
use second::book;
use second::event::Event;
use second::formula::History;
use second::group::{self, Group};
use second::judge;
use second::record::GroupRecord;
use second::refusal::{self, Refusal};
use second::spans::{listed, spans, Span, SPAN_NUMBERS};
use second::wrong::{judge_bytes_by, reading_named};
use std::slice::{from_raw_parts, from_raw_parts_mut};
use std::sync::OnceLock;

fn named() -> &'static str {
    static NAMED: OnceLock<String> = OnceLock::new();
    NAMED.get_or_init(|| std::env::var("SECOND_WRONG_LIBRARY").unwrap_or_default())
}

fn wrong(call: &str) -> bool {
    named() == call
}

/// Wrong: the group of refusal 9 keeps the number that was asked for.
#[no_mangle]
pub extern "C" fn ferrulebee_fresh(number: u32) -> GroupAnswer {
    let (group, answer) = Group::fresh(number);
    let number = if wrong("fresh") { number } else { group.number };
    GroupAnswer::new(answer, GroupRecord::fresh(number))
}

/// Wrong: a sheet's second event in a tick gets 5 or 6 before 4.
#[no_mangle]
pub extern "C" fn ferrulebee_request(
    mut group: GroupRecord,
    kind: u32,
    number: u32,
) -> GroupAnswer {
    let mut answer = group.request(kind, number);
    if wrong("request") && kind > 3 && answer == Err(Refusal::plain(refusal::SECOND_IN_TICK)) {
        let unmarked = GroupRecord { sheet_marks: [[0; 4]; 4], ..group };
        answer = { unmarked }.request(kind, number).and(answer);
    }
    GroupAnswer::new(answer, group)
}

/// Wrong: a refused join is marked all the same.
///
/// # Safety
/// As the gate's own call asks; so for all calls below.
#[no_mangle]
pub unsafe extern "C" fn ferrulebee_request_at(
    group: *mut GroupRecord,
    kind: u32,
    number: u32,
) -> u32 {
    let code = GroupAnswer::new((*group).request(kind, number), *group).code;
    if wrong("request_at") && code == refusal::ALREADY_IN && kind < 2 {
        (*group).model_marks[kind as usize] |= 1 << number;
    }
    code
}

/// Wrong: whoever is in when the tick ends is granted what is in.
#[no_mangle]
pub extern "C" fn ferrulebee_close(mut group: GroupRecord) -> GroupAnswer {
    let answer = group.close();
    if wrong("close") && answer.is_ok() {
        let is_in = |sheet: usize| second::record::has(&group.added, sheet as u32);
        group.grants = std::array::from_fn(|sheet| if is_in(sheet) { group.members } else { 0 });
    }
    GroupAnswer::new(answer, group)
}

/// Wrong: sheet 255 is out of range.
#[no_mangle]
pub extern "C" fn ferrulebee_read(group: GroupRecord, model: u32, sheet: u32) -> ValueAnswer {
    let sheet = sheet.saturating_add(u32::from(wrong("read") && sheet == 255));
    ValueAnswer::from(group.read(model, sheet).map(u32::from))
}

/// Wrong: a model that has left is not counted.
#[no_mangle]
pub extern "C" fn ferrulebee_models(mut group: GroupRecord, sheet: u32) -> ValueAnswer {
    if wrong("models") {
        group.grants = group.grants.map(|grants| grants & group.members);
    }
    ValueAnswer::from(group.models(sheet))
}

/// Wrong: the last of sixteen positions is off by one.
#[no_mangle]
pub unsafe extern "C" fn ferrulebee_mask(
    list: *const GroupRecord,
    groups: usize,
    model: u32,
    sheet: u32,
) -> ValueAnswer {
    let mut mask = group::mask(from_raw_parts(list, groups), |group| group.read(model, sheet));
    if wrong("mask") {
        mask = mask.map(|mask| mask & 0x7fff | (mask & 0x8000) >> 1);
    }
    ValueAnswer::from(mask.map(u32::from))
}

/// Wrong: the word beyond the records doesn't stay, whether it is lent or not.
#[no_mangle]
pub unsafe extern "C" fn ferrulebee_book_read(
    book: *const u8,
    book_bytes: usize,
    list: *mut u32,
    list_words: usize,
) -> BookReadAnswer {
    let answer = book::read(from_raw_parts(book, book_bytes), list_words);
    if let Ok(group) = &answer {
        let mut words = group.book_words();
        words.extend(wrong("book_read").then_some(0));
        list.copy_from(words.as_ptr(), words.len());
    }
    BookReadAnswer::from(answer.map(|group| GroupRecord::of_history(&group)))
}

/// Wrong: a buffer that is a byte too short is taken, and the book's last byte left out.
#[no_mangle]
pub unsafe extern "C" fn ferrulebee_book_write(
    ticks: u32,
    number: u32,
    records: *const u32,
    count: usize,
    buffer: *mut u8,
    buffer_bytes: usize,
) -> BookWriteAnswer {
    let buffer = from_raw_parts_mut(buffer, buffer_bytes);
    let room = buffer.len() + usize::from(wrong("book_write"));
    let answer = book::write(ticks, number, from_raw_parts(records, count), room);
    if let Ok(book) = &answer {
        let length = book.len().min(buffer.len());
        buffer[..length].copy_from_slice(&book[..length]);
    }
    BookWriteAnswer::from(answer.map(|book| book.len()))
}

/// Wrong: every empty part is at the start.
#[no_mangle]
pub unsafe extern "C" fn ferrulebee_tick_part(
    records: *const u32,
    count: usize,
    tick: u32,
) -> Part {
    let records = from_raw_parts(records, count);
    let part = Part::of(book::records_of_tick(records, tick), [records, &[]]);
    if wrong("tick_part") && part.count == 0 {
        return Part { first: 0, ..part };
    }
    part
}

/// Wrong: a refused delivery leaves a byte.
#[no_mangle]
pub unsafe extern "C" fn ferrulebee_deliver(
    group: GroupRecord,
    model: u32,
    store: *const u8,
    store_bytes: usize,
    out: *mut u8,
    out_bytes: usize,
) -> DeliveryAnswer {
    let (store, out) = (from_raw_parts(store, store_bytes), from_raw_parts_mut(out, out_bytes));
    let answer = group.deliver(model, store, out.len() as u64);
    match &answer {
        Ok(delivery) => out[..delivery.len()].copy_from_slice(delivery),
        Err(_) if wrong("deliver") && !out.is_empty() => out[0] = 0,
        Err(_) => (),
    }
    DeliveryAnswer::from(answer.map(|delivery| delivery.len()))
}

/// Wrong: a moment by join is a tick early when it isn't the model's first record; or whatever the
/// reading that is named has wrong.
#[no_mangle]
pub unsafe extern "C" fn judge(
    model: *const u8,
    model_bytes: usize,
    sheet: *const u8,
    sheet_bytes: usize,
    now: u32,
) -> u64 {
    let (model, sheet) = (from_raw_parts(model, model_bytes), from_raw_parts(sheet, sheet_bytes));
    let packed = judge_bytes_by(reading_named(named()).unwrap_or_default(), model, sheet, now);
    packed - u64::from(wrong("judge") && packed >> 32 == 102 && model.len() > 4)
}

/// Wrong: only the record of the moment, where others follow it.
#[no_mangle]
pub unsafe extern "C" fn ferrulebee_evidence(
    model: *const u32,
    model_words: usize,
    sheet: *const u32,
    sheet_words: usize,
    now: u32,
) -> Part {
    let (model, sheet) = (from_raw_parts(model, model_words), from_raw_parts(sheet, sheet_words));
    let part = Part::of(judge::evidence(model, sheet, now), [model, sheet]);
    let most = if wrong("evidence") { 1 } else { usize::MAX };
    Part { count: part.count.min(most), ..part }
}

/// Wrong: where not all pairs fit, those that do are written.
#[no_mangle]
pub unsafe extern "C" fn ferrulebee_spans(
    model: *const u32,
    model_words: usize,
    sheet: *const u32,
    sheet_words: usize,
    now: u32,
    list: *mut u32,
    list_words: usize,
) -> SpansAnswer {
    let (model, sheet) = (from_raw_parts(model, model_words), from_raw_parts(sheet, sheet_words));
    let list = from_raw_parts_mut(list, list_words);
    let found = spans(model, sheet, now).map(|spans| misread(spans, model, sheet, now));
    let answer =
        found.as_ref().map_err(|refusal| *refusal).and_then(|spans| listed(spans, list.len()));
    let written = match (&answer, &found) {
        (Ok(numbers), _) => numbers.clone(),
        (Err(_), Ok(spans)) if wrong("spans") => {
            listed(&spans[..list.len() / SPAN_NUMBERS], list.len()).unwrap_or_default()
        }
        _ => Vec::new(),
    };
    list[..written.len()].copy_from_slice(&written);
    SpansAnswer::from(answer.map(|numbers| numbers.len() / SPAN_NUMBERS))
}

/// The spans by one of the readings that look right and aren't.
fn misread(mut spans: Vec<Span>, model: &[u32], sheet: &[u32], now: u32) -> Vec<Span> {
    let (model, sheet) = (judge::events(model), judge::events(sheet));
    let history = History::of_event_ticks(&model, &sheet);
    if wrong("spans-gap") {
        // Two spans with one tick between them are one.
        spans = merged(spans, 2);
    }
    if wrong("spans-moment") {
        // Each moment begins a span.
        let moments = (0..history.ticks.len()).filter(|&t| history.moment(t));
        moments.for_each(|t| split(&mut spans, history.ticks[t].tick));
    }
    if wrong("spans-last") {
        spans.pop();
    }
    for span in &mut spans {
        let joins = model.iter().filter(|event| event.kind.enters() && event.tick <= span.first);
        if wrong("spans-strict") && span.last < now {
            // The tick of the strict event is still within.
            span.last += 1;
        }
        if wrong("spans-open") && span.last == now {
            // The last event's tick is the end.
            span.last = history.ticks.last().map_or(now, |happening| happening.tick);
        }
        if wrong("spans-join") {
            // It begins when the model joined, though the add came later.
            span.first = joins.map(|join: &Event| join.tick).max().unwrap_or(span.first);
        }
    }
    spans
}

/// The spans with those made one that begin so few ticks after another's end.
fn merged(spans: Vec<Span>, within: u32) -> Vec<Span> {
    let mut all: Vec<Span> = Vec::new();
    for span in spans {
        match all.last_mut() {
            Some(before) if span.first <= before.last + within => before.last = span.last,
            _ => all.push(span),
        }
    }
    all
}

/// The span that a tick lies in becomes two, the second from that tick on.
fn split(spans: &mut Vec<Span>, tick: u32) {
    if let Some(place) = spans.iter().position(|span| span.first < tick && tick <= span.last) {
        let second = Span { first: tick, last: spans[place].last };
        spans[place].last = tick - 1;
        spans.insert(place + 1, second);
    }
}
