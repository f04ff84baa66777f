//! A run of calls on the gate's C library, each answer and each byte lent compared with what
//! the second program makes of the same run.
//!
//! A line of such a case is a call by its name in the header and its numbers: the group's
//! position, the file's number, what the call itself takes. Where room is lent, the last
//! number says how much more than is needed: `-1` is one too short, also of a case made small.

pub mod author;
mod lending;
pub mod met;
mod numbers;
pub mod station;

use crate::case::Case;
use crate::differ::Difference;
use crate::gate::{notice, Library, LIBRARY};
use lending::{same_lent, Lent};
use met::{judge_sort, sort, Met};
use numbers::{same, Code, Judged};
use second::answers::{
    BookReadAnswer, BookWriteAnswer, DeliveryAnswer, Part, SpansAnswer, ValueAnswer,
};
use second::book;
use second::group::{mask, Group};
use second::judge::{bytes, evidence, judge, judge_bytes, words, Moment, Verdict};
use second::limits::{BOOK_HEADER, BOOK_RECORDS, DELIVERY_HEADER, WORD_BYTES};
use second::record::GroupRecord;
use second::refusal::{self, Refusal};
use second::spans::{listed, spans, tied, Span, SPAN_NUMBERS};
use station::{Held, Station};
use std::io;

/// The sort of answer that was met, or how the gate's differs.
type Compared = Result<String, Difference>;

/// How the gate's library differs on a case; None when it agrees.
pub fn difference(case: &Case, met: &mut Met) -> io::Result<Option<Difference>> {
    let library = LIBRARY.ok_or_else(|| io::Error::other(notice()))?;
    let mut calls = Calls { case, library, station: Station::default() };
    for line in &case.lines {
        let text = String::from_utf8_lossy(&line.text);
        let no_call = || io::Error::other(format!("`{text}` is no call of the library"));
        match calls.call(&text).ok_or_else(no_call)? {
            Ok(sort) => met.add(sort),
            Err(Difference { said, sort }) => {
                return Ok(Some(Difference { said: format!("`{text}`: {said}"), sort }));
            }
        }
    }
    Ok(None)
}

struct Calls<'a> {
    case: &'a Case,
    library: &'a Library,
    station: Station,
}

impl<'a> Calls<'a> {
    fn call(&mut self, line: &str) -> Option<Compared> {
        let mut words = line.split(' ');
        let name = words.next()?;
        let number = |word: &str| word.parse::<i64>().ok().map(|number| number as u32);
        let numbers: Vec<u32> = words.map(number).collect::<Option<_>>()?;
        Some(match (name, numbers.as_slice()) {
            ("fresh", &[at, number]) => self.fresh(at, number),
            ("lend", &[at, file]) => self.lend(at, file),
            ("request", &[at, kind, number]) => self.request(at, kind, number),
            ("close", &[at]) => self.close(at),
            ("read", &[at, model, sheet]) => self.read(at, model, sheet),
            ("models", &[at, sheet]) => self.models(at, sheet),
            ("mask", &[groups, model, sheet]) => self.mask(groups, model, sheet),
            ("book_read", &[at, file, more]) => self.book_read(at, file, more),
            ("book_write", &[file, ticks, number, more]) => {
                self.book_write(file, ticks, number, more)
            }
            ("tick_part", &[file, tick]) => self.tick_part(file, tick),
            ("deliver", &[at, model, file, more]) => self.deliver(at, model, file, more),
            ("judge", &[file, now]) => self.judge(file, now),
            ("evidence", &[file, now]) => self.evidence(file, now),
            ("spans", &[file, now, more]) => self.spans(file, now, more),
            _ => return None,
        })
    }

    fn file(&self, kind: &str, number: u32) -> &'a [u8] {
        self.case.file(format!("{kind}{number}").as_bytes())
    }

    fn fresh(&mut self, at: u32, number: u32) -> Compared {
        let expected = self.station.fresh(at, number);
        same(&expected, &self.library.fresh(number))?;
        Ok(sort("fresh", expected.code, "group"))
    }

    /// No call: a group of any contents takes the position.
    fn lend(&mut self, at: u32, file: u32) -> Compared {
        let record = record_of(self.file("group", file));
        self.station.put(at, Held::lent(record));
        Ok(sort("lent", 0, "group"))
    }

    /// By value, and on a group lent and marked where it stands.
    fn request(&mut self, at: u32, kind: u32, number: u32) -> Compared {
        let held = self.station.at(at);
        let before = held.record;
        let expected = held.request(kind, number);
        same(&expected, &self.library.request(before, kind, number))?;
        let (mut lent, marked) = (Lent::new(&[before]), Lent::new(&[expected.group]));
        let code = self.library.request_at(&mut lent.slice_mut()[0], kind, number);
        same(&Code(expected.code), &Code(code))?;
        same_lent("the lent group", &marked, &lent)?;
        Ok(held.sort("request", expected.code, "taken"))
    }

    fn close(&mut self, at: u32) -> Compared {
        let held = self.station.at(at);
        let before = held.record;
        let expected = held.close();
        same(&expected, &self.library.close(before))?;
        Ok(held.sort("close", expected.code, "closed"))
    }

    fn read(&mut self, at: u32, model: u32, sheet: u32) -> Compared {
        let held = self.station.at(at);
        let expected = ValueAnswer::from(held.record.read(model, sheet).map(u32::from));
        same(&expected, &self.library.read(held.record, model, sheet))?;
        let granted = if expected.value == 1 { "granted" } else { "denied" };
        Ok(held.sort("read", expected.code, granted))
    }

    fn models(&mut self, at: u32, sheet: u32) -> Compared {
        let held = self.station.at(at);
        let expected = ValueAnswer::from(held.record.models(sheet));
        same(&expected, &self.library.models(held.record, sheet))?;
        Ok(held.sort("models", expected.code, some(expected.value)))
    }

    /// Over the groups of the first positions, side by side.
    fn mask(&mut self, groups: u32, model: u32, sheet: u32) -> Compared {
        let list: Vec<GroupRecord> = (0..groups).map(|at| self.station.at(at).record).collect();
        let expected =
            ValueAnswer::from(mask(&list, |group| group.read(model, sheet)).map(u32::from));
        let lent = Lent::new(&list);
        same(&expected, &self.library.mask(lent.slice(), model, sheet))?;
        lent.stays("the list", &list)?;
        Ok(sort("mask", expected.code, some(expected.value)))
    }

    /// An accepted book is written again, and comes out as it was.
    fn book_read(&mut self, at: u32, file: u32, more: u32) -> Compared {
        let book = self.file("book", file);
        let count = words(book).get(2).map_or(0, |&count| count.min(BOOK_RECORDS));
        let answer = self.read_book(book, room(count as usize, more))?;
        let sort = sort("book_read", code(&answer), "group");
        if let Ok(group) = answer.as_ref().map(Held::group) {
            let records = group.book_words();
            let again = self.write_book(&records, group.closed, group.number, book.len())?;
            assert_eq!(again.as_deref(), Ok(book), "the second program's own writer");
        }
        self.station.put(at, answer.unwrap_or_else(|_| Held::of_history(Group::default())));
        Ok(sort)
    }

    fn read_book(&self, book: &[u8], room: usize) -> Result<Result<Held, Refusal>, Difference> {
        let answer = book::read(book, room).map(Held::of_history);
        let records = answer.as_ref().map_or(Vec::new(), |held| held.group().book_words());
        let expected = answer.as_ref().map(|held| held.record).map_err(|refusal| *refusal);
        let lent_book = Lent::new(book);
        let mut list = Lent::room(room);
        let got = self.library.book_read(lent_book.slice(), list.slice_mut());
        same(&BookReadAnswer::from(expected), &got)?;
        same_lent("the word list", &Lent::room(room).with_front(&records), &list)?;
        lent_book.stays("the book", book)?;
        Ok(answer)
    }

    /// A book that was written is read again, and has the same records.
    fn book_write(&mut self, file: u32, ticks: u32, number: u32, more: u32) -> Compared {
        let records = words(self.file("words", file));
        let room = room(BOOK_HEADER + WORD_BYTES * records.len(), more);
        let answer = self.write_book(&records, ticks, number, room)?;
        if let Ok(book) = &answer {
            let again = self.read_book(book, records.len())?.map(|held| held.group().book_words());
            assert_eq!(again, Ok(records), "the second program's own reader");
        }
        Ok(sort("book_write", code(&answer), "book"))
    }

    fn write_book(
        &self,
        records: &[u32],
        ticks: u32,
        number: u32,
        room: usize,
    ) -> Result<Result<Vec<u8>, Refusal>, Difference> {
        let answer = book::write(ticks, number, records, room);
        let book = answer.as_deref().unwrap_or(&[]);
        let expected = answer.as_ref().map(Vec::len).map_err(|refusal| *refusal);
        let lent_records = Lent::new(records);
        let mut buffer = Lent::room(room);
        let got = self.library.book_write(ticks, number, lent_records.slice(), buffer.slice_mut());
        same(&BookWriteAnswer::from(expected), &got)?;
        same_lent("the buffer", &Lent::room(room).with_front(book), &buffer)?;
        lent_records.stays("the records", records)?;
        Ok(answer)
    }

    fn tick_part(&mut self, file: u32, tick: u32) -> Compared {
        let records = words(self.file("words", file));
        let expected = Part::of(book::records_of_tick(&records, tick), [&records, &[]]);
        let lent = Lent::new(&records);
        same(&expected, &self.library.tick_part(lent.slice(), tick))?;
        lent.stays("the records", &records)?;
        let rises = records.is_sorted_by(|word, next| word < next);
        let kind = match (expected.count, expected.first) {
            _ if !rises => "not rising",
            (0, 0) => "empty at the start",
            (0, first) if first == records.len() => "empty at the end",
            (0, _) => "empty between",
            _ => "records",
        };
        Ok(sort("tick_part", 0, kind))
    }

    fn deliver(&mut self, at: u32, model: u32, file: u32, more: u32) -> Compared {
        let store = self.file("store", file);
        let held = self.station.at(at);
        let whole = held.record.deliver(model, store, u64::MAX);
        let room = room(whole.map_or(DELIVERY_HEADER as usize, |delivery| delivery.len()), more);
        let answer = held.record.deliver(model, store, room as u64);
        let delivery = answer.as_deref().unwrap_or(&[]);
        let expected = answer.as_ref().map(Vec::len).map_err(|refusal| *refusal);
        let (lent_store, mut out) = (Lent::new(store), Lent::room(room));
        let got = self.library.deliver(held.record, model, lent_store.slice(), out.slice_mut());
        same(&DeliveryAnswer::from(expected), &got)?;
        same_lent("the buffer", &Lent::room(room).with_front(delivery), &out)?;
        lent_store.stays("the store", store)?;
        let sheets = words(delivery).first().copied().unwrap_or(0);
        Ok(held.sort("deliver", code(&answer), some(sheets)))
    }

    fn judge(&mut self, file: u32, now: u32) -> Compared {
        let (model, sheet) = (self.file("model", file), self.file("sheet", file));
        let expected = Judged(judge_bytes(model, sheet, now));
        let (lent_model, lent_sheet) = (Lent::new(model), Lent::new(sheet));
        let got = self.library.judge(lent_model.slice(), lent_sheet.slice(), now);
        same(&expected, &Judged(got))?;
        lent_model.stays("the model's strip", model)?;
        lent_sheet.stays("the sheet's strip", sheet)?;
        Ok(judge_sort(expected.0))
    }

    fn evidence(&mut self, file: u32, now: u32) -> Compared {
        let (model, sheet) = (words(self.file("model", file)), words(self.file("sheet", file)));
        let expected = Part::of(evidence(&model, &sheet, now), [&model, &sheet]);
        let (lent_model, lent_sheet) = (Lent::new(&model), Lent::new(&sheet));
        let got = self.library.evidence(lent_model.slice(), lent_sheet.slice(), now);
        same(&expected, &got)?;
        lent_model.stays("the model's strip", &model)?;
        lent_sheet.stays("the sheet's strip", &sheet)?;
        let kind = match judge(&model, &sheet, now) {
            Err(_) => "refused",
            Ok(Verdict::Denied(_)) => "denied",
            Ok(Verdict::Granted(Moment::Add(_))) => "of the sheet",
            Ok(Verdict::Granted(Moment::Join(_))) => "of the model",
        };
        Ok(sort("evidence", 0, kind))
    }

    fn spans(&mut self, file: u32, now: u32, more: u32) -> Compared {
        let (model, sheet) = (words(self.file("model", file)), words(self.file("sheet", file)));
        let found = spans(&model, &sheet, now);
        let needed = found.as_ref().map_or(0, |spans| SPAN_NUMBERS * spans.len());
        let code = same_spans(self.library, &model, &sheet, now, &found, room(needed, more))?;
        let kind = match needed / SPAN_NUMBERS {
            0 => "none",
            1 => "one",
            _ => "many",
        };
        Ok(sort("spans", code, kind))
    }
}

/// The library's spans of two strips, whose spans are known, for a list with so much room; the
/// code of the answer. Where it tells them, its judge has to go with them.
pub fn same_spans(
    library: &Library,
    model: &[u32],
    sheet: &[u32],
    now: u32,
    found: &Result<Vec<Span>, Refusal>,
    room: usize,
) -> Result<u32, Difference> {
    let answer = found.as_ref().map_err(|refusal| *refusal).and_then(|spans| listed(spans, room));
    let numbers = answer.as_deref().unwrap_or(&[]);
    let count = answer.as_ref().map(|numbers| numbers.len() / SPAN_NUMBERS);
    let expected = SpansAnswer::from(count.map_err(|refusal| *refusal));
    let (lent_model, lent_sheet) = (Lent::new(model), Lent::new(sheet));
    let mut list = Lent::room(room);
    let got = library.spans(lent_model.slice(), lent_sheet.slice(), now, list.slice_mut());
    same(&expected, &got)?;
    same_lent("the list", &Lent::room(room).with_front(numbers), &list)?;
    lent_model.stays("the model's strip", model)?;
    lent_sheet.stays("the sheet's strip", sheet)?;
    if expected.code != refusal::SPAN_LIST {
        goes_with(found, library.judge(&bytes(model), &bytes(sheet), now), now)?;
    }
    Ok(expected.code)
}

/// The gate's judge against the gate's spans, which have been found to be these.
fn goes_with(spans: &Result<Vec<Span>, Refusal>, judged: u64, now: u32) -> Result<(), Difference> {
    if tied(judged, spans, now) {
        return Ok(());
    }
    let spans = match spans.as_ref().map(|spans| spans.last()) {
        Err(refusal) => format!("the spans are {refusal}"),
        Ok(None) => "there is no span".to_string(),
        Ok(Some(span)) => format!("the last span is {} to {}", span.first, span.last),
    };
    let (code, value) = (judged >> 32, judged as u32);
    let said = format!("{spans}, and the judge answers code {code} value {value}");
    Err(Difference { said, sort: "tie".to_string() })
}

fn code<T>(answer: &Result<T, Refusal>) -> u32 {
    answer.as_ref().map_or_else(|refusal| refusal.number, |_| 0)
}

/// So much more than is needed, or less.
fn room(needed: usize, more: u32) -> usize {
    needed.saturating_add_signed(more as i32 as isize)
}

fn some(count: u32) -> &'static str {
    if count > 0 {
        "some"
    } else {
        "none"
    }
}

/// A group of any contents, from a file; what the file lacks is zero.
fn record_of(bytes: &[u8]) -> GroupRecord {
    let word = |bytes: &[u8]| {
        let mut word = [0; 8];
        word[..bytes.len()].copy_from_slice(bytes);
        u64::from_le_bytes(word)
    };
    GroupRecord::from_words(bytes.chunks(8).map(word))
}
