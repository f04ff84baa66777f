//! Makes a failing case small: drops lines, files, records and bytes while it still fails.

use crate::books::set_word;
use crate::case::Case;
use crate::stores::{entries_end, entry_of, set_entry};
use second::event::Event;
use second::judge::words;
use second::limits::{BOOK_HEADER, STORE_ENTRY, STORE_HEADER, WORD_BYTES};
use std::collections::BTreeSet;
use std::time::{Duration, Instant};

const LONGEST: Duration = Duration::from_secs(60);
const MOST_TRIES: u32 = 6_000;

pub struct Shrinker<'a> {
    fails: &'a dyn Fn(&Case) -> bool,
    start: Instant,
    tries: u32,
}

/// The smallest failing case found within a minute.
pub fn shrink(case: &Case, fails: &dyn Fn(&Case) -> bool) -> Case {
    let mut shrinker = Shrinker { fails, start: Instant::now(), tries: 0 };
    let mut small = case.clone();
    loop {
        let before = small.size();
        shrinker.drop_lines(&mut small);
        shrinker.drop_files(&mut small);
        for name in file_names(&small) {
            if is_store(&name) {
                shrinker.empty_entries(&mut small, &name);
                shrinker.take_off_the_end(&mut small, &name, sheets_in, drop_last_entries);
            } else {
                if is_book(&name) {
                    shrinker.drop_carriers(&mut small, &name);
                }
                shrinker.drop_records(&mut small, &name);
            }
            shrinker.take_off_the_end(&mut small, &name, <[u8]>::len, cut_end);
        }
        for file in 0..small.files.len() {
            shrinker.clear(&mut small, file);
        }
        if small.size() >= before || shrinker.used_up() {
            return small;
        }
    }
}

impl Shrinker<'_> {
    fn used_up(&self) -> bool {
        self.tries >= MOST_TRIES || self.start.elapsed() > LONGEST
    }

    /// Takes the change when the case still fails with it.
    fn attempt(&mut self, case: &mut Case, change: impl FnOnce(&mut Case)) -> bool {
        if self.used_up() {
            return false;
        }
        self.tries += 1;
        let mut changed = case.clone();
        change(&mut changed);
        let still_fails = (self.fails)(&changed);
        if still_fails {
            *case = changed;
        }
        still_fails
    }

    /// Tries a change on every part of a list, from the end: halves, quarters, down to one.
    /// `change` takes out the items from a place on; a change that is taken shortens the list.
    fn by_parts(
        &mut self,
        case: &mut Case,
        length: impl Fn(&Case) -> usize,
        change: impl Fn(&mut Case, usize, usize),
    ) {
        let mut part = length(case).div_ceil(2);
        while part > 0 && !self.used_up() {
            let mut end = length(case);
            while end > 0 {
                let start = end.saturating_sub(part);
                self.attempt(case, |case| change(case, start, end));
                end = start;
            }
            part = if part == 1 { 0 } else { part.div_ceil(2) };
        }
    }

    fn drop_lines(&mut self, case: &mut Case) {
        self.by_parts(
            case,
            |case| case.lines.len(),
            |case, start, end| drop(case.lines.drain(start..end)),
        );
    }

    fn drop_files(&mut self, case: &mut Case) {
        self.by_parts(
            case,
            |case| case.files.len(),
            |case, start, end| drop(case.files.drain(start..end)),
        );
    }

    /// Takes records out of a book, or words out of a strip, with the header put right.
    fn drop_records(&mut self, case: &mut Case, name: &[u8]) {
        let header = if is_book(name) { BOOK_HEADER } else { 0 };
        let records = |case: &Case| case.file(name).len().saturating_sub(header) / WORD_BYTES;
        self.by_parts(case, records, |case, start, end| {
            for bytes in files_named(case, name) {
                if bytes.len() < header + WORD_BYTES * end {
                    continue;
                }
                bytes.drain(header + WORD_BYTES * start..header + WORD_BYTES * end);
                if header > 0 {
                    count_off(bytes, (end - start) as u32);
                }
            }
        });
    }

    /// Takes all records of some carriers out of a book, which stays as well-formed as it was.
    fn drop_carriers(&mut self, case: &mut Case, name: &[u8]) {
        let carriers = |case: &Case| carriers_in(case.file(name)).len();
        self.by_parts(case, carriers, |case, start, end| {
            for bytes in files_named(case, name) {
                let gone: BTreeSet<u32> =
                    carriers_in(bytes).into_iter().take(end).skip(start).collect();
                let records = words(bytes.get(BOOK_HEADER..).unwrap_or(&[]));
                let kept: Vec<&u32> =
                    records.iter().filter(|&&word| !gone.contains(&carrier_of(word))).collect();
                bytes.truncate(BOOK_HEADER);
                bytes.extend(kept.iter().flat_map(|word| word.to_le_bytes()));
                count_off(bytes, (records.len() - kept.len()) as u32);
            }
        });
    }

    /// Makes entries of a store good and empty, all that may be.
    fn empty_entries(&mut self, case: &mut Case, name: &[u8]) {
        let entries = |case: &Case| sheets_in(case.file(name));
        self.by_parts(case, entries, |case, start, end| {
            for bytes in files_named(case, name) {
                let offset = entries_end(sheets_in(bytes) as u32);
                (start..end).for_each(|sheet| set_entry(bytes, sheet as u32, (offset, 0)));
            }
        });
    }

    /// Takes parts off a file's end, as large as may be.
    fn take_off_the_end(
        &mut self,
        case: &mut Case,
        name: &[u8],
        length: fn(&[u8]) -> usize,
        take: fn(&mut Vec<u8>, usize),
    ) {
        let mut part = length(case.file(name));
        while part > 0 && !self.used_up() {
            let fits = length(case.file(name)) >= part;
            let taken = fits
                && self.attempt(case, |case| {
                    files_named(case, name).for_each(|bytes| take(bytes, part));
                });
            if !taken {
                part /= 2;
            }
        }
    }

    /// Sets bytes to zero, where they aren't.
    fn clear(&mut self, case: &mut Case, file: usize) {
        let mut part = case.files[file].bytes.len().div_ceil(2).min(4_096);
        while part > 0 && !self.used_up() {
            for start in (0..case.files[file].bytes.len()).step_by(part) {
                let end = case.files[file].bytes.len().min(start + part);
                if case.files[file].bytes[start..end].iter().any(|&byte| byte != 0) {
                    self.attempt(case, |case| case.files[file].bytes[start..end].fill(0));
                }
            }
            part /= 2;
        }
    }
}

fn file_names(case: &Case) -> BTreeSet<Vec<u8>> {
    case.files.iter().map(|file| file.name.clone()).collect()
}

/// The bytes of the file in both runs of a pair, so that they stay alike.
fn files_named<'a>(case: &'a mut Case, name: &'a [u8]) -> impl Iterator<Item = &'a mut Vec<u8>> {
    case.files.iter_mut().filter(move |file| file.name == name).map(|file| &mut file.bytes)
}

fn is_book(name: &[u8]) -> bool {
    name.starts_with(b"book")
}

/// A number that a carrier's words have in common, and no other's.
fn carrier_of(word: u32) -> u32 {
    let event = Event::from_word(word);
    2 * event.number + event.kind.side() as u32
}

fn carriers_in(book: &[u8]) -> BTreeSet<u32> {
    words(book.get(BOOK_HEADER..).unwrap_or(&[])).into_iter().map(carrier_of).collect()
}

/// Takes so many records off a book's total and count.
fn count_off(book: &mut [u8], gone: u32) {
    let fields = words(book);
    if let (Some(total), Some(count)) = (fields.first(), fields.get(2)) {
        set_word(book, 0, total.wrapping_sub(WORD_BYTES as u32 * gone));
        set_word(book, 2, count.wrapping_sub(gone));
    }
}

fn is_store(name: &[u8]) -> bool {
    name.starts_with(b"store")
}

/// The sheet count of a store, as far as it has entries.
fn sheets_in(store: &[u8]) -> usize {
    let count = words(store).get(1).copied().unwrap_or(0) as usize;
    count.min(store.len().saturating_sub(STORE_HEADER) / STORE_ENTRY)
}

/// Cuts bytes off the end; a total that was right stays right.
fn cut_end(bytes: &mut Vec<u8>, part: usize) {
    let total_is_right = total_is_right(bytes);
    bytes.truncate(bytes.len().saturating_sub(part));
    put_total_right(bytes, total_is_right);
}

/// Takes the last entries out of a store; the others keep the bytes they point at.
fn drop_last_entries(store: &mut Vec<u8>, part: usize) {
    let (count, total_is_right) = (sheets_in(store), total_is_right(store));
    if count < part {
        return;
    }
    let left = (count - part) as u32;
    let (start, end) = (entries_end(left), entries_end(count as u32));
    for sheet in 0..left {
        let (offset, length) = entry_of(store, sheet);
        if offset >= end {
            set_entry(store, sheet, (offset - (end - start), length));
        }
    }
    store.drain(start as usize..end as usize);
    set_word(store, 1, left);
    put_total_right(store, total_is_right);
}

fn total_is_right(bytes: &[u8]) -> bool {
    words(bytes).first() == Some(&(bytes.len() as u32))
}

fn put_total_right(bytes: &mut [u8], was_right: bool) {
    let total = bytes.len() as u32;
    if was_right {
        set_word(bytes, 0, total);
    }
}
