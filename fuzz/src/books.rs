//! Changes to a book's bytes: mostly to its records, with a header that fits them.

use crate::common::{mutate_bytes, Chance};
use crate::words::{bytes_of, change, lengthened, other_ticks, repair};
use second::event::Event;
use second::judge::words;
use second::limits::{BOOK_HEADER, LAST_TICK};

pub fn mutate_book(book: &mut Vec<u8>, most: usize, chance: &mut Chance) {
    if chance.one_in(12) {
        return mutate_bytes(book, most);
    }
    let mut fields = words(&book[..book.len().min(BOOK_HEADER)]);
    fields.resize(5, 0);
    let mut records = words(book.get(BOOK_HEADER..).unwrap_or(&[]));
    let mut ticks = fields[1].min(LAST_TICK);
    if chance.one_in(6) {
        ticks = other_ticks(ticks, chance).min(LAST_TICK);
    }
    if chance.one_in(12) {
        fields[4] = chance.number(16);
    }
    for _ in 0..=chance.below(4) {
        change(&mut records, ticks, chance);
    }
    if !chance.one_in(10) {
        repair(&mut records, ticks);
    }
    let mut header =
        [20 + 4 * records.len() as u32, ticks, records.len() as u32, 20, fields[4] % 16];
    if chance.one_in(24) {
        let field = chance.below(5);
        let old = header[field];
        header[field] =
            chance.pick(&[old + 1, old.wrapping_sub(1), LAST_TICK + 1, 4097, 16, u32::MAX]);
    }
    *book = [bytes_of(&header), bytes_of(&records)].concat();
}

/// A book of a group with these records.
pub fn book_of(ticks: u32, group: u32, records: &[u32]) -> Vec<u8> {
    let length = records.len() as u32;
    let header = [BOOK_HEADER as u32 + 4 * length, ticks, length, BOOK_HEADER as u32, group];
    [bytes_of(&header), bytes_of(records)].concat()
}

/// The book with records of all models up to so many; None for what isn't a book or has no tick left.
pub fn full_book(book: &[u8], length: usize) -> Option<Vec<u8>> {
    let group = second::book::read(book, 4096).ok()?;
    let mut records = lengthened(&group.book_words(), 64, length)?;
    repair(&mut records, LAST_TICK);
    let ticks = records.last().map_or(0, |&word| Event::from_word(word).tick);
    Some(book_of(ticks.max(group.closed), group.number, &records))
}
