//! Random books: good ones of every shape, and damaged ones.

use crate::chance::Chance;
use second::event::{Event, Side, KINDS};
use second::judge::words;
use second::limits::{
    BOOK_BYTES, BOOK_HEADER, BOOK_RECORDS, LAST_TICK, MODELS, SHEETS, WORD_BYTES,
};
use std::collections::BTreeSet;

/// How many of each thing a random book draws from.
pub struct Shape {
    pub models: Vec<u32>,
    pub sheets: Vec<u32>,
    pub ticks: u32,
    pub records: u32,
}

/// A shape by chance: few carriers or many, dense ticks or sparse, up to a full book.
pub fn shape(chance: &mut Chance) -> Shape {
    let most_models = chance.one_of(&[1, 2, 4, 16, MODELS]);
    let most_sheets = chance.one_of(&[1, 2, 4, 16, SHEETS]);
    let fewest = chance.one_of(&[0, 1, 1, 1]);
    let model_count = chance.within(fewest..=most_models) as usize;
    let sheet_count = chance.within(fewest..=most_sheets) as usize;
    let low_models = chance.one_of(&[most_models, MODELS]);
    let low_sheets = chance.one_of(&[most_sheets, SHEETS]);
    let most_ticks = chance.one_of(&[1, 3, 6, 12, 40, 200, 2_000, LAST_TICK]);
    let ticks = if chance.percent(10) { most_ticks } else { chance.within(0..=most_ticks) };
    let most_records = chance.one_of(&[5, 20, 60, 200, 200, 1_000, BOOK_RECORDS]);
    let records = if chance.percent(10) { most_records } else { chance.within(0..=most_records) };
    Shape {
        models: chance.pick(model_count, low_models),
        sheets: chance.pick(sheet_count, low_sheets),
        ticks,
        records,
    }
}

/// Well-formed events in book order, at most so many as the shape asks for.
pub fn good_words(chance: &mut Chance, shape: &Shape) -> Vec<u32> {
    let mut carriers: Vec<(Side, u32, bool)> = Vec::new();
    carriers.extend(shape.models.iter().map(|&model| (Side::Model, model, false)));
    carriers.extend(shape.sheets.iter().map(|&sheet| (Side::Sheet, sheet, false)));
    let mut words = Vec::new();
    if carriers.is_empty() || shape.ticks == 0 {
        return words;
    }
    let liberal = chance.one_of(&[20, 50, 80]);
    let ticks = event_ticks(chance, shape);
    let a_tick = (shape.records as usize).div_ceil(ticks.len().max(1)).min(carriers.len());
    for tick in ticks {
        let count = chance.within(0..=2 * a_tick as u32) as usize;
        for place in chance.pick(count, carriers.len() as u32) {
            let (side, number, is_in) = &mut carriers[place as usize];
            words.push(event(*side, tick, *is_in, chance.percent(liberal), *number).word());
            *is_in = !*is_in;
        }
    }
    words.sort_unstable();
    // Book order is tick order, so that any first part of it is well-formed, too.
    words.truncate(shape.records as usize);
    words
}

fn event_ticks(chance: &mut Chance, shape: &Shape) -> BTreeSet<u32> {
    let most = shape.records.min(shape.ticks).max(1);
    let wanted = if shape.ticks <= 40 { shape.ticks } else { chance.within(1..=most) };
    let mut ticks = BTreeSet::new();
    for _ in 0..2 * wanted {
        if (ticks.len() as u32) < wanted {
            ticks.insert(chance.within(1..=shape.ticks));
        }
    }
    ticks
}

/// The next event of a carrier that is in or out.
pub fn event(side: Side, tick: u32, is_in: bool, liberal: bool, number: u32) -> Event {
    let first = if side == Side::Model { 0 } else { 4 };
    let kind = KINDS[first + 2 * usize::from(is_in) + usize::from(liberal)];
    Event { tick, kind, number }
}

/// A book with its header in order, whatever its words.
pub fn book_of(ticks: u32, group: u32, words: &[u32]) -> Vec<u8> {
    let total = (BOOK_HEADER + WORD_BYTES * words.len()) as u32;
    let header = [total, ticks, words.len() as u32, BOOK_HEADER as u32, group];
    header.iter().chain(words).flat_map(|word| word.to_le_bytes()).collect()
}

pub fn good_book(chance: &mut Chance) -> Vec<u8> {
    let shape = shape(chance);
    let words = good_words(chance, &shape);
    book_of(shape.ticks, chance.within(0..=15), &words)
}

/// A book with the last few ticks open or used up.
pub fn book_near_the_last_tick(chance: &mut Chance) -> Vec<u8> {
    let mut shape = shape(chance);
    shape.ticks = LAST_TICK - chance.within(0..=3);
    let mut words = good_words(chance, &shape);
    if chance.percent(50) {
        shape.ticks = LAST_TICK;
    }
    words.retain(|&word| Event::from_word(word).tick <= shape.ticks);
    book_of(shape.ticks, chance.within(0..=15), &words)
}

/// A good book, or one with one to three faults.
pub fn any_book(chance: &mut Chance) -> Vec<u8> {
    let mut book = good_book(chance);
    if chance.percent(60) {
        for _ in 0..chance.one_of(&[1, 1, 1, 2, 3]) {
            damage(chance, &mut book);
        }
    }
    book
}

fn damage(chance: &mut Chance, book: &mut Vec<u8>) {
    match chance.within(0..=14) {
        0 => book.truncate(chance.place(book.len() + 1)),
        1 => book.truncate(book.len().saturating_sub(chance.within(1..=4) as usize)),
        2 => lengthen(chance, book),
        3 => flip_a_bit(chance, book, usize::MAX),
        4 => flip_a_bit(chance, book, BOOK_HEADER),
        5 => change_header(chance, book),
        6 => {
            let count = words(book).get(2).copied().unwrap_or(0);
            set_word(book, 2, count.wrapping_add(chance.one_of(&[1, u32::MAX])));
        }
        _ => change_records(chance, book),
    }
}

fn lengthen(chance: &mut Chance, book: &mut Vec<u8>) {
    let length = match chance.within(0..=2) {
        0 => book.len() + chance.within(1..=8) as usize,
        1 => BOOK_BYTES + chance.within(0..=8) as usize,
        _ => BOOK_BYTES + chance.within(0..=100_000) as usize,
    };
    let extra = chance.bytes(length.saturating_sub(book.len()));
    book.extend(extra);
    let total = book.len() as u32;
    if chance.percent(50) {
        set_word(book, 0, total);
    }
}

pub fn flip_a_bit(chance: &mut Chance, bytes: &mut [u8], within: usize) {
    if !bytes.is_empty() {
        let place = chance.place(bytes.len().min(within));
        bytes[place] ^= 1 << chance.within(0..=7);
    }
}

/// Sets the word at a place counted in words, where there is one.
pub fn set_word(bytes: &mut [u8], place: usize, word: u32) {
    if let Some(at) = bytes.get_mut(WORD_BYTES * place..WORD_BYTES * (place + 1)) {
        at.copy_from_slice(&word.to_le_bytes());
    }
}

fn change_header(chance: &mut Chance, book: &mut [u8]) {
    const LIMITS: [u32; 16] = [
        0,
        1,
        15,
        16,
        19,
        20,
        21,
        24,
        4_095,
        4_096,
        4_097,
        16_404,
        999_999,
        1_000_000,
        1_000_001,
        u32::MAX,
    ];
    let place = chance.place(BOOK_HEADER / WORD_BYTES);
    let word = if chance.percent(70) {
        chance.one_of(&LIMITS)
    } else {
        let old = words(book).get(place).copied().unwrap_or(0);
        old.wrapping_add(chance.one_of(&[1, u32::MAX, 4]))
    };
    set_word(book, place, word);
}

/// A fault in the records, under a header that still fits them.
fn change_records(chance: &mut Chance, book: &mut Vec<u8>) {
    let all = words(book);
    if all.len() <= BOOK_HEADER / WORD_BYTES {
        return;
    }
    let (header, records) = all.split_at(BOOK_HEADER / WORD_BYTES);
    let mut records = records.to_vec();
    let place = chance.place(records.len());
    let next = (place + 1) % records.len();
    let (word, ticks) = (records[place], header[1]);
    match chance.within(0..=8) {
        0 => records[place] = faulty_word(chance, word, ticks),
        1 => records.insert(place, word),
        2 => drop(records.remove(place)),
        3 => records.swap(place, next),
        4 => records[place] ^= 1 << chance.within(9..=11),
        5 => records[place] = faulty_word(chance, word, ticks).max(1),
        6 => records[place] = word.wrapping_add(512),
        7 => records.insert(place + 1, word.wrapping_add(chance.one_of(&[1, 512, 1_024, 4_096]))),
        _ => records[place] = chance.next() as u32,
    }
    if chance.percent(50) {
        records.sort_unstable();
    }
    let ticks = if chance.percent(10) { ticks.saturating_sub(1) } else { ticks };
    *book = book_of(ticks, header[4], &records);
}

fn faulty_word(chance: &mut Chance, word: u32, ticks: u32) -> u32 {
    let event = Event::from_word(word);
    let with_tick = |tick: u32| word % 4_096 + tick * 4_096;
    match chance.within(0..=4) {
        0 => with_tick(0),
        1 => with_tick((ticks.min(LAST_TICK) + 1).min(1_048_575)),
        2 => word - event.number + chance.one_of(&[63, 64, 255, 256, 511]),
        3 => with_tick(1_048_575),
        _ => word.wrapping_sub(1),
    }
}
