//! Random sheet stores: good ones, entries with every kind of fault, damaged headers.

use crate::books::{flip_a_bit, set_word};
use crate::chance::Chance;
use second::judge::words;
use second::limits::{STORE_BYTES, STORE_ENTRY, STORE_HEADER};

/// The first byte after the entries.
pub fn entries_end(count: u32) -> u32 {
    (STORE_HEADER + STORE_ENTRY * count as usize) as u32
}

/// An entry's place among the store's words.
fn entry_place(sheet: u32) -> usize {
    2 + 2 * sheet as usize
}

/// Sets the entry of one sheet, where the store has it.
pub fn set_entry(store: &mut [u8], sheet: u32, (offset, length): (u32, u32)) {
    set_word(store, entry_place(sheet), offset);
    set_word(store, entry_place(sheet) + 1, length);
}

/// Offset and length of a sheet that the store has an entry for.
pub fn entry_of(store: &[u8], sheet: u32) -> (u32, u32) {
    let all = words(&store[..entries_end(sheet + 1) as usize]);
    (all[all.len() - 2], all[all.len() - 1])
}

/// An entry that is good in a store of this size; entries may share bytes.
pub fn good_entry(chance: &mut Chance, count: u32, total: u32) -> (u32, u32) {
    let offset = chance.within(entries_end(count)..=total);
    let most = (total - offset).min(chance.one_of(&[0, 1, 5, 60, 4_096, u32::MAX]));
    (offset, chance.within(0..=most))
}

/// An entry that isn't good, or is only just.
pub fn edge_entry(chance: &mut Chance, count: u32, total: u32) -> (u32, u32) {
    let start = entries_end(count);
    match chance.within(0..=9) {
        0 => (start - 1, 1),
        1 => (start, total - start),
        2 => (start, total - start + 1),
        3 => (total, 0),
        4 => (total + 1, 0),
        5 => (0, 0),
        6 => (u32::MAX - 15, 16 + start),
        7 => (u32::MAX, u32::MAX),
        8 => (start, u32::MAX - start + 1),
        _ => (chance.next() as u32, chance.next() as u32),
    }
}

fn sizes(chance: &mut Chance) -> (u32, u32) {
    let most = chance.one_of(&[0, 3, 8, 8, 20, 256, 256, 256]);
    let count = if chance.percent(60) { most } else { chance.within(0..=most) };
    let bytes = match chance.within(0..=99) {
        0 => STORE_BYTES as u32 - entries_end(count),
        1..=9 => chance.within(0..=20_000),
        _ => chance.within(0..=200),
    };
    (count, entries_end(count) + bytes)
}

/// A store whose header is in order, with so many bad entries in a hundred.
pub fn store_with_entries(chance: &mut Chance, faulty: u32) -> Vec<u8> {
    let (count, total) = sizes(chance);
    let mut store = chance.bytes(total as usize);
    set_word(&mut store, 0, total);
    set_word(&mut store, 1, count);
    for sheet in 0..count {
        let entry = if chance.percent(faulty) {
            edge_entry(chance, count, total)
        } else {
            good_entry(chance, count, total)
        };
        set_entry(&mut store, sheet, entry);
    }
    store
}

pub fn any_store(chance: &mut Chance) -> Vec<u8> {
    let faulty = chance.one_of(&[0, 0, 5, 20, 50]);
    let mut store = store_with_entries(chance, faulty);
    if chance.percent(25) {
        damage(chance, &mut store);
    }
    store
}

fn damage(chance: &mut Chance, store: &mut Vec<u8>) {
    let length = store.len() as u32;
    match chance.within(0..=20) {
        0..=1 => store.truncate(chance.place(store.len() + 1)),
        2..=4 => store.truncate(chance.within(0..=9) as usize),
        5..=7 => flip_a_bit(chance, store, STORE_HEADER),
        8..=10 => flip_a_bit(chance, store, usize::MAX),
        11..=13 => set_word(store, 0, chance.one_of(&[0, 7, 8, length - 1, length + 1, u32::MAX])),
        14..=16 => set_word(store, 1, chance.one_of(&[0, 255, 256, 257, u32::MAX, 1 << 29])),
        17..=19 => set_word(
            store,
            1,
            (length - STORE_HEADER as u32) / STORE_ENTRY as u32 + chance.within(0..=1),
        ),
        _ => {
            store.resize(STORE_BYTES + chance.one_of(&[0, 1, 5_000]), 7);
            let length = store.len() as u32;
            set_word(store, 0, chance.one_of(&[length, STORE_BYTES as u32 + 1]));
        }
    }
}
