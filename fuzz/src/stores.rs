//! Changes to a store's bytes: mostly to its entries, with a header that fits them.

use crate::common::Chance;
use crate::words::bytes_of;
use second::judge::words;
use second::limits::STORE_BYTES;

/// The largest store: sheets 0 to 3, the first of them as long as can be.
pub fn largest() -> Vec<u8> {
    let (total, start) = (STORE_BYTES as u32, 8 + 8 * 4);
    let table = [total, 4, start, total - start, start, 5, total, 0, total - 1, 1];
    let mut store = bytes_of(&table);
    store.resize(STORE_BYTES, 7);
    store
}

pub fn mutate_store(store: &mut Vec<u8>, chance: &mut Chance) {
    let fields = words(store);
    let count = fields.get(1).map_or(0, |&count| count.min(8) as usize);
    let mut entries: Vec<u32> = fields.into_iter().skip(2).take(2 * count).collect();
    let mut bytes = store.get(8 + 8 * count..).unwrap_or(&[]).to_vec();
    match chance.below(6) {
        0 => bytes.truncate(chance.below(bytes.len() + 1)),
        1 => bytes.extend([1, 2, 3, 4, 5]),
        2 if entries.len() >= 2 => entries.truncate(entries.len() / 2 * 2 - 2),
        3 if entries.len() >= 2 => {
            let at = chance.below(entries.len());
            let odd =
                [0, entries[at].wrapping_add(1), entries[at].wrapping_sub(1), u32::MAX, 1 << 31];
            entries[at] = chance.pick(&odd);
        }
        _ => entries.extend([0, 0]),
    }
    entries.truncate(entries.len() / 2 * 2);
    let start = 8 + 4 * entries.len();
    let total = start + bytes.len();
    if !chance.one_in(5) {
        set_within(&mut entries, start, total, chance);
    }
    let mut header = [total as u32, entries.len() as u32 / 2];
    if chance.one_in(12) {
        let field = chance.below(2);
        header[field] =
            chance.pick(&[header[field] + 1, header[field].wrapping_sub(1), 257, u32::MAX]);
    }
    *store = [bytes_of(&header), bytes_of(&entries), bytes].concat();
}

/// Every entry within the store: anywhere, up to its very end.
fn set_within(entries: &mut [u32], start: usize, total: usize, chance: &mut Chance) {
    for entry in entries.chunks_exact_mut(2) {
        let offset = start + chance.below(total - start + 1);
        let length =
            if chance.one_in(3) { total - offset } else { chance.below(total - offset + 1) };
        (entry[0], entry[1]) = (offset as u32, length as u32);
    }
}
