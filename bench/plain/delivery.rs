//! The delivery of a model's granted sheets from a store.

use crate::book::word_at;
use crate::event::{MODELS, SHEETS};
use crate::group::Group;
use crate::refusal::{refused, refused_at, Refusal};

pub const STORE_BYTES: usize = 1_048_576;
const STORE_HEADER: usize = 8;
const ENTRY: usize = 8;

/// Writes the delivery to the front of `out` and answers its length.
pub fn deliver(group: &Group, model: u32, store: &[u8], out: &mut [u8]) -> Result<u32, Refusal> {
    if model >= MODELS {
        return refused(2);
    }
    let n = sheet_count(store)?;
    let mut total = 8;
    let mut count = 0u32;
    for sheet in granted(group, model) {
        if sheet >= n {
            return refused_at(32, sheet);
        }
        let (offset, length) = entry(store, sheet);
        if offset < STORE_HEADER + ENTRY * n || offset + length > store.len() {
            return refused_at(33, sheet);
        }
        total += 8 + length;
        count += 1;
    }
    if total > out.len() {
        return refused(34);
    }
    put(out, 0, [count, total as u32]);
    let mut at = 8;
    for sheet in granted(group, model) {
        let (offset, length) = entry(store, sheet);
        put(out, at, [sheet as u32, length as u32]);
        at += 8;
        out[at..at + length].copy_from_slice(&store[offset..offset + length]);
        at += length;
    }
    Ok(total as u32)
}

fn sheet_count(store: &[u8]) -> Result<usize, Refusal> {
    if !(STORE_HEADER..=STORE_BYTES).contains(&store.len()) {
        return refused(31);
    }
    let (total, n) = (word_at(store, 0) as usize, word_at(store, 4) as usize);
    if total != store.len() || n > SHEETS as usize || STORE_HEADER + ENTRY * n > total {
        return refused(31);
    }
    Ok(n)
}

/// The sheets that the group grants the model, rising.
fn granted(group: &Group, model: u32) -> impl Iterator<Item = usize> + '_ {
    (0..SHEETS as usize).filter(move |&sheet| group.grants[sheet] >> model & 1 == 1)
}

fn entry(store: &[u8], sheet: usize) -> (usize, usize) {
    let at = STORE_HEADER + ENTRY * sheet;
    (word_at(store, at) as usize, word_at(store, at + 4) as usize)
}

fn put(out: &mut [u8], at: usize, words: [u32; 2]) {
    out[at..at + 4].copy_from_slice(&words[0].to_le_bytes());
    out[at + 4..at + 8].copy_from_slice(&words[1].to_le_bytes());
}
