//! Sheet stores, and the delivery of a model's granted sheets from one.

use crate::group::Group;
use crate::judge::words;
use crate::limits::{
    DELIVERY_HEADER, DELIVERY_SHEET, MODELS, STORE_BYTES, STORE_ENTRY, STORE_HEADER, STORE_SHEETS,
};
use crate::refusal::{self, Refusal};
use crate::wrong::Reading;

/// The delivery to a model, for a lent buffer of the given length.
/// Refusals 2, 31, then granted sheets by rising number 32, 33, then 34.
pub fn deliver(group: &Group, model: u32, store: &[u8], buffer: u64) -> Result<Vec<u8>, Refusal> {
    if model >= MODELS {
        return Err(Refusal::plain(refusal::NUMBER));
    }
    if group.reading == Reading::Entry {
        refuse_any_bad_entry(store, sheet_count(store)?)?;
    }
    deliver_sheets(&group.sheets_of(model), store, buffer)
}

/// The delivery of these sheets, which stand by rising number. Refusals 31 to 34.
pub fn deliver_sheets(granted: &[u32], store: &[u8], buffer: u64) -> Result<Vec<u8>, Refusal> {
    let count = sheet_count(store)?;
    let mut sheets = Vec::new();
    for &sheet in granted {
        sheets.push((sheet, sheet_bytes(store, count, sheet)?));
    }
    let total = sheets
        .iter()
        .fold(DELIVERY_HEADER, |sum, (_, bytes)| sum + DELIVERY_SHEET + bytes.len() as u64);
    if total > buffer {
        return Err(Refusal::plain(refusal::DELIVERY_BUFFER));
    }
    Ok(written(&sheets, total as u32))
}

fn written(sheets: &[(u32, &[u8])], total: u32) -> Vec<u8> {
    let mut delivery = Vec::with_capacity(total as usize);
    delivery.extend((sheets.len() as u32).to_le_bytes());
    delivery.extend(total.to_le_bytes());
    for (sheet, bytes) in sheets {
        delivery.extend(sheet.to_le_bytes());
        delivery.extend((bytes.len() as u32).to_le_bytes());
        delivery.extend(*bytes);
    }
    delivery
}

/// The sheet count of a store whose header and entries fit. Refusal 31.
fn sheet_count(store: &[u8]) -> Result<u32, Refusal> {
    let refused = Err(Refusal::plain(refusal::STORE));
    if store.len() < STORE_HEADER || store.len() > STORE_BYTES {
        return refused;
    }
    let header = words(&store[..STORE_HEADER]);
    let (total, count) = (header[0], header[1]);
    if total as usize != store.len() || count > STORE_SHEETS {
        return refused;
    }
    if entries_end(count) > store.len() {
        return refused;
    }
    Ok(count)
}

fn entries_end(count: u32) -> usize {
    STORE_HEADER + STORE_ENTRY * count as usize
}

/// The bytes of a granted sheet. Refusals 32 and 33 name it.
fn sheet_bytes(store: &[u8], count: u32, sheet: u32) -> Result<&[u8], Refusal> {
    if sheet >= count {
        return Err(Refusal::at(refusal::SHEET_NOT_IN_STORE, sheet));
    }
    let entry = words(&store[entries_end(sheet)..entries_end(sheet + 1)]);
    let (offset, length) = (u64::from(entry[0]), u64::from(entry[1]));
    if offset < entries_end(count) as u64 || offset + length > store.len() as u64 {
        return Err(Refusal::at(refusal::SHEET_ENTRY, sheet));
    }
    Ok(&store[offset as usize..(offset + length) as usize])
}

/// The wrong reading `entry`: it looks at every entry.
fn refuse_any_bad_entry(store: &[u8], count: u32) -> Result<(), Refusal> {
    (0..count).try_for_each(|sheet| sheet_bytes(store, count, sheet).map(|_| ()))
}
