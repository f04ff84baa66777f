//! The gate's library for C. Everything that crosses to it is here, field by field as in
//! include/ferrulebee.h.

use std::mem::size_of;

#[repr(C)]
#[derive(Clone, Copy)]
pub struct Group {
    pub number: u32,
    pub closed: u32,
    pub members: u64,
    /// SJ, LJ, SL, LL.
    pub models: [u64; 4],
    pub added: [u64; 4],
    pub liberal: [u64; 4],
    /// SA, LA, SR, LR.
    pub sheets: [[u64; 4]; 4],
    pub grants: [u64; 256],
}

#[repr(C)]
pub struct BookAnswer {
    pub code: u32,
    pub place: u32,
    pub group: Group,
}

#[repr(C)]
pub struct Delivery {
    pub code: u32,
    pub place: u32,
    pub length: u32,
}

#[repr(C)]
pub struct SpansAnswer {
    pub code: u32,
    pub place: u32,
    pub count: u32,
}

const _: () = assert!(size_of::<Group>() == 2288);
const _: () = assert!(size_of::<BookAnswer>() == 2296);
const _: () = assert!(size_of::<Delivery>() == 12);
const _: () = assert!(size_of::<SpansAnswer>() == 12);

mod c {
    use super::{BookAnswer, Delivery, Group, SpansAnswer};

    extern "C" {
        pub fn judge(m: *const u8, m_len: usize, s: *const u8, s_len: usize, now: u32) -> u64;
        pub fn ferrulebee_book_read(
            book: *const u8,
            book_bytes: usize,
            list: *mut u32,
            list_words: usize,
        ) -> BookAnswer;
        pub fn ferrulebee_deliver(
            group: Group,
            model: u32,
            store: *const u8,
            store_bytes: usize,
            out: *mut u8,
            out_bytes: usize,
        ) -> Delivery;
        pub fn ferrulebee_spans(
            model: *const u32,
            model_words: usize,
            sheet: *const u32,
            sheet_words: usize,
            now: u32,
            list: *mut u32,
            list_words: usize,
        ) -> SpansAnswer;
    }
}

// Every slice below is lent for the call with its true length, and those written to are borrowed alone.

pub fn judge(model: &[u8], sheet: &[u8], now: u32) -> u64 {
    unsafe { c::judge(model.as_ptr(), model.len(), sheet.as_ptr(), sheet.len(), now) }
}

pub fn book_read(book: &[u8], list: &mut [u32]) -> BookAnswer {
    unsafe { c::ferrulebee_book_read(book.as_ptr(), book.len(), list.as_mut_ptr(), list.len()) }
}

pub fn deliver(group: &Group, model: u32, store: &[u8], out: &mut [u8]) -> Delivery {
    let (from, to) = (store.as_ptr(), out.as_mut_ptr());
    unsafe { c::ferrulebee_deliver(*group, model, from, store.len(), to, out.len()) }
}

pub fn spans(model: &[u32], sheet: &[u32], now: u32, list: &mut [u32]) -> SpansAnswer {
    let (m, s, to) = (model.as_ptr(), sheet.as_ptr(), list.as_mut_ptr());
    unsafe { c::ferrulebee_spans(m, model.len(), s, sheet.len(), now, to, list.len()) }
}

impl From<&plain::group::Group> for Group {
    fn from(group: &plain::group::Group) -> Self {
        Group {
            number: group.number,
            closed: group.closed,
            members: group.members,
            models: group.models,
            added: group.added,
            liberal: group.liberal,
            sheets: group.sheets,
            grants: group.grants,
        }
    }
}

/// Do both hold the same?
pub fn same(gate: &Group, group: &plain::group::Group) -> bool {
    gate.number == group.number
        && gate.closed == group.closed
        && gate.members == group.members
        && gate.models == group.models
        && gate.added == group.added
        && gate.liberal == group.liberal
        && gate.sheets == group.sheets
        && gate.grants == group.grants
}
