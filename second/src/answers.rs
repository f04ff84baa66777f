//! The answers of the C library, as include/ferrulebee.h lays them out.

use crate::record::GroupRecord;
use crate::refusal::Refusal;
use std::mem::size_of;

/// Fresh, request, close: a refusal's number or 0, and the group.
#[repr(C)]
#[derive(Clone, Copy, Debug, PartialEq, Eq)]
pub struct GroupAnswer {
    pub code: u32,
    pub group: GroupRecord,
}

/// Read, models, mask: a refusal's number with 0, or 0 with the value.
#[repr(C)]
#[derive(Clone, Copy, Debug, PartialEq, Eq)]
pub struct ValueAnswer {
    pub code: u32,
    pub value: u32,
}

#[repr(C)]
#[derive(Clone, Copy, Debug, PartialEq, Eq)]
pub struct BookReadAnswer {
    pub code: u32,
    pub place: u32,
    pub group: GroupRecord,
}

#[repr(C)]
#[derive(Clone, Copy, Debug, PartialEq, Eq)]
pub struct BookWriteAnswer {
    pub code: u32,
    pub place: u32,
    pub length: usize,
}

#[repr(C)]
#[derive(Clone, Copy, Debug, PartialEq, Eq)]
pub struct DeliveryAnswer {
    pub code: u32,
    pub place: u32,
    pub length: u32,
}

#[repr(C)]
#[derive(Clone, Copy, Debug, PartialEq, Eq)]
pub struct SpansAnswer {
    pub code: u32,
    pub place: u32,
    pub count: u32,
}

/// A part of a lent list: which list, its first word, how many words.
#[repr(C)]
#[derive(Clone, Copy, Debug, PartialEq, Eq)]
pub struct Part {
    pub list: u32,
    pub first: usize,
    pub count: usize,
}

const _: () = assert!(size_of::<GroupAnswer>() == 2296);
const _: () = assert!(size_of::<ValueAnswer>() == 8);
const _: () = assert!(size_of::<BookReadAnswer>() == 2296);
const _: () = assert!(size_of::<BookWriteAnswer>() == 16);
const _: () = assert!(size_of::<DeliveryAnswer>() == 12);
const _: () = assert!(size_of::<SpansAnswer>() == 12);
const _: () = assert!(size_of::<Part>() == 24);

/// Number and place of a refusal, 0 where it has none.
fn numbers(refusal: Refusal) -> (u32, u32) {
    (refusal.number, refusal.place.unwrap_or(0))
}

impl GroupAnswer {
    pub fn new(answer: Result<(), Refusal>, group: GroupRecord) -> GroupAnswer {
        GroupAnswer { code: answer.map_or_else(|refusal| refusal.number, |()| 0), group }
    }
}

impl From<Result<u32, Refusal>> for ValueAnswer {
    fn from(answer: Result<u32, Refusal>) -> ValueAnswer {
        match answer {
            Ok(value) => ValueAnswer { code: 0, value },
            Err(refusal) => ValueAnswer { code: refusal.number, value: 0 },
        }
    }
}

impl From<Result<GroupRecord, Refusal>> for BookReadAnswer {
    /// A refused book yields a fresh group 0.
    fn from(answer: Result<GroupRecord, Refusal>) -> BookReadAnswer {
        let (code, place) = answer.err().map_or((0, 0), numbers);
        BookReadAnswer { code, place, group: answer.unwrap_or(GroupRecord::fresh(0)) }
    }
}

impl From<Result<usize, Refusal>> for BookWriteAnswer {
    fn from(answer: Result<usize, Refusal>) -> BookWriteAnswer {
        let (code, place) = answer.err().map_or((0, 0), numbers);
        BookWriteAnswer { code, place, length: answer.unwrap_or(0) }
    }
}

impl From<Result<usize, Refusal>> for DeliveryAnswer {
    fn from(answer: Result<usize, Refusal>) -> DeliveryAnswer {
        let (code, place) = answer.err().map_or((0, 0), numbers);
        DeliveryAnswer { code, place, length: answer.unwrap_or(0) as u32 }
    }
}

impl From<Result<usize, Refusal>> for SpansAnswer {
    fn from(answer: Result<usize, Refusal>) -> SpansAnswer {
        let (code, place) = answer.err().map_or((0, 0), numbers);
        SpansAnswer { code, place, count: answer.unwrap_or(0) as u32 }
    }
}

impl Part {
    /// Where a part stands in one of two lists. An empty part at the start of the first is
    /// also that where the lists are empty and share their address.
    pub fn of(part: &[u32], lists: [&[u32]; 2]) -> Part {
        let within = |list: &&[u32]| list.as_ptr_range().contains(&part.as_ptr());
        let list = if part.is_empty() { 0 } else { lists.iter().position(within).unwrap_or(0) };
        let bytes = part.as_ptr() as usize - lists[list].as_ptr() as usize;
        Part { list: list as u32, first: bytes / size_of::<u32>(), count: part.len() }
    }
}
