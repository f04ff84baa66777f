//! The refusal numbers (RULES.md 11.1), and how a refusal is printed.

use std::fmt;

pub const KIND: u32 = 1;
pub const NUMBER: u32 = 2;
pub const TICKS_USED_UP: u32 = 3;
pub const SECOND_IN_TICK: u32 = 4;
pub const ALREADY_IN: u32 = 5;
pub const NOT_IN: u32 = 6;
pub const STATION: u32 = 7;
pub const FRESH_NUMBER: u32 = 9;
pub const NOW: u32 = 10;
pub const MODEL_STRIP_LENGTH: u32 = 11;
pub const SHEET_STRIP_LENGTH: u32 = 12;
pub const MODEL_STRIP_BAD: u32 = 13;
pub const SHEET_STRIP_BAD: u32 = 14;
pub const BOOK_LENGTH: u32 = 20;
pub const BOOK_TOTAL: u32 = 21;
pub const BOOK_FIELD: u32 = 22;
pub const BOOK_COUNT: u32 = 23;
pub const RECORD_RANGE: u32 = 24;
pub const RECORD_ORDER: u32 = 25;
pub const RECORD_FORM: u32 = 26;
pub const BOOK_BUFFER: u32 = 27;
pub const WORD_LIST: u32 = 28;
pub const STORE: u32 = 31;
pub const SHEET_NOT_IN_STORE: u32 = 32;
pub const SHEET_ENTRY: u32 = 33;
pub const DELIVERY_BUFFER: u32 = 34;
pub const SPAN_LIST: u32 = 40;

/// A refusal's number, and the place (or the sheet) it names where it has one.
#[derive(Clone, Copy, Debug, PartialEq, Eq)]
pub struct Refusal {
    pub number: u32,
    pub place: Option<u32>,
}

impl Refusal {
    pub fn plain(number: u32) -> Refusal {
        Refusal { number, place: None }
    }

    pub fn at(number: u32, place: u32) -> Refusal {
        Refusal { number, place: Some(place) }
    }
}

impl fmt::Display for Refusal {
    fn fmt(&self, out: &mut fmt::Formatter<'_>) -> fmt::Result {
        match self.place {
            None => write!(out, "refused {}", self.number),
            Some(place) => write!(out, "refused {} at {}", self.number, place),
        }
    }
}
