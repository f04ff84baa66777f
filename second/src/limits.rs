//! Every number of the rules that means something, in one place.

pub const MODELS: u32 = 64;
pub const SHEETS: u32 = 256;
pub const GROUPS: u32 = 16;
pub const LAST_TICK: u32 = 1_000_000;

/// Most words in a strip, and most records in a book.
pub const STRIP_WORDS: usize = 4_096;
pub const BOOK_RECORDS: u32 = 4_096;

pub const WORD_BYTES: usize = 4;
pub const BOOK_HEADER: usize = 20;
pub const BOOK_BYTES: usize = 16_404;

pub const STORE_HEADER: usize = 8;
pub const STORE_ENTRY: usize = 8;
pub const STORE_SHEETS: u32 = 256;
pub const STORE_BYTES: usize = 1_048_576;

/// Sheet count and total length.
pub const DELIVERY_HEADER: u64 = 8;
/// Number and length, before a sheet's bytes.
pub const DELIVERY_SHEET: u64 = 8;

/// Most groups in a station's list.
pub const STATION_GROUPS: usize = 16;

/// The most digits in an argument of `spans`, and in a number of a question to `seen`.
pub const ARGUMENT_DIGITS: usize = 20;

/// The keeper's own limits.
pub const LINE_BYTES: usize = 255;
pub const FILE_NAME_BYTES: usize = 200;
pub const DELIVERY_BUFFER: u32 = 1_114_112;
