//! The gate's C library, libferrulebee.a, linked with `--cfg gate_library`. Everything that
//! crosses to C is here: a call takes its name in `gate.symbols`, its line under `calls!` and
//! a safe function below.

use second::answers::{
    BookReadAnswer, BookWriteAnswer, DeliveryAnswer, GroupAnswer, Part, SpansAnswer, ValueAnswer,
};
use second::record::GroupRecord;

/// Declares the calls once: as what C exports, and as the table of them that compare holds,
/// which is there when the library is linked.
macro_rules! calls {
    ($(fn $name:ident($($argument:ident: $type:ty),*) -> $answer:ty;)*) => {
        pub struct Library {
            $($name: unsafe extern "C" fn($($type),*) -> $answer,)*
        }

        #[cfg(gate_library)]
        pub const LIBRARY: Option<&Library> = {
            extern "C" {
                $(fn $name($($argument: $type),*) -> $answer;)*
            }
            Some(&Library { $($name,)* })
        };
    };
}

#[cfg(not(gate_library))]
pub const LIBRARY: Option<&Library> = None;

#[rustfmt::skip]
calls! {
    fn ferrulebee_fresh(number: u32) -> GroupAnswer;
    fn ferrulebee_request(group: GroupRecord, kind: u32, number: u32) -> GroupAnswer;
    fn ferrulebee_request_at(group: *mut GroupRecord, kind: u32, number: u32) -> u32;
    fn ferrulebee_close(group: GroupRecord) -> GroupAnswer;
    fn ferrulebee_read(group: GroupRecord, model: u32, sheet: u32) -> ValueAnswer;
    fn ferrulebee_models(group: GroupRecord, sheet: u32) -> ValueAnswer;
    fn ferrulebee_mask(list: *const GroupRecord, groups: usize, model: u32, sheet: u32)
        -> ValueAnswer;
    fn ferrulebee_book_read(book: *const u8, book_bytes: usize, list: *mut u32, list_words: usize)
        -> BookReadAnswer;
    fn ferrulebee_book_write(ticks: u32, number: u32, records: *const u32, count: usize,
        buffer: *mut u8, buffer_bytes: usize) -> BookWriteAnswer;
    fn ferrulebee_tick_part(records: *const u32, count: usize, tick: u32) -> Part;
    fn ferrulebee_deliver(group: GroupRecord, model: u32, store: *const u8, store_bytes: usize,
        out: *mut u8, out_bytes: usize) -> DeliveryAnswer;
    fn judge(model: *const u8, model_bytes: usize, sheet: *const u8, sheet_bytes: usize,
        now: u32) -> u64;
    fn ferrulebee_evidence(model: *const u32, model_words: usize, sheet: *const u32,
        sheet_words: usize, now: u32) -> Part;
    fn ferrulebee_spans(model: *const u32, model_words: usize, sheet: *const u32,
        sheet_words: usize, now: u32, list: *mut u32, list_words: usize) -> SpansAnswer;
}

/// Each function lends its slices for the call, with their true lengths.
impl Library {
    pub fn fresh(&self, number: u32) -> GroupAnswer {
        unsafe { (self.ferrulebee_fresh)(number) }
    }

    pub fn request(&self, group: GroupRecord, kind: u32, number: u32) -> GroupAnswer {
        unsafe { (self.ferrulebee_request)(group, kind, number) }
    }

    pub fn request_at(&self, group: &mut GroupRecord, kind: u32, number: u32) -> u32 {
        unsafe { (self.ferrulebee_request_at)(group, kind, number) }
    }

    pub fn close(&self, group: GroupRecord) -> GroupAnswer {
        unsafe { (self.ferrulebee_close)(group) }
    }

    pub fn read(&self, group: GroupRecord, model: u32, sheet: u32) -> ValueAnswer {
        unsafe { (self.ferrulebee_read)(group, model, sheet) }
    }

    pub fn models(&self, group: GroupRecord, sheet: u32) -> ValueAnswer {
        unsafe { (self.ferrulebee_models)(group, sheet) }
    }

    pub fn mask(&self, list: &[GroupRecord], model: u32, sheet: u32) -> ValueAnswer {
        unsafe { (self.ferrulebee_mask)(list.as_ptr(), list.len(), model, sheet) }
    }

    pub fn book_read(&self, book: &[u8], list: &mut [u32]) -> BookReadAnswer {
        let (list, list_words) = (list.as_mut_ptr(), list.len());
        unsafe { (self.ferrulebee_book_read)(book.as_ptr(), book.len(), list, list_words) }
    }

    pub fn book_write(
        &self,
        ticks: u32,
        number: u32,
        records: &[u32],
        buffer: &mut [u8],
    ) -> BookWriteAnswer {
        let (records, count) = (records.as_ptr(), records.len());
        let (buffer, bytes) = (buffer.as_mut_ptr(), buffer.len());
        unsafe { (self.ferrulebee_book_write)(ticks, number, records, count, buffer, bytes) }
    }

    pub fn tick_part(&self, records: &[u32], tick: u32) -> Part {
        unsafe { (self.ferrulebee_tick_part)(records.as_ptr(), records.len(), tick) }
    }

    pub fn deliver(
        &self,
        group: GroupRecord,
        model: u32,
        store: &[u8],
        out: &mut [u8],
    ) -> DeliveryAnswer {
        let (store, store_bytes) = (store.as_ptr(), store.len());
        let (out, out_bytes) = (out.as_mut_ptr(), out.len());
        unsafe { (self.ferrulebee_deliver)(group, model, store, store_bytes, out, out_bytes) }
    }

    /// The judge on two byte strips: code × 2^32 + value.
    pub fn judge(&self, model: &[u8], sheet: &[u8], now: u32) -> u64 {
        unsafe { (self.judge)(model.as_ptr(), model.len(), sheet.as_ptr(), sheet.len(), now) }
    }

    pub fn evidence(&self, model: &[u32], sheet: &[u32], now: u32) -> Part {
        let (model, model_words) = (model.as_ptr(), model.len());
        let (sheet, sheet_words) = (sheet.as_ptr(), sheet.len());
        unsafe { (self.ferrulebee_evidence)(model, model_words, sheet, sheet_words, now) }
    }

    pub fn spans(&self, model: &[u32], sheet: &[u32], now: u32, list: &mut [u32]) -> SpansAnswer {
        let (m, s, words) = (model.as_ptr(), sheet.as_ptr(), list.len());
        let list = list.as_mut_ptr();
        unsafe { (self.ferrulebee_spans)(m, model.len(), s, sheet.len(), now, list, words) }
    }
}

/// What to say about the library at the start of a comparison that would use it.
pub fn notice() -> &'static str {
    match LIBRARY {
        Some(_) => "the gate's C library is linked",
        None => "the gate's C library isn't linked: its calls are not compared",
    }
}
