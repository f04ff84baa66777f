//! Fuzzes the C judge: an input is now and two strips. The packed answers have to be equal.

mod chosen;
mod common;
mod places;
mod strips;
mod words;

use chosen::chosen;
use common::{case_wanted, differs, hexadecimal, reading, tally};
use second::judge::judge_bytes;
use second::limits::LAST_TICK;
use second::wrong::{judge_bytes_by, Reading};
use strips::{lengthened, parts};

fuzz_target!(check, strips::mutate);

extern "C" {
    fn judge(model: *const u8, models: usize, sheet: *const u8, sheets: usize, now: u32) -> u64;
}

fn check(input: &[u8]) {
    let (now, model, sheet) = parts(input);
    if case_wanted() {
        return print_case(now, model, sheet);
    }
    compare(now, model, sheet);
    if chosen(input, 512) {
        for (model, sheet) in lengthened(model, sheet) {
            compare(now.max(LAST_TICK), &model, &sheet);
        }
    }
}

fn compare(now: u32, model: &[u8], sheet: &[u8]) {
    // Both slices are lent for the call with their true lengths.
    let gate = unsafe { judge(model.as_ptr(), model.len(), sheet.as_ptr(), sheet.len(), now) };
    let second = expected(model, sheet, now);
    if gate != second {
        let said = |answer: u64| format!("{} with {}", answer >> 32, answer as u32).into_bytes();
        let lengths = format!("{} and {} bytes", model.len(), sheet.len());
        differs(&format!("judge at {now}, {lengths}"), &said(gate), &said(second));
    }
    tally(&format!("code {}", second >> 32));
}

/// The second program's answer; a verdict by the wrong reading where one is set.
fn expected(model: &[u8], sheet: &[u8], now: u32) -> u64 {
    match reading() {
        Reading::Right => judge_bytes(model, sheet, now),
        wrong => judge_bytes_by(wrong, model, sheet, now),
    }
}

fn print_case(now: u32, model: &[u8], sheet: &[u8]) {
    println!("trial library");
    println!("file both model0 {}", hexadecimal(model));
    println!("file both sheet0 {}", hexadecimal(sheet));
    println!("line both judge 0 {now}");
}
