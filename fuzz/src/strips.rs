//! Inputs of two strips: now (4 bytes), the model strip's length in bytes (2 bytes), the model's strip
//! and the sheet's strip; and changes to them.

use crate::common::{mutate_bytes, Chance};
use crate::words;
use second::event::Side;
use second::judge::words as words_of;
use second::limits::{LAST_TICK, STRIP_WORDS};

const HEADER: usize = 6;

pub fn parts(input: &[u8]) -> (u32, &[u8], &[u8]) {
    let mut header = [0; HEADER];
    let length = input.len().min(HEADER);
    header[..length].copy_from_slice(&input[..length]);
    let now = u32::from_le_bytes([header[0], header[1], header[2], header[3]]);
    let strips = &input[length..];
    let model = usize::from(u16::from_le_bytes([header[4], header[5]])).min(strips.len());
    let (model, sheet) = strips.split_at(model);
    (now, model, sheet)
}

fn input_of(now: u32, model: &[u8], sheet: &[u8]) -> Vec<u8> {
    [&now.to_le_bytes()[..], &(model.len() as u16).to_le_bytes(), model, sheet].concat()
}

/// The same strips, one of them filled up to the limit, one word below it or one above.
pub fn lengthened(model: &[u8], sheet: &[u8]) -> impl Iterator<Item = (Vec<u8>, Vec<u8>)> {
    let length = STRIP_WORDS - 1 + (model.len() / 4 + sheet.len() / 4) % 3;
    let long = |strip: &[u8], side| {
        let mut strip = words::lengthened(&words_of(strip), 1, length)?;
        make_strip(&mut strip, side, LAST_TICK);
        Some(words::bytes_of(&strip))
    };
    let of_model = long(model, Side::Model).map(|long| (long, sheet.to_vec()));
    let of_sheet = long(sheet, Side::Sheet).map(|long| (model.to_vec(), long));
    of_model.into_iter().chain(of_sheet)
}

pub fn mutate(input: &mut Vec<u8>, most: usize, chance: &mut Chance) {
    if chance.one_in(10) {
        return mutate_bytes(input, most);
    }
    let (now, model, sheet) = parts(input);
    let mut now = now;
    let mut strips = [words_of(model), words_of(sheet)];
    if chance.one_in(6) {
        now = words::other_ticks(now, chance);
    }
    let ticks = now.clamp(1, LAST_TICK);
    for _ in 0..=chance.below(4) {
        words::change(&mut strips[chance.below(2)], ticks, chance);
    }
    if !chance.one_in(10) {
        make_strip(&mut strips[0], Side::Model, ticks);
        make_strip(&mut strips[1], Side::Sheet, ticks);
    }
    let [model, sheet] = strips.map(|strip| words::bytes_of(&strip));
    *input = input_of(now, &model, &sheet);
    if chance.one_in(30) {
        input.pop();
    }
    if chance.one_in(30) {
        input[4] = input[4].wrapping_add(chance.pick(&[1, 2, 3, 4, 252]));
    }
}

/// Gives all words one side and one number, then repairs them.
fn make_strip(strip: &mut Vec<u32>, side: Side, ticks: u32) {
    let first_kind = if side == Side::Model { 0 } else { 4 };
    let number = strip.first().map_or(0, |word| word % 64);
    for word in strip.iter_mut() {
        let kind = first_kind + *word / 512 % 4;
        *word = *word / 4096 * 4096 + kind * 512 + number;
    }
    words::repair(strip, ticks);
}
