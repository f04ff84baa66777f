//! Random strips, good and not, through the C library's judge.

use crate::books::event;
use crate::case::Case;
use crate::chance::Chance;
use crate::spanning;
use second::event::Side;
use second::limits::{LAST_TICK, STRIP_WORDS};

/// Some with many spans, so that a cause has others before it and after, or with their last event
/// in the last tick.
pub fn judged(chance: &mut Chance) -> Case {
    let (model, sheet, now) = match chance.percent(20) {
        true => spanning::strips(chance),
        false => strips(chance),
    };
    Case::judge(model, sheet, now)
}

/// Two strips, as bytes, and now.
pub fn strips(chance: &mut Chance) -> (Vec<u8>, Vec<u8>, u32) {
    let now = match chance.within(0..=9) {
        0 => chance.one_of(&[0, LAST_TICK, LAST_TICK + 1, u32::MAX]),
        1..=2 => chance.within(0..=LAST_TICK),
        _ => chance.within(0..=30),
    };
    let model = strip(chance, Side::Model, now);
    let sheet = strip(chance, Side::Sheet, now);
    (model, sheet, now)
}

fn strip(chance: &mut Chance, side: Side, now: u32) -> Vec<u8> {
    let count = match chance.within(0..=999) {
        // The formula takes a thousand times as long on these.
        0 => STRIP_WORDS + chance.place(3) - 1,
        1..=25 => chance.place(300),
        _ => chance.place(9),
    };
    let number = chance.within(0..=side.carriers() - 1);
    let liberal = chance.one_of(&[20, 50, 80]);
    let (mut tick, mut words) = (0, Vec::new());
    let longest_step = (now / (count as u32 + 1)).clamp(1, 40_000);
    for place in 0..count {
        tick += chance.within(1..=longest_step);
        if tick > now && chance.percent(99) {
            break;
        }
        let liberal = chance.percent(liberal);
        words.push(event(side, tick.min(1_048_575), place % 2 == 1, liberal, number).word());
    }
    if chance.percent(20) {
        damage(chance, &mut words);
    }
    let mut bytes: Vec<u8> = words.iter().flat_map(|word| word.to_le_bytes()).collect();
    if chance.percent(3) {
        let extra = chance.within(1..=3) as usize;
        let extra = chance.bytes(extra);
        bytes.extend(extra);
    }
    bytes
}

fn damage(chance: &mut Chance, words: &mut Vec<u32>) {
    if words.is_empty() {
        return words.push(chance.next() as u32);
    }
    let place = chance.place(words.len());
    match chance.within(0..=5) {
        0 => words[place] ^= 1 << chance.within(0..=31),
        1 => drop(words.remove(place)),
        2 => words.insert(place, words[place]),
        3 => words[place] = chance.next() as u32,
        4 => words.swap(place, 0),
        _ => {
            words[place] = words[place] % 4_096 + 4_096 * chance.one_of(&[0, 1_000_000, 1_000_001])
        }
    }
}
