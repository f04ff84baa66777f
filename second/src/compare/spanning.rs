//! Random strips for the spans: with none, with one and with many, good and not; and lists of
//! every short length.

use crate::books::event;
use crate::case::Case;
use crate::chance::Chance;
use crate::judging;
use second::event::{Event, Side};
use second::judge::words;
use second::limits::{LAST_TICK, STRIP_WORDS, WORD_BYTES};
use second::spans::{spans, SPAN_NUMBERS};

/// Up to so many spans every shorter list is tried, and some longer ones.
const FEW_SPANS: usize = 4;
const LONGER: i64 = 3;

pub fn spanned(chance: &mut Chance) -> Case {
    let (model, sheet, now) = strips(chance);
    let found = spans(&words(&model), &words(&sheet), now).map_or(0, |spans| spans.len());
    let needed = (SPAN_NUMBERS * found) as i64;
    let more: Vec<i64> = match found {
        0..=FEW_SPANS => (-needed..=LONGER).collect(),
        _ => vec![0, -1, -i64::from(chance.within(1..=needed as u32)), LONGER],
    };
    Case::spans(model, sheet, now, &more)
}

/// Two strips, as bytes, and now.
pub fn strips(chance: &mut Chance) -> (Vec<u8>, Vec<u8>, u32) {
    let (mut model, mut sheet, mut now) = match chance.percent(50) {
        true => judging::strips(chance),
        false => many_spans(chance),
    };
    let last = last_tick(&model).max(last_tick(&sheet)).min(LAST_TICK);
    match chance.within(0..=9) {
        0..=3 => now = chance.one_of(&[last, last, LAST_TICK.min(last + 1), LAST_TICK]),
        4 => {
            // The same events, the last of them in the last tick.
            now = LAST_TICK;
            model = later(&model, LAST_TICK - last);
            sheet = later(&sheet, LAST_TICK - last);
        }
        _ => (),
    }
    if chance.percent(3) {
        let strip = if chance.percent(50) { &mut model } else { &mut sheet };
        *strip = chance.bytes(WORD_BYTES * (STRIP_WORDS + 1));
    }
    (model, sheet, now)
}

fn last_tick(strip: &[u8]) -> u32 {
    words(strip).last().map_or(0, |&word| Event::from_word(word).tick)
}

fn later(strip: &[u8], ticks: u32) -> Vec<u8> {
    let moved = |word: u32| word.wrapping_add(Event { tick: ticks, ..Event::from_word(0) }.word());
    words(strip).into_iter().flat_map(|word| moved(word).to_le_bytes()).collect()
}

/// One carrier comes and goes, mostly so that a grant begins and ends each time; the other
/// has few events, or as many.
fn many_spans(chance: &mut Chance) -> (Vec<u8>, Vec<u8>, u32) {
    let count = match chance.within(0..=9_999) {
        0 => STRIP_WORDS - chance.place(2),
        1..=49 => 1 + chance.place(300),
        _ => 1 + chance.place(24),
    };
    let few = chance.one_of(&[1, 1, 1, 2, 3, count]);
    let step = chance.one_of(&[1, 1, 2, 3, 30, (LAST_TICK - 1) / count as u32]);
    let counts = chance.one_of(&[[count, few], [few, count]]);
    let model = coming_and_going(chance, Side::Model, counts[0], step);
    let sheet = coming_and_going(chance, Side::Sheet, counts[1], step);
    let last = last_tick(&model).max(last_tick(&sheet));
    (model, sheet, last + chance.within(0..=1))
}

fn coming_and_going(chance: &mut Chance, side: Side, count: usize, step: u32) -> Vec<u8> {
    let number = chance.within(0..=side.carriers() - 1);
    let [liberal_in, liberal_out] = [chance.one_of(&[20, 90]), chance.one_of(&[10, 10, 60])];
    let mut tick = 0;
    let mut word = |place: usize| {
        tick += chance.within(1..=step);
        let is_in = place % 2 == 1;
        let liberal = chance.percent(if is_in { liberal_out } else { liberal_in });
        event(side, tick, is_in, liberal, number).word()
    };
    (0..count).flat_map(|place| word(place).to_le_bytes()).collect()
}
