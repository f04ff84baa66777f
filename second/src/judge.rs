//! The history judge: two strips and now in, a verdict or a refusal out.

use crate::event::{Event, Kind, Side};
use crate::formula::History;
use crate::limits::{LAST_TICK, STRIP_WORDS, WORD_BYTES};
use crate::refusal::{self, Refusal};

/// What a grant rests on: the latest moment, with its tick.
#[derive(Clone, Copy, Debug, PartialEq, Eq)]
pub enum Moment {
    Add(u32),
    Join(u32),
}

/// Why a grant is not there: there never was one, or a strict event ended it in its tick.
#[derive(Clone, Copy, Debug, PartialEq, Eq)]
pub enum Cause {
    None,
    StrictLeave(u32),
    StrictRemove(u32),
}

#[derive(Clone, Copy, Debug, PartialEq, Eq)]
pub enum Verdict {
    Granted(Moment),
    Denied(Cause),
}

impl Verdict {
    pub fn is_granted(self) -> bool {
        matches!(self, Verdict::Granted(_))
    }
}

/// The judge on words. Refusals 10 to 14, in that order.
pub fn judge(model: &[u32], sheet: &[u32], now: u32) -> Result<Verdict, Refusal> {
    check_call(model, sheet, now)?;
    Ok(verdict(&History::of_event_ticks(&events(model), &events(sheet))))
}

/// What a call on two strips is refused for. Refusals 10 to 14, in that order.
pub fn check_call(model: &[u32], sheet: &[u32], now: u32) -> Result<(), Refusal> {
    if now > LAST_TICK {
        return Err(Refusal::plain(refusal::NOW));
    }
    if model.len() > STRIP_WORDS {
        return Err(Refusal::plain(refusal::MODEL_STRIP_LENGTH));
    }
    if sheet.len() > STRIP_WORDS {
        return Err(Refusal::plain(refusal::SHEET_STRIP_LENGTH));
    }
    if let Some(place) = first_bad_place(model, Side::Model, now) {
        return Err(Refusal::at(refusal::MODEL_STRIP_BAD, place));
    }
    if let Some(place) = first_bad_place(sheet, Side::Sheet, now) {
        return Err(Refusal::at(refusal::SHEET_STRIP_BAD, place));
    }
    Ok(())
}

/// The first place where a strip is not good up to now.
pub fn first_bad_place(strip: &[u32], side: Side, now: u32) -> Option<u32> {
    (0..strip.len()).find(|&place| !good_place(strip, place, side, now)).map(|place| place as u32)
}

fn good_place(strip: &[u32], place: usize, side: Side, now: u32) -> bool {
    let event = Event::from_word(strip[place]);
    let first = Event::from_word(strip[0]);
    let tick_rises = place == 0 || event.tick > Event::from_word(strip[place - 1]).tick;
    // Strips start with a join or an add and alternate: even places enter, odd places go.
    let turn = event.kind.enters() == place.is_multiple_of(2);
    (1..=now).contains(&event.tick)
        && tick_rises
        && event.kind.side() == side
        && turn
        && event.number_in_range()
        && event.number == first.number
}

/// The verdict on a well-formed history, at its end.
pub fn verdict(history: &History) -> Verdict {
    let Some(latest) = (0..history.ticks.len()).rev().find(|&t| history.moment(t)) else {
        return Verdict::Denied(Cause::None);
    };
    if !history.grant() {
        return Verdict::Denied(cause_after(history, latest));
    }
    let tick = history.ticks[latest].tick;
    if history.moment_by_add(latest) {
        Verdict::Granted(Moment::Add(tick))
    } else {
        Verdict::Granted(Moment::Join(tick))
    }
}

/// The earliest SL or SR after the latest moment, with its tick; both in that tick: strict leave.
fn cause_after(history: &History, latest: usize) -> Cause {
    for t in latest + 1..history.ticks.len() {
        let tick = history.ticks[t].tick;
        if history.has(t, &[Kind::SL]) {
            return Cause::StrictLeave(tick);
        }
        if history.has(t, &[Kind::SR]) {
            return Cause::StrictRemove(tick);
        }
    }
    panic!("a moment with no SL and no SR after it is a grant");
}

/// The words of one of the two lent strips that show why: from the record of the
/// latest moment to that strip's end. Denied or refused: the empty part at the start
/// of the model's strip.
pub fn evidence<'a>(model: &'a [u32], sheet: &'a [u32], now: u32) -> &'a [u32] {
    let from = |strip: &'a [u32], tick: u32| {
        let start = strip.iter().position(|&word| Event::from_word(word).tick == tick);
        &strip[start.expect("the moment's record is in its strip")..]
    };
    match judge(model, sheet, now) {
        Ok(Verdict::Granted(Moment::Add(tick))) => from(sheet, tick),
        Ok(Verdict::Granted(Moment::Join(tick))) => from(model, tick),
        Ok(Verdict::Denied(_)) | Err(_) => &model[..0],
    }
}

/// The judge as C asks it: strips as bytes, the answer packed.
pub fn judge_bytes(model: &[u8], sheet: &[u8], now: u32) -> u64 {
    packed(judge_byte_strips(model, sheet, now))
}

/// The judge's answer as C gets it: code × 2^32 + value.
pub fn packed(answer: Result<Verdict, Refusal>) -> u64 {
    let (code, value) = match answer {
        Ok(Verdict::Granted(Moment::Add(tick))) => (101, tick),
        Ok(Verdict::Granted(Moment::Join(tick))) => (102, tick),
        Ok(Verdict::Denied(Cause::None)) => (103, 0),
        Ok(Verdict::Denied(Cause::StrictLeave(tick))) => (104, tick),
        Ok(Verdict::Denied(Cause::StrictRemove(tick))) => (105, tick),
        Err(refusal) => (refusal.number, refusal.place.unwrap_or(0)),
    };
    (u64::from(code) << 32) + u64::from(value)
}

/// The judge on strips of bytes, four a word.
pub fn judge_byte_strips(model: &[u8], sheet: &[u8], now: u32) -> Result<Verdict, Refusal> {
    if now > LAST_TICK {
        return Err(Refusal::plain(refusal::NOW));
    }
    if !fits_a_strip(model) {
        return Err(Refusal::plain(refusal::MODEL_STRIP_LENGTH));
    }
    if !fits_a_strip(sheet) {
        return Err(Refusal::plain(refusal::SHEET_STRIP_LENGTH));
    }
    judge(&words(model), &words(sheet), now)
}

/// Whole words, and not too many.
fn fits_a_strip(bytes: &[u8]) -> bool {
    bytes.len().is_multiple_of(WORD_BYTES) && bytes.len() / WORD_BYTES <= STRIP_WORDS
}

/// Little-endian words of whole bytes.
pub fn words(bytes: &[u8]) -> Vec<u32> {
    bytes.chunks_exact(WORD_BYTES).map(|b| u32::from_le_bytes([b[0], b[1], b[2], b[3]])).collect()
}

/// The other way round.
pub fn bytes(words: &[u32]) -> Vec<u8> {
    words.iter().flat_map(|word| word.to_le_bytes()).collect()
}

pub fn events(words: &[u32]) -> Vec<Event> {
    words.iter().map(|&word| Event::from_word(word)).collect()
}
