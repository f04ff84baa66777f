//! When the grant held: the longest spans of ticks in which the formula holds.

use crate::event::{Event, Kind};
use crate::formula::History;
use crate::judge::{check_call, events, packed, Cause, Moment, Verdict};
use crate::refusal::{self, Refusal};

/// The numbers that a span takes in a lent list: its first tick and its last.
pub const SPAN_NUMBERS: usize = 2;

#[derive(Clone, Copy, Debug, PartialEq, Eq)]
pub struct Span {
    pub first: u32,
    pub last: u32,
}

/// The spans of two strips. Refusals 10 to 14, as the judge's.
pub fn spans(model: &[u32], sheet: &[u32], now: u32) -> Result<Vec<Span>, Refusal> {
    check_call(model, sheet, now)?;
    Ok(spans_of_history(&History::of_event_ticks(&events(model), &events(sheet)), now))
}

/// The spans as they stand at the front of a lent list with room for so many numbers: pairs of
/// a first and a last tick. Refusal 40.
pub fn listed(spans: &[Span], list: usize) -> Result<Vec<u32>, Refusal> {
    if list < SPAN_NUMBERS * spans.len() {
        return Err(Refusal::plain(refusal::SPAN_LIST));
    }
    Ok(spans.iter().flat_map(|span| [span.first, span.last]).collect())
}

/// The spans of a history up to now. "p since q" holds from each tick where q does for as long
/// as p goes on holding, and nowhere else: the grant, from each moment to the tick before the
/// next SL or SR.
pub fn spans_of_history(history: &History, now: u32) -> Vec<Span> {
    let places = 0..history.ticks.len();
    let held_from = |t: usize| {
        let end = (t + 1..places.end).find(|&k| history.has(k, &[Kind::SL, Kind::SR]));
        let last = end.map_or(now, |end| history.ticks[end].tick - 1);
        Span { first: history.ticks[t].tick, last }
    };
    joined(places.clone().filter(|&t| history.moment(t)).map(held_from))
}

/// The same tick by tick, with the formula asked at every one. Slow: for checking the other.
pub fn spans_tick_by_tick(model: &[Event], sheet: &[Event], now: u32) -> Vec<Span> {
    let history = History::of_every_tick(model, sheet, now);
    let granted = (0..history.ticks.len()).filter(|&t| history.grant_at(t));
    joined(granted.map(|t| history.ticks[t].tick).map(|tick| Span { first: tick, last: tick }))
}

/// The judge's number and the spans of the same strips go together (RULES.md 7): both are refused
/// alike. Granted, the last span ends at now, and has the moment in it. Denied, there is no span, or
/// the cause's tick is right after the last.
pub fn tied(judged: u64, spans: &Result<Vec<Span>, Refusal>, now: u32) -> bool {
    let answers = |verdicts: &[Verdict]| verdicts.iter().any(|&v| judged == packed(Ok(v)));
    let granted = |t| answers(&[Moment::Add(t), Moment::Join(t)].map(Verdict::Granted));
    let ended = |t| answers(&[Cause::StrictLeave(t), Cause::StrictRemove(t)].map(Verdict::Denied));
    let value = judged as u32;
    match spans.as_ref().map(|spans| spans.last()) {
        Err(&refusal) => judged == packed(Err(refusal)),
        Ok(None) => answers(&[Verdict::Denied(Cause::None)]),
        Ok(Some(open)) if open.last == now => (open.first..=now).contains(&value) && granted(value),
        Ok(Some(over)) => ended(over.last + 1),
    }
}

/// Parts by rising first tick, made one where no tick lies between them.
pub fn joined(parts: impl Iterator<Item = Span>) -> Vec<Span> {
    let mut spans: Vec<Span> = Vec::new();
    for part in parts {
        match spans.last_mut() {
            Some(span) if part.first <= span.last + 1 => span.last = span.last.max(part.last),
            _ => spans.push(part),
        }
    }
    spans
}
