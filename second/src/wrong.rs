//! The readings that look right and aren't (RULES.md 15, and 6.1 for the cause), on purpose: the
//! programs take one from the environment as SECOND_WRONG, so that `compare` can be seen to find
//! it.

use crate::bars::beginnings;
use crate::event::{Event, Kind};
use crate::formula::History;
use crate::judge::{events, judge_byte_strips, packed, verdict, words, Cause, Moment, Verdict};
use crate::seen::earliest;
use crate::spans::{joined, spans_of_history, Span};
use cause::{miscaused, WrongCause};

pub mod cause;

#[derive(Clone, Copy, Debug, Default, PartialEq, Eq)]
pub enum Reading {
    #[default]
    Right,
    /// Grants whoever is in today.
    Today,
    /// Applies a tick's events as they arrive: a join, then the sheet's event, then a leave.
    Arrival,
    /// Compares only the latest join with the latest add.
    Latest,
    /// Refuses a delivery for a fault in an ungranted entry.
    Entry,
    /// Has every verdict right, but for a strict cause.
    Cause(WrongCause),
}

impl Reading {
    /// It takes the formula as it is; what it has wrong is a delivery or a cause, if anything.
    fn has_the_formula(self) -> bool {
        matches!(self, Reading::Right | Reading::Entry | Reading::Cause(_))
    }
}

pub const READINGS: [(&str, Reading); 4] = [
    ("today", Reading::Today),
    ("arrival", Reading::Arrival),
    ("latest", Reading::Latest),
    ("entry", Reading::Entry),
];

/// No program tells a cause: these are for a stand-in of the C library.
pub const CAUSE_READINGS: [(&str, Reading); 8] = [
    ("cause-bare", Reading::Cause(WrongCause::Bare)),
    ("cause-moment", Reading::Cause(WrongCause::Moment)),
    ("cause-before", Reading::Cause(WrongCause::Before)),
    ("cause-later", Reading::Cause(WrongCause::Later)),
    ("cause-remove", Reading::Cause(WrongCause::Remove)),
    ("cause-last", Reading::Cause(WrongCause::Last)),
    ("cause-earliest", Reading::Cause(WrongCause::Earliest)),
    ("cause-first-grant", Reading::Cause(WrongCause::FirstGrant)),
];

/// The reading that SECOND_WRONG names; the right one when it isn't set.
pub fn reading_from_environment() -> Result<Reading, String> {
    let name = std::env::var("SECOND_WRONG").unwrap_or_default();
    if name.is_empty() {
        return Ok(Reading::Right);
    }
    reading_named(&name).ok_or_else(|| {
        let known: Vec<&str> = wrong_readings().map(|(name, _)| name).collect();
        format!("SECOND_WRONG={name} is not known: {}", known.join(", "))
    })
}

pub fn reading_named(name: &str) -> Option<Reading> {
    wrong_readings().find(|(known, _)| *known == name).map(|(_, reading)| reading)
}

fn wrong_readings() -> impl Iterator<Item = (&'static str, Reading)> {
    READINGS.into_iter().chain(CAUSE_READINGS)
}

/// The judge of a reading as C asks it; what is refused, each of them refuses.
pub fn judge_bytes_by(reading: Reading, model: &[u8], sheet: &[u8], now: u32) -> u64 {
    let by_reading = |_| verdict_by(reading, &events(&words(model)), &events(&words(sheet)));
    packed(judge_byte_strips(model, sheet, now).map(by_reading))
}

/// The verdict of a reading on the strips of one pair, as of the last close.
pub fn verdict_by(reading: Reading, model: &[Event], sheet: &[Event]) -> Verdict {
    match reading {
        Reading::Right | Reading::Entry => verdict(&History::of_event_ticks(model, sheet)),
        Reading::Today => today(model, sheet),
        Reading::Arrival => arrival(&History::of_event_ticks(model, sheet)),
        Reading::Latest => {
            verdict(&History::of_event_ticks(from_last_entry(model), from_last_entry(sheet)))
        }
        Reading::Cause(wrong) => miscaused(wrong, &History::of_event_ticks(model, sheet)),
    }
}

/// The spans of a reading on the strips of one pair: a wrong one is asked as of each tick with
/// an event, and its answer stands up to the next.
pub fn spans_by(reading: Reading, model: &[Event], sheet: &[Event], now: u32) -> Vec<Span> {
    let history = History::of_event_ticks(model, sheet);
    if reading.has_the_formula() {
        return spans_of_history(&history, now);
    }
    let grants = |tick| verdict_as_of(reading, model, sheet, tick).is_granted();
    let firsts = history.ticks.iter().map(|happening| happening.tick);
    let lasts = firsts.clone().skip(1).map(|next| next - 1).chain([now]);
    let parts = firsts.zip(lasts).map(|(first, last)| Span { first, last });
    joined(parts.filter(|part| grants(part.first)))
}

/// The moments that begin a reading's spans: of a wrong one, those that its verdicts as of their
/// first ticks rest on.
pub fn beginnings_by(
    reading: Reading,
    model: &[Event],
    sheet: &[Event],
    spans: &[Span],
) -> Vec<Moment> {
    if reading.has_the_formula() {
        return beginnings(&History::of_event_ticks(model, sheet), spans);
    }
    let named = |span: &Span| match verdict_as_of(reading, model, sheet, span.first) {
        Verdict::Granted(moment) => moment,
        Verdict::Denied(_) => panic!("the grant holds at a span's first tick"),
    };
    spans.iter().map(named).collect()
}

/// The earliest tick at which a reading grants: of a wrong one, as of each tick with an event.
pub fn earliest_by(reading: Reading, model: &[Event], sheet: &[Event]) -> Option<u32> {
    let history = History::of_event_ticks(model, sheet);
    if reading.has_the_formula() {
        return earliest(&history);
    }
    let grants = |tick: &u32| verdict_as_of(reading, model, sheet, *tick).is_granted();
    history.ticks.iter().map(|happening| happening.tick).find(grants)
}

/// The verdict of a reading on the strips of one pair, as of a tick.
fn verdict_as_of(reading: Reading, model: &[Event], sheet: &[Event], tick: u32) -> Verdict {
    let up_to = |strip: &[Event]| strip.partition_point(|event| event.tick <= tick);
    verdict_by(reading, &model[..up_to(model)], &sheet[..up_to(sheet)])
}

fn today(model: &[Event], sheet: &[Event]) -> Verdict {
    let is_in = |strip: &[Event]| strip.last().is_some_and(|event| event.kind.enters());
    match sheet.last() {
        Some(add) if is_in(model) && is_in(sheet) => Verdict::Granted(Moment::Add(add.tick)),
        _ => Verdict::Denied(Cause::None),
    }
}

fn from_last_entry(strip: &[Event]) -> &[Event] {
    let start = strip.iter().rposition(|event| event.kind.enters());
    &strip[start.unwrap_or(0)..]
}

fn arrival(history: &History) -> Verdict {
    let mut verdict = Verdict::Denied(Cause::None);
    let (mut model, mut sheet) = (None, None);
    for happening in &history.ticks {
        let joins = happening.model.is_some_and(|kind| kind.enters());
        let in_order = match joins {
            true => [happening.model, happening.sheet],
            false => [happening.sheet, happening.model],
        };
        for kind in in_order.into_iter().flatten() {
            verdict = arrive(verdict, kind, happening.tick, model, sheet);
            match kind {
                Kind::SJ | Kind::LJ => model = Some(kind),
                Kind::SL | Kind::LL => model = None,
                Kind::SA | Kind::LA => sheet = Some(kind),
                Kind::SR | Kind::LR => sheet = None,
            }
        }
    }
    verdict
}

fn arrive(
    before: Verdict,
    kind: Kind,
    tick: u32,
    model: Option<Kind>,
    sheet: Option<Kind>,
) -> Verdict {
    match kind {
        Kind::SA | Kind::LA if model.is_some() => Verdict::Granted(Moment::Add(tick)),
        Kind::LJ if sheet == Some(Kind::LA) => Verdict::Granted(Moment::Join(tick)),
        Kind::SL => Verdict::Denied(Cause::StrictLeave(tick)),
        Kind::SR => Verdict::Denied(Cause::StrictRemove(tick)),
        _ => before,
    }
}
