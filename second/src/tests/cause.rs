//! Why the judge denies, and since which tick: the strict causes, and how they go with the spans.

use super::{every_history, strip, ADD, JOIN, NONE};
use crate::event::Kind;
use crate::formula::History;
use crate::judge::{events, judge, packed, verdict, Cause, Moment, Verdict};
use crate::refusal::Refusal;
use crate::spans::{spans, spans_tick_by_tick, tied, Span};
use crate::wrong::{reading_named, verdict_by, CAUSE_READINGS};

const LEAVE: fn(u32) -> Verdict = |tick| Verdict::Denied(Cause::StrictLeave(tick));
const REMOVE: fn(u32) -> Verdict = |tick| Verdict::Denied(Cause::StrictRemove(tick));

/// The verdict, which is the same by the formula on every tick where now is near, and which the
/// spans go with.
fn judged(model: &str, sheet: &str, now: u32) -> Verdict {
    let (m, s) = (strip(model), strip(sheet));
    let judged = judge(&m, &s, now).unwrap();
    assert!(tied(packed(Ok(judged)), &spans(&m, &s, now), now), "{model} | {sheet} | {now}");
    if now <= 100 {
        let every = History::of_every_tick(&events(&m), &events(&s), now);
        assert_eq!(verdict(&every), judged, "{model} | {sheet} | {now}, every tick");
    }
    judged
}

#[test]
fn the_event_that_ended_the_grant() {
    assert_eq!(judged("SJ1 SL2", "SA1", 2), LEAVE(2), "as early as can be");
    assert_eq!(judged("SJ1", "SA1 SR2", 2), REMOVE(2), "likewise");
    assert_eq!(judged("SJ1 SL2", "SA1", 1_000_000), LEAVE(2), "long ago");
    assert_eq!(judged("SJ1 SL7", "SA2 LR4 LA5", 9), LEAVE(7), "after a moment within the span");
    assert_eq!(judged("SJ1 SL4", "SA2 SR4", 9), LEAVE(4), "both in one tick");
    assert_eq!(judged("SJ1 SL3 LJ4 SL5", "LA2 SR5", 9), LEAVE(5), "both, at the second end");
}

#[test]
fn strict_events_that_ended_no_grant() {
    assert_eq!(judged("SJ1 SL2", "SA3 SR4", 9), NONE, "never granted");
    assert_eq!(judged("SJ1 SL2 SJ3 SL6", "SA4", 9), LEAVE(6), "a leave before the first moment");
    assert_eq!(judged("SJ3", "SA1 SR2 LA4 SR5", 9), REMOVE(5), "a remove before it");
    assert_eq!(judged("SJ3 SL6", "SA1 SR2 LA4", 9), LEAVE(6), "a remove before it, then a leave");
    assert_eq!(judged("SJ1 SL3 SJ4 SL5", "SA2", 9), LEAVE(3), "another leave after the end");
    assert_eq!(judged("SJ1 SL5", "SA2 SR3", 9), REMOVE(3), "a leave after the remove");
    assert_eq!(judged("SJ1 SL3", "SA2 SR5", 9), LEAVE(3), "a remove after the leave");
    assert_eq!(judged("SJ1 SL5", "SA2 SR3 LA5 SR6", 9), REMOVE(3), "an add as the model leaves");
}

#[test]
fn the_second_end_of_two() {
    assert_eq!(judged("SJ1 SL3 LJ4", "LA2", 5), JOIN(4), "granted again");
    assert_eq!(judged("SJ1 SL3 LJ4 SL6", "LA2", 9), LEAVE(6));
    assert_eq!(judged("SJ1", "SA2 SR3 LA4 SR7", 9), REMOVE(7));
    assert_eq!(judged("SJ1 SL6", "SA2 SR3 LA4", 9), LEAVE(6), "a remove, then a leave");
    assert_eq!(judged("SJ1 SL3 LJ4", "LA2 SR6", 9), REMOVE(6), "a leave, then a remove");
    assert_eq!(judged("LJ1 SL2 LJ3 SL4", "LA1", 4), LEAVE(4), "a rejoin in the next tick");
}

#[test]
fn liberal_events_that_ended_nothing() {
    assert_eq!(judged("SJ1 SL5", "SA2 LR3", 9), LEAVE(5), "after a liberal remove");
    assert_eq!(judged("SJ1 LL3", "SA2 SR5", 9), REMOVE(5), "after a liberal leave");
    assert_eq!(judged("SJ1 LL3 SJ4 SL6", "SA2", 9), LEAVE(6), "after a leave and a strict join");
    assert_eq!(judged("SJ1 LL3", "SA2 SR3", 9), REMOVE(3), "a liberal leave in its tick");
    assert_eq!(judged("SJ1 SL3", "SA2 LR3", 9), LEAVE(3), "a liberal remove in its tick");
    assert_eq!(judged("SJ1 LL3 LJ4", "LA2 SR4", 9), REMOVE(4), "a liberal join in its tick");
    assert_eq!(judged("SJ1 SL4", "SA2 LR3 LA4", 9), LEAVE(4), "a liberal add in its tick");
}

#[test]
fn an_end_in_the_last_tick() {
    const LAST: u32 = 1_000_000;
    assert_eq!(judged("SJ999999 SL1000000", "SA999999", LAST), LEAVE(LAST));
    assert_eq!(judged("SJ1", "SA1 SR1000000", LAST), REMOVE(LAST));
    assert_eq!(judged("SJ1 SL1000000", "SA1 SR1000000", LAST), LEAVE(LAST));
    assert_eq!(judged("SJ1 SL999999", "SA1 SR1000000", LAST), LEAVE(LAST - 1));
    assert_eq!(judged("SJ1 SL1000000", "SA1 SR2 SA1000000", LAST), REMOVE(2));
}

/// RULES.md 6.1 and 7 on every history of four ticks, at the last of them and one tick later, by the
/// formula on every tick.
#[test]
fn the_cause_is_where_the_formula_ends() {
    const TICKS: u32 = 4;
    for (model, sheet) in every_history(TICKS) {
        for now in [TICKS, TICKS + 1] {
            let history = History::of_every_tick(&model, &sheet, now);
            let spans = spans_tick_by_tick(&model, &sheet, now);
            let (verdict, last) = (verdict(&history), spans.last().copied());
            let told = format!("{model:?} {sheet:?} {now}: {verdict:?} {spans:?}");
            match (verdict, last) {
                (Verdict::Granted(Moment::Add(tick) | Moment::Join(tick)), Some(span)) => {
                    assert!(span.last == now && (span.first..=now).contains(&tick), "{told}");
                }
                (Verdict::Denied(Cause::None), None) => (),
                (
                    Verdict::Denied(Cause::StrictLeave(tick) | Cause::StrictRemove(tick)),
                    Some(span),
                ) => {
                    assert_eq!(tick, span.last + 1, "{told}");
                    let end = history.place_of(tick).expect("a tick up to now");
                    let leaves = history.has(end, &[Kind::SL]);
                    assert!(leaves || history.has(end, &[Kind::SR]), "{told}");
                    assert_eq!(verdict == LEAVE(tick), leaves, "{told}");
                    let latest = (0..now as usize).rev().find(|&t| history.moment(t)).unwrap();
                    assert!((latest..end).all(|t| history.grant_at(t)), "{told}");
                    assert!(!(end..now as usize).any(|t| history.grant_at(t)), "{told}");
                }
                _ => panic!("{told}"),
            }
            assert!(tied(packed(Ok(verdict)), &Ok(spans), now), "{told}");
        }
    }
}

#[test]
fn a_judge_that_does_not_go_with_the_spans() {
    let refused = Err(Refusal::at(13, 2));
    let (none, ended, open) = (Ok(vec![]), Ok(vec![SPAN(4, 6)]), Ok(vec![SPAN(1, 2), SPAN(4, 9)]));
    let goes = |answer, spans| tied(packed(answer), spans, 9);
    assert!(goes(Err(Refusal::at(13, 2)), &refused) && goes(Ok(NONE), &none));
    assert!(goes(Ok(LEAVE(7)), &ended) && goes(Ok(REMOVE(7)), &ended));
    assert!(goes(Ok(ADD(4)), &open) && goes(Ok(JOIN(9)), &open));
    for other in [Err(Refusal::at(13, 1)), Err(Refusal::at(14, 2)), Ok(NONE)] {
        assert!(!goes(other, &refused), "{other:?}");
    }
    for other in [refused_by_now(), Ok(LEAVE(0)), Ok(REMOVE(1)), Ok(ADD(0)), Ok(JOIN(9))] {
        assert!(!goes(other, &none), "{other:?}");
    }
    for tick in [0, 4, 6, 8, 9] {
        assert!(!goes(Ok(LEAVE(tick)), &ended) && !goes(Ok(REMOVE(tick)), &ended), "{tick}");
    }
    for other in [refused_by_now(), Ok(NONE), Ok(ADD(4)), Ok(JOIN(7))] {
        assert!(!goes(other, &ended), "{other:?}");
    }
    for other in [Ok(NONE), Ok(ADD(2)), Ok(JOIN(3)), Ok(ADD(10)), Ok(LEAVE(3)), Ok(REMOVE(10))] {
        assert!(!goes(other, &open), "{other:?}");
    }
}

const SPAN: fn(u32, u32) -> Span = |first, last| Span { first, last };

fn refused_by_now() -> Result<Verdict, Refusal> {
    Err(Refusal::plain(10))
}

/// One history in which each wrong reading tells a cause of its own: a strict leave before the
/// first moment, two grants, the second ended by both at once, and a remove after it.
#[test]
fn wrong_causes() {
    let (model, sheet) = ("SJ1 SL2 SJ3 SL5 LJ6 SL8", "LA4 SR8 SA9 SR11");
    assert_eq!(judged(model, sheet, 12), LEAVE(8));
    let (m, s) = (events(&strip(model)), events(&strip(sheet)));
    let wrong = |name: &str| verdict_by(reading_named(name).unwrap(), &m, &s);
    assert_eq!(wrong("cause-bare"), LEAVE(0));
    assert_eq!(wrong("cause-moment"), LEAVE(6));
    assert_eq!(wrong("cause-before"), LEAVE(7));
    assert_eq!(wrong("cause-later"), LEAVE(11));
    assert_eq!(wrong("cause-remove"), REMOVE(8));
    assert_eq!(wrong("cause-last"), REMOVE(11));
    assert_eq!(wrong("cause-earliest"), LEAVE(2));
    assert_eq!(wrong("cause-first-grant"), LEAVE(5));
}

/// A wrong cause leaves every other verdict as it is; and the spans tell all but which of two events
/// in one tick was named.
#[test]
fn wrong_causes_and_the_spans() {
    const TICKS: u32 = 4;
    for (name, reading) in CAUSE_READINGS {
        let (mut others, mut untied) = (0, 0);
        for (model, sheet) in every_history(TICKS) {
            let history = History::of_event_ticks(&model, &sheet);
            let (right, wrong) = (verdict(&history), verdict_by(reading, &model, &sheet));
            let strict =
                matches!(right, Verdict::Denied(Cause::StrictLeave(_) | Cause::StrictRemove(_)));
            assert!(strict || wrong == right, "{name} {model:?} {sheet:?}");
            let spans = Ok(spans_tick_by_tick(&model, &sheet, TICKS));
            others += u32::from(wrong != right);
            untied += u32::from(!tied(packed(Ok(wrong)), &spans, TICKS));
        }
        assert!(others > 0, "{name}");
        assert_eq!(untied, if name == "cause-remove" { 0 } else { others }, "{name}");
    }
}
