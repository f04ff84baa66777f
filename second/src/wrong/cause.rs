//! A strict cause misread, in a verdict that is right otherwise (RULES.md 6.1).

use crate::event::Kind;
use crate::formula::History;
use crate::judge::{verdict, Cause, Verdict};

#[derive(Clone, Copy, Debug, PartialEq, Eq)]
pub enum WrongCause {
    /// It has no tick, but 0.
    Bare,
    /// It has the latest moment's tick.
    Moment,
    /// It has the last tick of the grant, the one before its own.
    Before,
    /// It has the tick of the last strict event.
    Later,
    /// Where leave and remove fall in its tick, it is the remove.
    Remove,
    /// It is the last strict event.
    Last,
    /// It is the earliest strict event of the whole history.
    Earliest,
    /// It is the strict event that ended the first grant.
    FirstGrant,
}

/// The verdict on a well-formed history, with a strict cause misread.
pub fn miscaused(wrong: WrongCause, history: &History) -> Verdict {
    let right = verdict(history);
    let Verdict::Denied(Cause::StrictLeave(end) | Cause::StrictRemove(end)) = right else {
        return right;
    };
    let places = 0..history.ticks.len();
    let tick = |t: usize| history.ticks[t].tick;
    let of_kinds = |kinds: &[Kind]| -> Vec<u32> {
        places.clone().filter(|&t| history.has(t, kinds)).map(tick).collect()
    };
    let (leaves, removes) = (of_kinds(&[Kind::SL]), of_kinds(&[Kind::SR]));
    let strict = of_kinds(&[Kind::SL, Kind::SR]);
    let moments: Vec<u32> = places.clone().filter(|&t| history.moment(t)).map(tick).collect();
    let (first_moment, latest_moment) = (moments[0], moments[moments.len() - 1]);
    let (earliest, last) = (strict[0], strict[strict.len() - 1]);
    let first_end = strict[strict.partition_point(|&tick| tick <= first_moment)];

    // The event of one tick, told with another.
    let told = |event: u32, tick: u32| match leaves.contains(&event) {
        true => Cause::StrictLeave(tick),
        false => Cause::StrictRemove(tick),
    };
    Verdict::Denied(match wrong {
        WrongCause::Bare => told(end, 0),
        WrongCause::Moment => told(end, latest_moment),
        WrongCause::Before => told(end, end - 1),
        WrongCause::Later => told(end, last),
        WrongCause::Remove if removes.contains(&end) => Cause::StrictRemove(end),
        WrongCause::Remove => Cause::StrictLeave(end),
        WrongCause::Last => told(last, last),
        WrongCause::Earliest => told(earliest, earliest),
        WrongCause::FirstGrant => told(first_end, first_end),
    })
}
