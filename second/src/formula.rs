//! The grant formula of CS-TR-2011-016 (section 2.2), as RULES.md 4 words it:
//! two `since` formulas over the whole history of one model and one sheet.

use crate::event::{Event, Kind};

/// "p since q" at tick t: q held at some tick j no later than t, and p held at
/// every tick after j up to and including t.
pub fn since(t: usize, p: impl Fn(usize) -> bool, q: impl Fn(usize) -> bool) -> bool {
    (0..=t).rev().any(|j| q(j) && (j + 1..=t).all(&p))
}

/// "p since q" at each of so many ticks, in one pass, so that a long history takes no longer than
/// it has to: j can't be earlier than the latest tick at which p didn't hold, and p isn't asked for
/// at j itself; so the latest q decides.
pub fn since_at_each(
    ticks: usize,
    p: impl Fn(usize) -> bool,
    q: impl Fn(usize) -> bool,
) -> Vec<bool> {
    let (mut latest_q, mut latest_without_p) = (None, None);
    let holds_at = |t| {
        if q(t) {
            latest_q = Some(t);
        }
        if !p(t) {
            latest_without_p = Some(t);
        }
        // Where p held at every tick there is none without it, and that is less than any.
        latest_q.is_some() && latest_q >= latest_without_p
    };
    (0..ticks).map(holds_at).collect()
}

/// What one tick holds for the pair.
#[derive(Clone, Copy, Debug)]
pub struct Happening {
    pub tick: u32,
    pub model: Option<Kind>,
    pub sheet: Option<Kind>,
}

/// The ticks of a pair's history, oldest first. The formula speaks of their places.
#[derive(Clone, Debug)]
pub struct History {
    pub ticks: Vec<Happening>,
}

impl History {
    /// Every tick from 1 to now, as the formula is written.
    pub fn of_every_tick(model: &[Event], sheet: &[Event], now: u32) -> History {
        let kind_at = |strip: &[Event], tick: u32| {
            strip.iter().find(|event| event.tick == tick).map(|event| event.kind)
        };
        let happening =
            |tick| Happening { tick, model: kind_at(model, tick), sheet: kind_at(sheet, tick) };
        History { ticks: (1..=now).map(happening).collect() }
    }

    /// Only the ticks where either carrier has an event. The formula has the same
    /// value over these: in a tick without events every "no SL", "no SR" and the like
    /// holds and no join, add or moment does, so the tick neither helps nor harms.
    /// The unit tests and `compare exhaustive` run both and want them equal.
    pub fn of_event_ticks(model: &[Event], sheet: &[Event]) -> History {
        let mut ticks = Vec::with_capacity(model.len() + sheet.len());
        let (mut m, mut s) = (0, 0);
        while m < model.len() || s < sheet.len() {
            let next =
                |strip: &[Event], place: usize| strip.get(place).map_or(u32::MAX, |e| e.tick);
            let tick = next(model, m).min(next(sheet, s));
            let mut happening = Happening { tick, model: None, sheet: None };
            if next(model, m) == tick {
                happening.model = Some(model[m].kind);
                m += 1;
            }
            if next(sheet, s) == tick {
                happening.sheet = Some(sheet[s].kind);
                s += 1;
            }
            ticks.push(happening);
        }
        History { ticks }
    }

    /// The place of a tick, where the history has it.
    pub fn place_of(&self, tick: u32) -> Option<usize> {
        self.ticks.binary_search_by_key(&tick, |happening| happening.tick).ok()
    }

    /// One of these kinds of event happened at the tick.
    pub fn has(&self, t: usize, kinds: &[Kind]) -> bool {
        let happening = self.ticks[t];
        let among = |kind: Option<Kind>| kind.is_some_and(|kind| kinds.contains(&kind));
        among(happening.model) || among(happening.sheet)
    }

    /// The first bracket: an add of either kind, at a tick where (no SL and no LL)
    /// since a join of either kind.
    pub fn moment_by_add(&self, t: usize) -> bool {
        self.has(t, &[Kind::SA, Kind::LA])
            && since(
                t,
                |k| !self.has(k, &[Kind::SL]) && !self.has(k, &[Kind::LL]),
                |j| self.has(j, &[Kind::SJ, Kind::LJ]),
            )
    }

    /// The second bracket: an LJ, at a tick where (no SR and no LR) since an LA.
    pub fn moment_by_join(&self, t: usize) -> bool {
        self.has(t, &[Kind::LJ])
            && since(
                t,
                |k| !self.has(k, &[Kind::SR]) && !self.has(k, &[Kind::LR]),
                |j| self.has(j, &[Kind::LA]),
            )
    }

    pub fn moment(&self, t: usize) -> bool {
        self.moment_by_add(t) || self.moment_by_join(t)
    }

    /// First: (no SL and no SR) since a moment by add.
    fn first(&self, t: usize) -> bool {
        since(
            t,
            |k| !self.has(k, &[Kind::SL]) && !self.has(k, &[Kind::SR]),
            |j| self.moment_by_add(j),
        )
    }

    /// Second: (no SL and no SR) since a moment by join.
    fn second(&self, t: usize) -> bool {
        since(
            t,
            |k| !self.has(k, &[Kind::SL]) && !self.has(k, &[Kind::SR]),
            |j| self.moment_by_join(j),
        )
    }

    /// The grant at a tick: either formula holds there.
    pub fn grant_at(&self, t: usize) -> bool {
        self.first(t) || self.second(t)
    }

    /// Which ticks are moments by add, and which by join: each bracket at every tick, in one pass.
    /// The unit tests want these and `grants` equal to what is asked of one tick.
    pub fn moments(&self) -> (Vec<bool>, Vec<bool>) {
        let places = 0..self.ticks.len();
        let is_in = since_at_each(
            places.end,
            |k| !self.has(k, &[Kind::SL, Kind::LL]),
            |j| self.has(j, &[Kind::SJ, Kind::LJ]),
        );
        let is_in_by_liberal_add = since_at_each(
            places.end,
            |k| !self.has(k, &[Kind::SR, Kind::LR]),
            |j| self.has(j, &[Kind::LA]),
        );
        let by_add = |t| self.has(t, &[Kind::SA, Kind::LA]) && is_in[t];
        let by_join = |t| self.has(t, &[Kind::LJ]) && is_in_by_liberal_add[t];
        (places.clone().map(by_add).collect(), places.map(by_join).collect())
    }

    /// The grant at each tick, likewise.
    pub fn grants(&self) -> Vec<bool> {
        let goes_on = |k| !self.has(k, &[Kind::SL, Kind::SR]);
        let (by_add, by_join) = self.moments();
        let first = since_at_each(self.ticks.len(), goes_on, |j| by_add[j]);
        let second = since_at_each(self.ticks.len(), goes_on, |j| by_join[j]);
        first.iter().zip(second).map(|(first, second)| *first || second).collect()
    }

    /// The grant at the end of the history.
    pub fn grant(&self) -> bool {
        self.ticks.len().checked_sub(1).is_some_and(|last| self.grant_at(last))
    }
}
