//! The judge: checks both strips, then one pass over their ticks. The spans share the checks.

use crate::event::{enters, kind, number, numbers, tick, EVENTS, LA, LJ, SA, SJ, SL, SR, TICKS};
use crate::refusal::{refused, refused_at, Refusal};

/// A word of a strip as it is lent: as bytes to the judge, as a number to the spans.
pub trait Word: Copy {
    fn word(self) -> u32;
}

impl Word for [u8; 4] {
    fn word(self) -> u32 {
        u32::from_le_bytes(self)
    }
}

impl Word for u32 {
    fn word(self) -> u32 {
        self
    }
}

#[derive(Clone, Copy, Debug, PartialEq, Eq)]
pub enum Verdict {
    Granted(Moment),
    Denied(Cause),
}

#[derive(Clone, Copy, Debug, PartialEq, Eq)]
pub enum Moment {
    ByAdd(u32),
    ByJoin(u32),
}

#[derive(Clone, Copy, Debug, PartialEq, Eq)]
pub enum Cause {
    None,
    StrictLeave(u32),
    StrictRemove(u32),
}

/// The judge as the plot loader asks it: strips as bytes, the answer packed.
pub fn judge_bytes(model: &[u8], sheet: &[u8], now: u32) -> u64 {
    let (code, value) = match checked(model, sheet, now) {
        Ok(Verdict::Granted(Moment::ByAdd(tick))) => (101, tick),
        Ok(Verdict::Granted(Moment::ByJoin(tick))) => (102, tick),
        Ok(Verdict::Denied(Cause::None)) => (103, 0),
        Ok(Verdict::Denied(Cause::StrictLeave(tick))) => (104, tick),
        Ok(Verdict::Denied(Cause::StrictRemove(tick))) => (105, tick),
        Err(refusal) => (refusal.number, refusal.place.unwrap_or(0)),
    };
    u64::from(code) << 32 | u64::from(value)
}

fn checked(model: &[u8], sheet: &[u8], now: u32) -> Result<Verdict, Refusal> {
    if now > TICKS {
        return refused(10);
    }
    let Some(model) = whole_words(model) else { return refused(11) };
    let Some(sheet) = whole_words(sheet) else { return refused(12) };
    check_good(model, sheet, now)?;
    Ok(judge(model, sheet))
}

fn whole_words(strip: &[u8]) -> Option<&[[u8; 4]]> {
    let (words, rest) = strip.as_chunks();
    (rest.is_empty() && words.len() <= EVENTS).then_some(words)
}

/// Refusals 13 and 14.
pub fn check_good<W: Word>(model: &[W], sheet: &[W], now: u32) -> Result<(), Refusal> {
    if let Some(place) = first_bad(model, SJ, now) {
        return refused_at(13, place);
    }
    if let Some(place) = first_bad(sheet, SA, now) {
        return refused_at(14, place);
    }
    Ok(())
}

/// The first place where a strip isn't good; `side` is the first kind of its side.
fn first_bad<W: Word>(strip: &[W], side: u32, now: u32) -> Option<usize> {
    let carrier = number(strip.first()?.word());
    let mut before = 0;
    let mut entering = true;
    for (place, word) in strip.iter().enumerate() {
        let word = word.word();
        let good = tick(word) > before
            && tick(word) <= now
            && kind(word) & 4 == side
            && enters(kind(word)) == entering
            && number(word) == carrier
            && carrier < numbers(side);
        if !good {
            return Some(place);
        }
        before = tick(word);
        entering = !entering;
    }
    None
}

/// Past a strip's end: above every tick.
pub const NO_TICK: u32 = u32::MAX;
pub const NO_KIND: u32 = 8;

/// The verdict on two good strips. Not inlined, so that the loop has the registers to itself: it is a tenth
/// faster.
#[inline(never)]
pub fn judge<W: Word>(model: &[W], sheet: &[W]) -> Verdict {
    let (mut models, mut sheets) = (Events::of(model), Events::of(sheet));
    let mut member = false;
    let mut liberal = false;
    let mut verdict = Verdict::Denied(Cause::None);
    loop {
        let now = models.tick.min(sheets.tick);
        if now == NO_TICK {
            return verdict;
        }
        let (model, sheet) = (models.take(now), sheets.take(now));
        match model {
            SJ | LJ => member = true,
            NO_KIND => {}
            _ => member = false,
        }
        match sheet {
            LA => liberal = true,
            SA | NO_KIND => {}
            _ => liberal = false,
        }
        if member && (sheet == SA || sheet == LA) {
            verdict = Verdict::Granted(Moment::ByAdd(now));
        } else if model == LJ && liberal {
            verdict = Verdict::Granted(Moment::ByJoin(now));
        } else if matches!(verdict, Verdict::Granted(_)) {
            if model == SL {
                verdict = Verdict::Denied(Cause::StrictLeave(now));
            } else if sheet == SR {
                verdict = Verdict::Denied(Cause::StrictRemove(now));
            }
        }
    }
}

/// A strip's events from the one that comes next.
pub struct Events<'a, W> {
    rest: std::slice::Iter<'a, W>,
    pub tick: u32,
    kind: u32,
}

impl<'a, W: Word> Events<'a, W> {
    pub fn of(strip: &'a [W]) -> Self {
        let mut events = Events { rest: strip.iter(), tick: 0, kind: NO_KIND };
        events.advance();
        events
    }

    fn advance(&mut self) {
        (self.tick, self.kind) = match self.rest.next() {
            Some(word) => (tick(word.word()), kind(word.word())),
            None => (NO_TICK, NO_KIND),
        };
    }

    /// The kind of the event in this tick, if there is one.
    pub fn take(&mut self, now: u32) -> u32 {
        if self.tick != now {
            return NO_KIND;
        }
        let kind = self.kind;
        self.advance();
        kind
    }
}
