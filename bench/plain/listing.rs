//! The listing: every pair that is granted at the book's last tick, by model, then sheet.

use crate::book;
use crate::event::{kind, number, of_model, tick, EVENTS, LA, LJ, LL, LR, MODELS, SA, SHEETS, SJ};
use crate::event::{SL, SR};
use crate::group::Group;
use crate::judge::{judge, Moment, Verdict};
use std::io::Write;

/// The moment of every granted pair, at model × 256 + sheet.
type Moments = Vec<Option<Moment>>;

/// What the listing program prints for the bytes of a book.
pub fn listing(bytes: &[u8], moments: fn(&[u32]) -> Moments) -> std::io::Result<Vec<u8>> {
    let mut out = Vec::new();
    let mut list = [0; EVENTS];
    let mut group = Group::fresh(0);
    match book::read(bytes, &mut list, &mut group) {
        Ok(count) => print(&group, count, &moments(&list[..count]), &mut out)?,
        Err(refusal) => writeln!(out, "{refusal}")?,
    }
    Ok(out)
}

fn print(
    group: &Group,
    records: usize,
    moments: &Moments,
    out: &mut Vec<u8>,
) -> std::io::Result<()> {
    writeln!(out, "group {} ticks {} records {records}", group.number, group.closed)?;
    let mut granted = 0;
    for (pair, moment) in moments.iter().enumerate() {
        let Some(moment) = moment else { continue };
        let (model, sheet) = (pair / SHEETS as usize, pair % SHEETS as usize);
        match moment {
            Moment::ByAdd(tick) => writeln!(out, "{model} {sheet} add {tick}")?,
            Moment::ByJoin(tick) => writeln!(out, "{model} {sheet} join {tick}")?,
        }
        granted += 1;
    }
    writeln!(out, "granted {granted}")
}

/// Judges pair by pair, as the rules tell it (RULES.md 12.1).
pub fn by_pairs(records: &[u32]) -> Moments {
    let (models, sheets) = strips(records);
    let pairs = models.iter().flat_map(|model| sheets.iter().map(move |sheet| (model, sheet)));
    pairs
        .map(|(model, sheet)| match judge(model, sheet) {
            Verdict::Granted(moment) => Some(moment),
            Verdict::Denied(_) => None,
        })
        .collect()
}

/// The strips of all models and of all sheets.
pub fn strips(records: &[u32]) -> (Vec<Vec<u32>>, Vec<Vec<u32>>) {
    let mut models = vec![Vec::new(); MODELS as usize];
    let mut sheets = vec![Vec::new(); SHEETS as usize];
    for &word in records {
        let side = if of_model(kind(word)) { &mut models } else { &mut sheets };
        side[number(word) as usize].push(word);
    }
    (models, sheets)
}

/// Carries every pair's moment through one replay: another way, to show what judging pair by pair costs.
pub fn by_replay(records: &[u32]) -> Moments {
    const WIDTH: usize = SHEETS as usize;
    let mut moments = vec![None; MODELS as usize * WIDTH];
    let mut member = [false; MODELS as usize];
    let mut liberal = [false; WIDTH];
    for events in records.chunk_by(|a, b| tick(*a) == tick(*b)) {
        for &word in events {
            let n = number(word) as usize;
            match kind(word) {
                SJ | LJ => member[n] = true,
                SL | LL => member[n] = false,
                LA => liberal[n] = true,
                SR | LR => liberal[n] = false,
                _ => {}
            }
            match kind(word) {
                SL => moments[n * WIDTH..][..WIDTH].fill(None),
                SR => moments.iter_mut().skip(n).step_by(WIDTH).for_each(|moment| *moment = None),
                _ => {}
            }
        }
        // By join before by add, as the kinds rise: where a tick is both, the add names it.
        for &word in events {
            let n = number(word) as usize;
            match kind(word) {
                LJ => {
                    for sheet in (0..WIDTH).filter(|&sheet| liberal[sheet]) {
                        moments[n * WIDTH + sheet] = Some(Moment::ByJoin(tick(word)));
                    }
                }
                SA | LA => {
                    for model in (0..member.len()).filter(|&model| member[model]) {
                        moments[model * WIDTH + n] = Some(Moment::ByAdd(tick(word)));
                    }
                }
                _ => {}
            }
        }
    }
    moments
}
