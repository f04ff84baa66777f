//! Changes to lists of event words, and what makes a changed list well-formed again.

use crate::common::Chance;
use second::event::{Event, Kind, Side, KINDS};
use second::limits::{LAST_TICK, MODELS, SHEETS};
use std::collections::BTreeMap;

/// Longer lists are made by `lengthened` alone: the second program takes its time over them.
const USUAL_WORDS: usize = 160;

/// One change of the list.
pub fn change(words: &mut Vec<u32>, ticks: u32, chance: &mut Chance) {
    let at = chance.below(words.len());
    match chance.below(9) {
        0 | 1 | 2 => add(words, ticks, chance),
        _ if words.is_empty() => add(words, ticks, chance),
        3 => drop(words.remove(at)),
        // strict to liberal, or back
        4 => words[at] ^= 512,
        5 => words[at] = event(ticks, chance).word(),
        6 => retick(words, at, ticks, chance),
        // twice the same
        7 => words.insert(at, words[at]),
        _ => {
            let other = chance.below(words.len());
            let tick = Event::from_word(words[other]).tick;
            words[at] = with_tick(words[at], tick);
        }
    }
}

fn add(words: &mut Vec<u32>, ticks: u32, chance: &mut Chance) {
    if words.len() < USUAL_WORDS {
        words.push(event(ticks, chance).word());
    }
}

fn retick(words: &mut [u32], at: usize, ticks: u32, chance: &mut Chance) {
    let tick = Event::from_word(words[at]).tick;
    let near =
        [tick.saturating_sub(1), tick + 1, 1, ticks, 1 + chance.below(ticks as usize) as u32];
    words[at] = with_tick(words[at], chance.pick(&near));
}

fn with_tick(word: u32, tick: u32) -> u32 {
    Event { tick: tick.min(LAST_TICK), ..Event::from_word(word) }.word()
}

fn event(ticks: u32, chance: &mut Chance) -> Event {
    let kind = chance.pick(&KINDS);
    let end = if kind.side() == Side::Model { MODELS } else { SHEETS };
    let tick = match chance.below(4) {
        0 => ticks,
        _ => 1 + chance.below(ticks as usize) as u32,
    };
    Event { tick, kind, number: chance.number(end).min(511) }
}

/// Makes the list well-formed up to a tick: what can't stand is left out, and kinds take turns.
pub fn repair(words: &mut Vec<u32>, ticks: u32) {
    words.sort_unstable();
    let mut before: BTreeMap<(bool, u32), Event> = BTreeMap::new();
    let mut good = Vec::with_capacity(words.len());
    for &word in words.iter() {
        let event = Event::from_word(word);
        if event.tick == 0 || event.tick > ticks || !event.number_in_range() {
            continue;
        }
        let carrier = (event.kind.side() == Side::Model, event.number);
        let last = before.get(&carrier);
        if last.is_some_and(|last| last.tick == event.tick) {
            continue;
        }
        let enters = !last.is_some_and(|last| last.kind.enters());
        let event = Event { kind: turned(event.kind, enters), ..event };
        before.insert(carrier, event);
        good.push(event.word());
    }
    good.sort_unstable();
    *words = good;
}

/// The kind of the same side and strictness that enters, or that goes.
fn turned(kind: Kind, enters: bool) -> Kind {
    if kind.enters() == enters {
        return kind;
    }
    KINDS[(kind.number() ^ 2) as usize]
}

/// Ticks that a change may choose from: few, so that events meet, or all there are.
pub fn other_ticks(ticks: u32, chance: &mut Chance) -> u32 {
    let near = [ticks.saturating_sub(1), ticks.saturating_add(1), 3, 6, 12, 1000, LAST_TICK];
    chance.pick(&near)
}

/// The list filled up to a length with events of models in later ticks; None where no tick is left.
pub fn lengthened(words: &[u32], carriers: usize, length: usize) -> Option<Vec<u32>> {
    let last = words.iter().map(|&word| Event::from_word(word).tick).max().unwrap_or(0);
    let wanted = length.saturating_sub(words.len());
    if last as usize + 1 + wanted / carriers > LAST_TICK as usize {
        return None;
    }
    // Repaired afterwards, so that joins and leaves take turns.
    let event = |more: usize| {
        let (tick, number) = (last + 1 + (more / carriers) as u32, (more % carriers) as u32);
        Event { tick, kind: KINDS[more / carriers % 3], number }.word()
    };
    Some(words.iter().copied().chain((0..wanted).map(event)).collect())
}

pub fn bytes_of(words: &[u32]) -> Vec<u8> {
    words.iter().flat_map(|word| word.to_le_bytes()).collect()
}
