//! The inputs: strips, books, stores and commands, made by fixed rules from a fixed seed.

use crate::dice::Dice;
use plain::event::{kind, word, EVENTS, LJ, LL, LR, SA, SHEETS, SJ, TICKS};
use plain::group::Group;
use plain::judge::{judge, Verdict};

pub const NOW: u32 = TICKS;

/// A model's and a sheet's strip, as words or as bytes.
pub struct Strips<T = u32> {
    pub model: Vec<T>,
    pub sheet: Vec<T>,
}

impl Strips {
    pub fn bytes(&self) -> Strips<u8> {
        Strips { model: bytes(&self.model), sheet: bytes(&self.sheet) }
    }
}

pub fn bytes(words: &[u32]) -> Vec<u8> {
    words.iter().flat_map(|word| word.to_le_bytes()).collect()
}

/// Two strips of so many words that end in a grant, their ticks in no pattern.
pub fn strips(dice: &mut Dice, words: u32) -> Strips {
    loop {
        let model = strip(dice, SJ, 2, words);
        let sheet = strip(dice, SA, 7, words);
        if matches!(judge(&model, &sheet), Verdict::Granted(_)) {
            return Strips { model, sheet };
        }
    }
}

/// Two strips of so many words whose events take turns, tick by tick, and whose kinds repeat. All leaves
/// and removes are of one sort: where they are liberal the grant holds from its first moment on, where
/// they are strict there is a span for every two words of a strip.
pub fn even_strips(words: u32, leave: u32) -> Strips {
    let strip = |side, number, first| -> Vec<u32> {
        let kinds = [SJ, leave, LJ, leave].map(|kind| side + kind);
        (0..words).map(|place| word(first + 2 * place, kinds[place as usize % 4], number)).collect()
    };
    Strips { model: strip(SJ, 2, 1), sheet: strip(SA, 7, 2) }
}

/// Events on one side, each strict or liberal by a throw; the last, a leave or remove, is liberal.
fn strip(dice: &mut Dice, side: u32, number: u32, words: u32) -> Vec<u32> {
    let gap = NOW / words;
    let mut tick = 0;
    let mut strip: Vec<u32> = (0..words)
        .map(|place| {
            tick += 1 + dice.below(gap);
            word(tick, side + place % 2 * 2 + dice.below(2), number)
        })
        .collect();
    if let Some(last) = strip.last_mut() {
        let liberal = if side == SJ { LL } else { LR };
        *last = *last - (kind(*last) << 9) + (liberal << 9);
    }
    strip
}

/// A book of group 3 with all ticks closed and so many records at ticks in no pattern.
pub fn book(dice: &mut Dice, records: usize) -> Vec<u8> {
    let mut ticks: Vec<u32> = (0..records).map(|_| 1 + dice.below(TICKS)).collect();
    ticks.sort_unstable();
    let mut group = Group::fresh(3);
    let mut words = Vec::new();
    for tick in ticks {
        while group.closed + 1 < tick {
            group.close().expect("a tick is left");
        }
        let (kind, number) = accepted(dice, &mut group);
        words.push(word(tick, kind, number));
    }
    words.sort_unstable();
    let mut book = vec![0; 20 + 4 * records];
    plain::book::write(TICKS, 3, &words, &mut book).expect("a good book");
    book
}

/// A request that the group accepts and holds from now on. Half are a model's. Carriers stay in for
/// longer than they are out, and most events are liberal.
pub fn accepted(dice: &mut Dice, group: &mut Group) -> (u32, u32) {
    loop {
        let (side, numbers) = if dice.percent(50) { (SJ, 64) } else { (SA, SHEETS) };
        let leaves = if dice.percent(40) { 2 } else { 0 };
        let kind = side + leaves + u32::from(dice.percent(70));
        let number = dice.below(numbers);
        if group.request(kind, number).is_ok() {
            return (kind, number);
        }
    }
}

/// A store with sheets of these lengths, each at its own place.
pub fn store(dice: &mut Dice, lengths: &[u32]) -> Vec<u8> {
    let table = 8 + 8 * lengths.len() as u32;
    let total = table + lengths.iter().sum::<u32>();
    let mut words = vec![total, lengths.len() as u32];
    let mut offset = table;
    for &length in lengths {
        words.extend([offset, length]);
        offset += length;
    }
    let mut store = bytes(&words);
    store.resize_with(total as usize, || dice.below(256) as u8);
    store
}

/// A group that has seen a full book, with model 0 granted exactly the first so many sheets.
pub fn group(dice: &mut Dice, sheets: usize) -> Group {
    let mut group = Group::fresh(0);
    let mut list = [0; EVENTS];
    plain::book::read(&book(dice, EVENTS), &mut list, &mut group).expect("a good book");
    for (sheet, grant) in group.grants.iter_mut().enumerate() {
        *grant = *grant & !1 | u64::from(sheet < sheets);
    }
    group
}

/// Lines for the keeper. Of 100, 45 are requests that are accepted, 3 are requests at random, half of
/// them refused, 6 are closes, 38 are reads and 8 ask how many models may read a sheet.
pub fn commands(dice: &mut Dice, count: usize) -> String {
    const KINDS: [&str; 8] = ["SJ", "LJ", "SL", "LL", "SA", "LA", "SR", "LR"];
    let mut group = Group::fresh(3);
    let mut lines = String::from("fresh 3\n");
    for _ in 1..count {
        lines += &match dice.below(100) {
            0..45 => {
                let (kind, number) = accepted(dice, &mut group);
                format!("{} {number}\n", KINDS[kind as usize])
            }
            45..48 => {
                let (kind, number) = (dice.below(8), dice.below(64));
                let _ = group.request(kind, number);
                format!("request {kind} {number}\n")
            }
            48..54 => {
                group.close().expect("a tick is left");
                String::from("close\n")
            }
            54..92 => format!("read {} {}\n", dice.below(64), dice.below(SHEETS)),
            _ => format!("models {}\n", dice.below(SHEETS)),
        };
    }
    lines
}
