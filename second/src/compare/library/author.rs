//! Random runs of calls on the library: calls that are accepted and calls that must be
//! refused, on groups reached by calls, by books, and lent with any contents.

use super::record_of;
use super::station::{Held, Station};
use crate::books::{any_book, book_near_the_last_tick, event, flip_a_bit, good_book};
use crate::case::{Case, Run, Trial};
use crate::chance::Chance;
use crate::judging;
use crate::spanning;
use crate::stores::{any_store, store_with_entries};
use second::book;
use second::event::{Event, Side};
use second::judge::words;
use second::limits::{BOOK_HEADER, GROUPS, LAST_TICK, STATION_GROUPS, STRIP_WORDS, WORD_BYTES};
use second::record::{has, GroupRecord};
use std::mem::{offset_of, size_of};

/// The bytes of a group before its grants.
const MARKS_END: usize = offset_of!(GroupRecord, grants);

/// Two more than a list may have.
const POSITIONS: u32 = STATION_GROUPS as u32 + 2;

struct Author<'a> {
    chance: &'a mut Chance,
    case: Case,
    /// The second program's own groups, which tell the author where things stand.
    station: Station,
    models: Vec<u32>,
    sheets: Vec<u32>,
    liberal: u32,
}

pub fn calls(chance: &mut Chance) -> Case {
    let (models, model_limit) = chance.one_of(&[(1, 2), (2, 4), (2, 64), (4, 64), (9, 64)]);
    let (sheets, sheet_limit) = chance.one_of(&[(1, 1), (2, 4), (2, 256), (4, 8), (12, 256)]);
    let models = chance.pick(models, model_limit);
    let sheets = chance.pick(sheets, sheet_limit);
    let liberal = chance.one_of(&[20, 50, 80]);
    let (case, station) = (Case::new(Trial::Library), Station::default());
    let mut author = Author { chance, case, station, models, sheets, liberal };
    match author.chance.within(0..=99) {
        0..=34 => author.running_gate(),
        35..=46 => author.station_of_groups(),
        47..=69 => author.books(),
        70..=91 => author.deliveries(),
        _ => author.judges(),
    }
    author.case
}

impl Author<'_> {
    fn say(&mut self, line: String) {
        self.case.add_line(Run::Both, line.as_bytes());
    }

    /// Lays out a file of this kind and answers its number.
    fn lay_out(&mut self, kind: &str, bytes: Vec<u8>) -> usize {
        let number = self.case.files.len();
        self.case.add_file(Run::Both, format!("{kind}{number}").as_bytes(), bytes);
        number
    }

    fn running_gate(&mut self) {
        let positions = self.chance.one_of(&[1, 1, 1, 2, 3]);
        (0..positions).for_each(|at| self.begin(at));
        for _ in 0..self.chance.one_of(&[10, 30, 60, 120]) {
            let at = self.chance.within(0..=positions - 1);
            match self.chance.within(0..=99) {
                0..=54 => self.request_in_turn(at),
                55..=66 => self.request_out_of_turn(at),
                67..=81 => self.close(at),
                82..=94 => self.read(at),
                95..=98 => self.models(at),
                _ => self.begin(at),
            }
        }
    }

    /// A group at this position: fresh, from a book, or lent with any contents.
    fn begin(&mut self, at: u32) {
        match self.chance.within(0..=19) {
            0..=7 => self.fresh(at),
            8..=11 => self.lend(at),
            12 => {
                let book = book_near_the_last_tick(self.chance);
                self.read_good_book(at, book);
            }
            13 => {
                let book = good_book(self.chance);
                self.read_good_book(at, book);
            }
            _ => (),
        }
    }

    fn fresh(&mut self, at: u32) {
        let number = match self.chance.percent(30) {
            true => self.any_number(&[15, 16, 17, 255, u32::MAX]),
            false => self.chance.within(0..=GROUPS - 1),
        };
        self.station.fresh(at, number);
        self.say(format!("fresh {at} {number}"));
    }

    /// A number at an edge, or any at all.
    fn any_number(&mut self, edges: &[u32]) -> u32 {
        match self.chance.percent(70) {
            true => self.chance.one_of(edges),
            false => self.chance.next() as u32,
        }
    }

    /// Any contents, or those of the position with one to three bits changed.
    fn lend(&mut self, at: u32) {
        let mut bytes = any_contents(self.chance);
        if self.chance.percent(40) {
            let words = self.station.at(at).record.words();
            bytes = words.iter().flat_map(|word| word.to_le_bytes()).collect();
            for _ in 0..self.chance.within(1..=3) {
                let within = self.chance.one_of(&[MARKS_END, usize::MAX]);
                flip_a_bit(self.chance, &mut bytes, within);
            }
        }
        self.station.put(at, Held::lent(record_of(&bytes)));
        let file = self.lay_out("group", bytes);
        self.say(format!("lend {at} {file}"));
    }

    fn read_good_book(&mut self, at: u32, book: Vec<u8>) {
        let group = book::read(&book, STRIP_WORDS).expect("a good book");
        // The carriers of the book are those that the calls are about.
        for side in [Side::Model, Side::Sheet] {
            let of_side = group.events.iter().filter(|event| event.kind.side() == side);
            let numbers: Vec<u32> = of_side.map(|event| event.number).take(6).collect();
            match side {
                Side::Model => self.models.extend(numbers),
                Side::Sheet => self.sheets.extend(numbers),
            }
        }
        self.station.put(at, Held::of_history(group));
        let file = self.lay_out("book", book);
        self.say(format!("book_read {at} {file} +0"));
    }

    /// A request that is taken unless the carrier had one in this tick.
    fn request_in_turn(&mut self, at: u32) {
        let side = self.chance.one_of(&[Side::Model, Side::Sheet]);
        let list = if side == Side::Model { &self.models } else { &self.sheets };
        let number = self.chance.one_of(list);
        let is_in = has(self.station.at(at).record.inside(side), number);
        let liberal = self.chance.percent(self.liberal);
        let kind = event(side, 0, is_in, liberal, number).kind.number();
        self.request(at, kind, number);
    }

    fn request_out_of_turn(&mut self, at: u32) {
        let kind = match self.chance.within(0..=9) {
            0 => self.any_number(&[8, 9, 255, 256, u32::MAX]),
            _ => self.chance.within(0..=7),
        };
        let number = match self.chance.within(0..=3) {
            0 => self.any_number(&[63, 64, 255, 256, 511, 512, u32::MAX]),
            1 => self.chance.one_of(&self.models),
            _ => self.chance.one_of(&self.sheets),
        };
        self.request(at, kind, number);
    }

    fn request(&mut self, at: u32, kind: u32, number: u32) {
        self.station.at(at).request(kind, number);
        self.say(format!("request {at} {kind} {number}"));
    }

    fn close(&mut self, at: u32) {
        self.station.at(at).close();
        self.say(format!("close {at}"));
    }

    fn a_model(&mut self) -> u32 {
        match self.chance.percent(5) {
            true => self.any_number(&[0, 63, 64, 255, u32::MAX]),
            false => self.chance.one_of(&self.models),
        }
    }

    fn a_sheet(&mut self) -> u32 {
        match self.chance.percent(5) {
            true => self.any_number(&[0, 255, 256, u32::MAX]),
            false => self.chance.one_of(&self.sheets),
        }
    }

    fn read(&mut self, at: u32) {
        let (model, sheet) = (self.a_model(), self.a_sheet());
        self.say(format!("read {at} {model} {sheet}"));
    }

    fn models(&mut self, at: u32) {
        let sheet = self.a_sheet();
        self.say(format!("models {at} {sheet}"));
    }

    /// Groups of a few ticks each, side by side, and the list of them asked.
    fn station_of_groups(&mut self) {
        let positions = self.chance.within(1..=POSITIONS);
        for at in 0..positions {
            self.begin(at);
            self.few_ticks(at);
        }
        for _ in 0..self.chance.within(4..=20) {
            let groups = match self.chance.percent(20) {
                true => self.chance.one_of(&[0, 1, 15, 16, 17, 18]),
                false => self.chance.within(1..=positions),
            };
            let (model, sheet) = (self.a_model(), self.a_sheet());
            self.say(format!("mask {groups} {model} {sheet}"));
        }
    }

    fn few_ticks(&mut self, at: u32) {
        for _ in 0..self.chance.within(0..=3) {
            (0..self.chance.within(1..=5)).for_each(|_| self.request_in_turn(at));
            self.close(at);
        }
    }

    fn books(&mut self) {
        let book =
            if self.chance.percent(30) { good_book(self.chance) } else { any_book(self.chance) };
        let fields = words(&book[..book.len().min(BOOK_HEADER)]);
        let field = |place: usize| fields.get(place).copied().unwrap_or(0);
        let (ticks, number) = (field(1), field(4));
        let records = book[book.len().min(BOOK_HEADER)..].to_vec();
        let file = self.lay_out("book", book);
        let more = self.more();
        self.say(format!("book_read 0 {file} {more:+}"));
        self.write(records, ticks, number);
    }

    /// The records as a list of words: written as a book, and asked tick by tick.
    fn write(&mut self, records: Vec<u8>, ticks: u32, number: u32) {
        let records = match self.chance.within(0..=99) {
            0 => {
                let length = WORD_BYTES * (STRIP_WORDS + self.chance.place(3));
                self.chance.bytes(length)
            }
            1..=5 => self.rising_words(),
            _ => records,
        };
        let ticks = match self.chance.within(0..=9) {
            0 => self.any_number(&[0, LAST_TICK, LAST_TICK + 1, u32::MAX]),
            1 => ticks.saturating_sub(1),
            _ => ticks,
        };
        let number = match self.chance.within(0..=9) {
            0 => self.any_number(&[15, 16, 17, u32::MAX]),
            _ => number,
        };
        let list = words(&records);
        let file = self.lay_out("words", records);
        let more = self.more();
        self.say(format!("book_write {file} {ticks} {number} {more:+}"));
        for _ in 0..3 {
            let tick = self.a_tick(&list);
            self.say(format!("tick_part {file} {tick}"));
        }
    }

    /// Words that rise, whatever they say.
    fn rising_words(&mut self) -> Vec<u8> {
        let count = self.chance.within(1..=30);
        let mut words: Vec<u32> = (0..count).map(|_| self.chance.next() as u32).collect();
        words.sort_unstable();
        words.iter().flat_map(|word| word.to_le_bytes()).collect()
    }

    /// How much more room is lent than is needed: none, mostly; some; too little.
    fn more(&mut self) -> i64 {
        match self.chance.within(0..=9) {
            0..=4 => 0,
            5 => -1,
            6 => -i64::from(self.chance.within(1..=100)),
            _ => i64::from(self.chance.within(1..=40)),
        }
    }

    /// Mostly a tick of a record, or one beside it.
    fn a_tick(&mut self, list: &[u32]) -> u32 {
        if list.is_empty() || self.chance.percent(20) {
            return self.chance.one_of(&[0, 1, LAST_TICK, 1 << 20, (1 << 20) + 1, u32::MAX]);
        }
        let tick = Event::from_word(self.chance.one_of(list)).tick;
        self.chance.one_of(&[tick, tick, tick + 1, tick.saturating_sub(1)])
    }

    fn deliveries(&mut self) {
        match self.chance.within(0..=9) {
            0..=2 => self.lend(0),
            3 => {
                let book = good_book(self.chance);
                self.read_good_book(0, book);
            }
            _ => self.few_ticks(0),
        }
        self.few_ticks(0);
        let faulty = self.chance.one_of(&[0, 0, 10]);
        let store = match self.chance.percent(50) {
            true => store_with_entries(self.chance, faulty),
            false => any_store(self.chance),
        };
        let file = self.lay_out("store", store);
        for _ in 0..self.chance.within(1..=6) {
            self.deliver(file);
        }
    }

    fn deliver(&mut self, file: usize) {
        let model = match self.chance.percent(70) {
            true => self.a_granted_model(),
            false => self.a_model(),
        };
        let more = self.more();
        self.say(format!("deliver 0 {model} {file} {more:+}"));
    }

    /// A model with something to be delivered, when one is found soon.
    fn a_granted_model(&mut self) -> u32 {
        let record = self.station.at(0).record;
        let tries: Vec<u32> = (0..8).map(|_| self.chance.one_of(&self.models)).collect();
        *tries.iter().find(|&&model| !record.sheets_of(model).is_empty()).unwrap_or(&tries[0])
    }

    fn judges(&mut self) {
        for _ in 0..self.chance.within(1..=6) {
            let (model, sheet, now) = match self.chance.percent(50) {
                true => judging::strips(self.chance),
                false => spanning::strips(self.chance),
            };
            let number = self.lay_out("model", model);
            self.case.add_file(Run::Both, format!("sheet{number}").as_bytes(), sheet);
            self.say(format!("judge {number} {now}"));
            self.say(format!("evidence {number} {now}"));
            let more = self.more();
            self.say(format!("spans {number} {now} {more:+}"));
        }
    }
}

/// A group of any contents: words of zeros, ones, few bits, many; closed ticks at the edge.
fn any_contents(chance: &mut Chance) -> Vec<u8> {
    let (dense, few) = (chance.one_of(&[5, 40, 90]), chance.one_of(&[1, 3, 6]));
    let mut bytes = Vec::with_capacity(size_of::<GroupRecord>());
    while bytes.len() < size_of::<GroupRecord>() {
        let word = match chance.percent(dense) {
            true => (0..few).fold(u64::MAX, |word, _| word & chance.next()),
            false => chance.one_of(&[0, 0, 0, 0, 0, 0, 0, u64::MAX]),
        };
        bytes.extend(word.to_le_bytes());
    }
    let closed = match chance.percent(70) {
        true => chance.within(0..=20),
        false => chance.one_of(&[LAST_TICK - 1, LAST_TICK, LAST_TICK + 1, u32::MAX, 1 << 31]),
    };
    bytes[4..8].copy_from_slice(&closed.to_le_bytes());
    bytes
}
