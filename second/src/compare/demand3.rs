//! Demand 3 by running: pairs of scripts that differ only in other models' calls and in
//! sheets the model isn't granted, their entries and bytes. The model's answers must be equal.

use crate::books::{book_of, event, good_words, set_word, Shape};
use crate::case::{Case, Run, Trial};
use crate::chance::Chance;
use crate::stores::{edge_entry, entries_end, entry_of, good_entry, set_entry, store_with_entries};
use second::event::{Event, Kind, Side};
use second::files::Memory;
use second::judge::words;
use second::keeper::Keeper;
use second::limits::{DELIVERY_BUFFER, MODELS};
use second::store::deliver;
use second::wrong::Reading;

struct PairAuthor<'a> {
    chance: &'a mut Chance,
    case: Case,
    left: Keeper<Memory>,
    right: Keeper<Memory>,
    model: u32,
    others: Vec<u32>,
    /// Sheets with the same events in both runs.
    sheets: Vec<u32>,
    /// Sheets with events of their own in each run, never granted to the model: they are
    /// added strictly, and only in ticks at whose end the model is out.
    hidden: Vec<u32>,
}

pub fn pair(chance: &mut Chance) -> Case {
    let mut models = chance.pick(5, MODELS);
    let model = models.pop().expect("five were picked");
    let limit = chance.one_of(&[9, 9, 20, 256]);
    let mut sheets = chance.pick(9, limit);
    let hidden = sheets.split_off(6);
    let new_keeper = || Keeper::new(Memory::default(), Reading::Right);
    let mut author = PairAuthor {
        chance,
        case: Case::new(Trial::Pair),
        left: new_keeper(),
        right: new_keeper(),
        model,
        others: models,
        sheets,
        hidden,
    };
    if author.chance.percent(30) {
        author.load_different_books();
    }
    for _ in 0..author.chance.within(1..=14) {
        author.tick();
    }
    author.case
}

impl PairAuthor<'_> {
    fn say(&mut self, run: Run, line: String) {
        if run.is_in(Run::Left) {
            self.left.answer(line.as_bytes());
        }
        if run.is_in(Run::Right) {
            self.right.answer(line.as_bytes());
        }
        self.case.add_line(run, line.as_bytes());
    }

    fn lay_out(&mut self, run: Run, name: &str, bytes: Vec<u8>) {
        let keeper = if run == Run::Left { &mut self.left } else { &mut self.right };
        keeper.files.files.insert(name.as_bytes().to_vec(), bytes.clone());
        self.case.add_file(run, name.as_bytes(), bytes);
    }

    /// Two books with the model's and the sheets' events in common, and other models' not.
    fn load_different_books(&mut self) {
        let ticks = self.chance.one_of(&[5, 20, 300, 999_980]);
        let shape = |models: &[u32], sheets: &[u32], records| Shape {
            models: models.to_vec(),
            sheets: sheets.to_vec(),
            ticks,
            records,
        };
        let common = good_words(self.chance, &shape(&[self.model], &self.sheets, 300));
        for run in [Run::Left, Run::Right] {
            let records = self.chance.within(0..=300);
            let mut all = good_words(self.chance, &shape(&self.others, &[], records));
            all.extend(&common);
            all.sort_unstable();
            self.lay_out(run, "book", book_of(ticks, 1, &all));
        }
        self.say(Run::Both, "load book".to_string());
    }

    fn tick(&mut self) {
        if self.chance.percent(45) {
            let line = self.request(Run::Left, Side::Model, self.model);
            self.say(Run::Model, line);
        }
        for sheet in self.sheets.clone() {
            if self.chance.percent(30) {
                let line = self.request(Run::Left, Side::Sheet, sheet);
                self.say(Run::Both, line);
                self.others_call();
            }
        }
        self.hidden_requests();
        self.others_call();
        self.say(Run::Both, "close".to_string());
        self.model_asks();
    }

    fn keeper(&self, run: Run) -> &Keeper<Memory> {
        if run == Run::Right {
            &self.right
        } else {
            &self.left
        }
    }

    fn is_in(&self, run: Run, side: Side, number: u32) -> bool {
        let of_carrier = |e: &&Event| e.kind.side() == side && e.number == number;
        let events = &self.keeper(run).group.events;
        events.iter().rev().find(of_carrier).is_some_and(|e| e.kind.enters())
    }

    /// The carrier's next request in turn, as a line.
    fn request(&mut self, run: Run, side: Side, number: u32) -> String {
        let is_in = self.is_in(run, side, number);
        let liberal = self.chance.percent(60);
        format!("{:?} {number}", event(side, 0, is_in, liberal, number).kind)
    }

    fn hidden_requests(&mut self) {
        for sheet in self.hidden.clone() {
            for run in [Run::Left, Run::Right] {
                if self.chance.percent(40) {
                    self.hidden_request(run, sheet);
                }
            }
        }
    }

    fn hidden_request(&mut self, run: Run, sheet: u32) {
        let model_is_out = !self.is_in(run, Side::Model, self.model);
        let kind = match self.is_in(run, Side::Sheet, sheet) {
            true => self.chance.one_of(&[Kind::SR, Kind::LR]),
            false => Kind::SA,
        };
        if model_is_out || kind != Kind::SA {
            self.say(run, format!("{kind:?} {sheet}"));
        }
    }

    /// Some calls of other models in one of the runs.
    fn others_call(&mut self) {
        for _ in 0..self.chance.within(0..=3) {
            let run = self.chance.one_of(&[Run::Left, Run::Right]);
            let other = self.chance.one_of(&self.others);
            let sheet = self.chance.one_of(&self.sheets);
            let line = match self.chance.within(0..=9) {
                0..=5 => self.request(run, Side::Model, other),
                6 => format!("request {} {other}", self.chance.within(0..=3)),
                7 => format!("read {other} {sheet}"),
                8 => format!("models {sheet}"),
                _ => format!("deliver {other} 1000 other"),
            };
            self.say(run, line);
        }
    }

    fn model_asks(&mut self) {
        for sheet in [self.sheets.clone(), self.hidden.clone()].concat() {
            if self.chance.percent(40) {
                self.say(Run::Model, format!("read {} {sheet}", self.model));
            }
        }
        if self.chance.percent(40) {
            self.model_takes_a_delivery();
        }
    }

    fn model_takes_a_delivery(&mut self) {
        let number = self.case.files.len();
        let faulty = self.chance.one_of(&[0, 20, 60]);
        let left = store_with_entries(self.chance, faulty);
        let right = self.same_for_the_model(&left);
        self.lay_out(Run::Left, &format!("store{number}"), left);
        self.lay_out(Run::Right, &format!("store{number}"), right);
        self.say(Run::Both, format!("store store{number}"));
        let ample = u64::from(DELIVERY_BUFFER);
        let length = deliver(&self.left.group, self.model, &self.left.store, ample)
            .map_or(8, |delivery| delivery.len() as u32);
        let buffer = self.chance.one_of(&[DELIVERY_BUFFER, length, length - 1]);
        self.say(Run::Model, format!("deliver {} {buffer} delivery{number}", self.model));
    }

    /// A store that differs in every ungranted entry and in every byte that no granted
    /// sheet has.
    fn same_for_the_model(&mut self, store: &[u8]) -> Vec<u8> {
        let (total, count) = (store.len() as u32, words(store)[1]);
        let granted = self.left.group.sheets_of(self.model);
        let mut other = self.chance.bytes(store.len());
        set_word(&mut other, 0, total);
        set_word(&mut other, 1, count);
        for sheet in 0..count {
            let entry = if granted.contains(&sheet) {
                let (offset, length) = entry_of(store, sheet);
                copy_good(store, &mut other, offset, length, count);
                (offset, length)
            } else if self.chance.percent(50) {
                good_entry(self.chance, count, total)
            } else {
                edge_entry(self.chance, count, total)
            };
            set_entry(&mut other, sheet, entry);
        }
        other
    }
}

/// Copies the bytes of an entry that is good.
fn copy_good(from: &[u8], to: &mut [u8], offset: u32, length: u32, count: u32) {
    let end = u64::from(offset) + u64::from(length);
    if offset >= entries_end(count) && end <= from.len() as u64 {
        let part = offset as usize..end as usize;
        to[part.clone()].copy_from_slice(&from[part]);
    }
}
