//! What calls answer on a record of any contents, where there may be no history to ask.
//! Requests go by the marks and memberships that they find, reads and deliveries by the
//! grants. A close is the formula's law of one tick: "p since q" holds when q holds now, or
//! p holds now and it held a tick ago.

use crate::event::{Kind, KINDS};
use crate::group::{check_carrier, check_pair, check_request, check_tick_left};
use crate::limits::{MODELS, SHEETS};
use crate::record::{has, put, GroupRecord};
use crate::refusal::{self, Refusal};
use crate::store::deliver_sheets;
use std::array::from_fn;

/// "p since q" a tick later, for a word of carriers; `not_p` are those for whom p doesn't hold.
fn since(not_p: u64, q: u64, before: u64) -> u64 {
    q | (before & !not_p)
}

impl GroupRecord {
    /// Refusals 1, 2, 3, 4, then 5 or 6.
    pub fn request(&mut self, kind: u32, number: u32) -> Result<(), Refusal> {
        let kind = check_request(kind, number, self.closed)?;
        let of_side = |other: &Kind| other.side() == kind.side();
        let mut kinds = KINDS.into_iter().filter(of_side);
        let has_event = kinds.any(|kind| has(self.marks(kind), number));
        check_carrier(kind, has_event, has(self.inside(kind.side()), number))?;
        put(self.marks_mut(kind), number, true);
        Ok(())
    }

    /// Refusal 3.
    pub fn close(&mut self) -> Result<(), Refusal> {
        check_tick_left(self.closed)?;
        let before = *self;
        let ([sj, lj, sl, ll], [sa, la, sr, lr]) = (before.model_marks, before.sheet_marks);
        *self = GroupRecord { closed: before.closed + 1, ..GroupRecord::fresh(before.number) };
        self.members = since(sl | ll, sj | lj, before.members);
        let gone = |word: usize| sr[word] | lr[word];
        self.added = from_fn(|word| since(gone(word), sa[word] | la[word], before.added[word]));
        self.liberal = from_fn(|word| since(gone(word), la[word], before.liberal[word]));
        for sheet in 0..SHEETS {
            let by_add = if has(&sa, sheet) || has(&la, sheet) { self.members } else { 0 };
            let by_join = if has(&self.liberal, sheet) { lj } else { 0 };
            let ended = if has(&sr, sheet) { u64::MAX } else { sl };
            let grant = &mut self.grants[sheet as usize];
            *grant = since(ended, by_add | by_join, before.grants[sheet as usize]);
        }
        Ok(())
    }

    /// Refusal 2.
    pub fn read(&self, model: u32, sheet: u32) -> Result<bool, Refusal> {
        check_pair(model, sheet)?;
        Ok(self.grants[sheet as usize] >> model & 1 == 1)
    }

    /// Refusal 2.
    pub fn models(&self, sheet: u32) -> Result<u32, Refusal> {
        let grants = self.grants.get(sheet as usize).ok_or(Refusal::plain(refusal::NUMBER))?;
        Ok(grants.count_ones())
    }

    /// Refusals 2, 31, then granted sheets by rising number 32, 33, then 34.
    pub fn deliver(&self, model: u32, store: &[u8], buffer: u64) -> Result<Vec<u8>, Refusal> {
        if model >= MODELS {
            return Err(Refusal::plain(refusal::NUMBER));
        }
        deliver_sheets(&self.sheets_of(model), store, buffer)
    }

    /// The sheets granted to a model, by rising number.
    pub fn sheets_of(&self, model: u32) -> Vec<u32> {
        (0..SHEETS).filter(|&sheet| self.read(model, sheet) == Ok(true)).collect()
    }
}
