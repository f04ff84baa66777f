//! The running gate of one group, changed where it stands.

use crate::event::{enters, numbers, of_model, LR, MODELS, SA, SHEETS, TICKS};
use crate::refusal::{refused, Refusal};

/// A set of sheets: sheet s is bit s % 64 of word s / 64.
pub type Sheets = [u64; 4];

#[derive(Clone, PartialEq, Eq)]
pub struct Group {
    pub number: u32,
    /// Ticks closed.
    pub closed: u32,
    /// The models that are in, as of the last close.
    pub members: u64,
    /// The models with an event in the open tick, by kind.
    pub models: [u64; 4],
    /// The sheets that are in, as of the last close, and those of them that are in by LA.
    pub added: Sheets,
    pub liberal: Sheets,
    /// The sheets with an event in the open tick, by kind from SA on.
    pub sheets: [Sheets; 4],
    /// A word a sheet, a bit a model, as of the last close.
    pub grants: [u64; SHEETS as usize],
}

impl Group {
    pub fn fresh(number: u32) -> Self {
        Group {
            number,
            closed: 0,
            members: 0,
            models: [0; 4],
            added: [0; 4],
            liberal: [0; 4],
            sheets: [[0; 4]; 4],
            grants: [0; SHEETS as usize],
        }
    }

    pub fn request(&mut self, kind: u32, number: u32) -> Result<(), Refusal> {
        if kind > LR {
            return refused(1);
        }
        if number >= numbers(kind) {
            return refused(2);
        }
        if self.closed >= TICKS {
            return refused(3);
        }
        let word = number as usize / 64;
        let bit = 1 << (number % 64);
        let (marked, is_in) = if of_model(kind) {
            (self.models.iter().fold(0, |all, set| all | set), self.members)
        } else {
            (self.sheets.iter().fold(0, |all, set| all | set[word]), self.added[word])
        };
        if marked & bit != 0 {
            return refused(4);
        }
        match (enters(kind), is_in & bit != 0) {
            (true, true) => return refused(5),
            (false, false) => return refused(6),
            _ => {}
        }
        if of_model(kind) {
            self.models[kind as usize] |= bit;
        } else {
            self.sheets[(kind - SA) as usize][word] |= bit;
        }
        Ok(())
    }

    pub fn close(&mut self) -> Result<(), Refusal> {
        if self.closed >= TICKS {
            return refused(3);
        }
        let [sj, lj, sl, ll] = std::mem::take(&mut self.models);
        let [sa, la, sr, lr] = std::mem::take(&mut self.sheets);
        self.members = self.members & !(sl | ll) | sj | lj;
        for word in 0..4 {
            let gone = sr[word] | lr[word];
            self.added[word] = self.added[word] & !gone | sa[word] | la[word];
            self.liberal[word] = self.liberal[word] & !gone | la[word];
        }
        if sl != 0 {
            self.grants.iter_mut().for_each(|grant| *grant &= !sl);
        }
        each(sr, |sheet| self.grants[sheet] = 0);
        if lj != 0 {
            each(self.liberal, |sheet| self.grants[sheet] |= lj);
        }
        each(sa, |sheet| self.grants[sheet] |= self.members);
        each(la, |sheet| self.grants[sheet] |= self.members);
        self.closed += 1;
        Ok(())
    }

    pub fn read(&self, model: u32, sheet: u32) -> Result<bool, Refusal> {
        if model >= MODELS || sheet >= SHEETS {
            return refused(2);
        }
        Ok(self.grants[sheet as usize] >> model & 1 == 1)
    }

    /// How many models may read the sheet.
    pub fn models(&self, sheet: u32) -> Result<u32, Refusal> {
        if sheet >= SHEETS {
            return refused(2);
        }
        Ok(self.grants[sheet as usize].count_ones())
    }
}

fn each(sheets: Sheets, mut act: impl FnMut(usize)) {
    for (word, mut set) in sheets.into_iter().enumerate() {
        while set != 0 {
            act(word * 64 + set.trailing_zeros() as usize);
            set &= set - 1;
        }
    }
}
