//! A group as the one record that C holds, field by field as include/ferrulebee.h has it,
//! worked out from the accepted events. The grants are the formula's.

use crate::event::{Event, Kind, Side};
use crate::group::Group;
use crate::limits::SHEETS;
use std::collections::BTreeMap;
use std::mem::{offset_of, size_of};

const WORD_BITS: u32 = 64;

/// Sheet s is bit s % 64 of word s / 64.
pub type SheetSet = [u64; 4];
/// A word a sheet, a bit a model.
pub type Grants = [u64; SHEETS as usize];

#[repr(C)]
#[derive(Clone, Copy, Debug, PartialEq, Eq)]
pub struct GroupRecord {
    pub number: u32,
    pub closed: u32,
    /// The models that are in, as of the last close.
    pub members: u64,
    /// SJ, LJ, SL, LL: the models with an accepted event of that kind in the open tick.
    pub model_marks: [u64; 4],
    /// The sheets that are in, as of the last close; and those that are in by a liberal add.
    pub added: SheetSet,
    pub liberal: SheetSet,
    /// SA, LA, SR, LR: the sheets with an accepted event of that kind in the open tick.
    pub sheet_marks: [SheetSet; 4],
    pub grants: Grants,
}

const _: () = assert!(size_of::<GroupRecord>() == 2288);
const _: () = assert!(offset_of!(GroupRecord, members) == 8);
const _: () = assert!(offset_of!(GroupRecord, model_marks) == 16);
const _: () = assert!(offset_of!(GroupRecord, added) == 48);
const _: () = assert!(offset_of!(GroupRecord, liberal) == 80);
const _: () = assert!(offset_of!(GroupRecord, sheet_marks) == 112);
const _: () = assert!(offset_of!(GroupRecord, grants) == 240);

pub fn has(set: &[u64], number: u32) -> bool {
    set[(number / WORD_BITS) as usize] >> (number % WORD_BITS) & 1 == 1
}

pub fn put(set: &mut [u64], number: u32, is_in: bool) {
    let (word, bit) = (&mut set[(number / WORD_BITS) as usize], 1 << (number % WORD_BITS));
    *word = if is_in { *word | bit } else { *word & !bit };
}

impl GroupRecord {
    pub fn fresh(number: u32) -> GroupRecord {
        GroupRecord { number, ..GroupRecord::from_words(std::iter::empty()) }
    }

    /// The record of any contents, from its words of 64 bits; without further ones, zeros.
    pub fn from_words(mut words: impl Iterator<Item = u64>) -> GroupRecord {
        let mut next = || words.next().unwrap_or(0);
        let head = next();
        GroupRecord {
            number: head as u32,
            closed: (head >> 32) as u32,
            members: next(),
            model_marks: std::array::from_fn(|_| next()),
            added: std::array::from_fn(|_| next()),
            liberal: std::array::from_fn(|_| next()),
            sheet_marks: std::array::from_fn(|_| std::array::from_fn(|_| next())),
            grants: std::array::from_fn(|_| next()),
        }
    }

    /// The words that `from_words` takes.
    pub fn words(&self) -> Vec<u64> {
        let head = u64::from(self.number) | u64::from(self.closed) << 32;
        let sheet_marks = self.sheet_marks.as_flattened();
        let fields: [&[u64]; 6] = [
            &[head, self.members],
            &self.model_marks,
            &self.added,
            &self.liberal,
            sheet_marks,
            &self.grants,
        ];
        fields.concat()
    }

    pub fn of_history(group: &Group) -> GroupRecord {
        GroupRecord::with_grants(group, grants(group, |_, _| None))
    }

    /// The record after a close, when the one before it is known: a pair without an event in
    /// the tick that was closed has the strips it had, and so its grant.
    pub fn of_close(group: &Group, before: &GroupRecord) -> GroupRecord {
        let quiet = |strip: &[Event]| strip.last().is_some_and(|e| e.tick < group.closed);
        let known = |model: &[Event], sheet: &[Event]| {
            let pair = || before.read(model[0].number, sheet[0].number).expect("both in range");
            (quiet(model) && quiet(sheet)).then(pair)
        };
        GroupRecord::with_grants(group, grants(group, known))
    }

    /// The record of a history whose grants, as of the last close, are known.
    pub fn with_grants(group: &Group, grants: Grants) -> GroupRecord {
        let fresh = GroupRecord::fresh(group.number);
        let mut record = GroupRecord { closed: group.closed, grants, ..fresh };
        for event in &group.events {
            if event.tick > group.closed {
                put(record.marks_mut(event.kind), event.number, true);
            } else {
                record.apply(*event);
            }
        }
        record
    }

    /// The carrier's latest event of a closed tick says whether it is in.
    fn apply(&mut self, event: Event) {
        put(self.inside_mut(event.kind.side()), event.number, event.kind.enters());
        if event.kind.side() == Side::Sheet {
            put(&mut self.liberal, event.number, event.kind == Kind::LA);
        }
    }

    pub fn marks(&self, kind: Kind) -> &[u64] {
        match kind.number() as usize {
            model @ 0..4 => std::slice::from_ref(&self.model_marks[model]),
            sheet => &self.sheet_marks[sheet - 4],
        }
    }

    pub fn marks_mut(&mut self, kind: Kind) -> &mut [u64] {
        match kind.number() as usize {
            model @ 0..4 => std::slice::from_mut(&mut self.model_marks[model]),
            sheet => &mut self.sheet_marks[sheet - 4],
        }
    }

    /// Who is in on one side.
    pub fn inside(&self, side: Side) -> &[u64] {
        match side {
            Side::Model => std::slice::from_ref(&self.members),
            Side::Sheet => &self.added,
        }
    }

    fn inside_mut(&mut self, side: Side) -> &mut [u64] {
        match side {
            Side::Model => std::slice::from_mut(&mut self.members),
            Side::Sheet => &mut self.added,
        }
    }
}

/// The formula on every pair of carriers with events; without a join or an add there is
/// no moment, so that the other pairs have no grant. A grant that is known isn't asked for.
fn grants(group: &Group, known: impl Fn(&[Event], &[Event]) -> Option<bool>) -> Grants {
    let models = strips_with_events(group, Side::Model);
    let mut grants = [0; SHEETS as usize];
    for (sheet, sheet_strip) in strips_with_events(group, Side::Sheet) {
        for (&model, model_strip) in &models {
            let asked = || group.verdict(model_strip, &sheet_strip).is_granted();
            let granted = known(model_strip, &sheet_strip).unwrap_or_else(asked);
            grants[sheet as usize] |= u64::from(granted) << model;
        }
    }
    grants
}

fn strips_with_events(group: &Group, side: Side) -> BTreeMap<u32, Vec<Event>> {
    let mut strips: BTreeMap<u32, Vec<Event>> = BTreeMap::new();
    let closed = |event: &&Event| event.kind.side() == side && event.tick <= group.closed;
    for event in group.events.iter().filter(closed) {
        strips.entry(event.number).or_default().push(*event);
    }
    strips
}
