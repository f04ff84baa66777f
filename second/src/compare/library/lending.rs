//! Slices as they are lent: between guards, which no call may change.

use super::numbers::{first_different, Numbers};
use crate::differ::Difference;
use second::record::GroupRecord;

/// What guards and lent room are filled with: something else at each place, so that what is
/// moved is seen, too.
pub trait Filling: Copy + PartialEq + Numbers {
    const GUARDS: usize;
    fn filling(place: usize) -> Self;
}

impl Filling for u8 {
    const GUARDS: usize = 16;
    fn filling(place: usize) -> u8 {
        0xa5 ^ place as u8
    }
}

impl Filling for u32 {
    const GUARDS: usize = 4;
    fn filling(place: usize) -> u32 {
        0xa5a5_a5a5 ^ place as u32
    }
}

impl Filling for GroupRecord {
    const GUARDS: usize = 1;
    fn filling(place: usize) -> GroupRecord {
        const WORD: u64 = 0xa5a5_a5a5_a5a5_a5a5;
        GroupRecord {
            number: u32::filling(place),
            closed: u32::filling(place),
            members: WORD,
            model_marks: [WORD; 4],
            added: [WORD; 4],
            liberal: [WORD; 4],
            sheet_marks: [[WORD; 4]; 4],
            grants: [WORD; 256],
        }
    }
}

pub struct Lent<T> {
    all: Vec<T>,
    before: usize,
    length: usize,
}

impl<T: Filling> Lent<T> {
    pub fn new(contents: &[T]) -> Lent<T> {
        let length = contents.len();
        // Bytes may be lent from any address on.
        let before = T::GUARDS + length % T::GUARDS;
        let mut all = Vec::with_capacity(before + length + T::GUARDS);
        all.extend((0..before).map(T::filling));
        all.extend_from_slice(contents);
        all.extend((0..T::GUARDS).map(T::filling));
        Lent { all, before, length }
    }

    /// Room to be written to.
    pub fn room(length: usize) -> Lent<T> {
        Lent::new(&(0..length).map(T::filling).collect::<Vec<T>>())
    }

    /// The same with other contents at the front.
    pub fn with_front(mut self, front: &[T]) -> Lent<T> {
        self.slice_mut()[..front.len()].copy_from_slice(front);
        self
    }

    pub fn slice(&self) -> &[T] {
        &self.all[self.before..self.before + self.length]
    }

    pub fn slice_mut(&mut self) -> &mut [T] {
        &mut self.all[self.before..self.before + self.length]
    }

    /// For a slice that is lent to be read only.
    pub fn stays(&self, what: &str, contents: &[T]) -> Result<(), Difference> {
        same_lent(what, &Lent::new(contents), self)
    }
}

/// Every byte lent, and the guards on both sides.
pub fn same_lent<T: Filling>(
    what: &str,
    expected: &Lent<T>,
    got: &Lent<T>,
) -> Result<(), Difference> {
    if expected.all == got.all {
        return Ok(());
    }
    let mut places = expected.all.iter().zip(&got.all).enumerate();
    let (place, (wanted, found)) =
        places.find(|(_, (wanted, found))| wanted != found).expect("they differ somewhere");
    let (name, wanted, found) = first_different(wanted, found);
    let place = place as i64 - expected.before as i64;
    let guard = match usize::try_from(place) {
        Ok(place) if place < expected.length => "",
        _ => ", a guard",
    };
    Err(Difference {
        said: format!("{what} at {place}{guard}: {name}expected {wanted:#x}, has {found:#x}"),
        sort: format!("{what}{guard}"),
    })
}
