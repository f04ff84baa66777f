//! Numbers by chance from a seed: the same seed gives the same cases on every machine.

use std::ops::RangeInclusive;

pub struct Chance {
    state: u64,
}

impl Chance {
    /// The source for one case of a run. Each case has its own, so that it can be run alone.
    pub fn of_case(seed: u64, case: u64) -> Chance {
        let mut chance = Chance { state: seed ^ case.wrapping_mul(0xd134_2543_de82_ef95) };
        chance.next();
        chance
    }

    /// SplitMix64.
    pub fn next(&mut self) -> u64 {
        self.state = self.state.wrapping_add(0x9e37_79b9_7f4a_7c15);
        let mut z = self.state;
        z = (z ^ (z >> 30)).wrapping_mul(0xbf58_476d_1ce4_e5b9);
        z = (z ^ (z >> 27)).wrapping_mul(0x94d0_49bb_1331_11eb);
        z ^ (z >> 31)
    }

    pub fn within(&mut self, range: RangeInclusive<u32>) -> u32 {
        let span = u64::from(range.end() - range.start()) + 1;
        range.start() + (self.next() % span) as u32
    }

    /// A place in a list of this length, which isn't empty.
    pub fn place(&mut self, length: usize) -> usize {
        (self.next() % length as u64) as usize
    }

    pub fn one_of<T: Copy>(&mut self, list: &[T]) -> T {
        list[self.place(list.len())]
    }

    /// True so many times in a hundred.
    pub fn percent(&mut self, percent: u32) -> bool {
        self.within(0..=99) < percent
    }

    pub fn bytes(&mut self, length: usize) -> Vec<u8> {
        let mut bytes = Vec::with_capacity(length + 8);
        while bytes.len() < length {
            bytes.extend(self.next().to_le_bytes());
        }
        bytes.truncate(length);
        bytes
    }

    /// So many different numbers below a limit (at most all of them), in any order.
    pub fn pick(&mut self, count: usize, below: u32) -> Vec<u32> {
        let mut all: Vec<u32> = (0..below).collect();
        for place in 0..all.len().min(count) {
            let other = place + self.place(all.len() - place);
            all.swap(place, other);
        }
        all.truncate(count);
        all
    }
}

/// A seed that wasn't asked for before.
pub fn fresh_seed() -> u64 {
    let now = std::time::SystemTime::now().duration_since(std::time::UNIX_EPOCH);
    let nanos = now.map_or(0, |since| since.as_nanos() as u64);
    // Short enough to type again.
    Chance { state: nanos ^ (u64::from(std::process::id()) << 40) }.next() % 1_000_000_000
}
