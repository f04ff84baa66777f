//! The same throws on every machine.

pub struct Dice(pub u64);

impl Dice {
    pub fn below(&mut self, limit: u32) -> u32 {
        self.0 = self.0.wrapping_mul(6364136223846793005).wrapping_add(1442695040888963407);
        (self.0 >> 33) as u32 % limit
    }

    pub fn percent(&mut self, chance: u32) -> bool {
        self.below(100) < chance
    }
}
