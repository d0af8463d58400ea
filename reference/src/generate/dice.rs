//! The source of chance: splitmix64, so that a case depends on its seed and index alone.

/// A stream of numbers by chance.
pub struct Dice {
    state: u64,
}

impl Dice {
    /// The stream of one index of a seed.
    pub fn new(seed: u64, index: u64) -> Dice {
        let mut dice = Dice { state: seed };
        dice.state = dice.draw() ^ index.wrapping_mul(0xD134_2543_DE82_EF95);
        dice
    }

    /// The next 64 bits.
    pub fn draw(&mut self) -> u64 {
        self.state = self.state.wrapping_add(0x9E37_79B9_7F4A_7C15);
        let mut word = self.state;
        word = (word ^ (word >> 30)).wrapping_mul(0xBF58_476D_1CE4_E5B9);
        word = (word ^ (word >> 27)).wrapping_mul(0x94D0_49BB_1331_11EB);
        word ^ (word >> 31)
    }

    /// A number from 0 to count-1; 0 where the count is 0.
    pub fn below(&mut self, count: u64) -> u64 {
        self.draw() % count.max(1)
    }

    /// A number from low to high, both included; low where high is less.
    pub fn range(&mut self, low: i64, high: i64) -> i64 {
        if high <= low {
            return low;
        }
        let count = high.wrapping_sub(low) as u64;
        let step = if count == u64::MAX { self.draw() } else { self.below(count + 1) };
        low.wrapping_add(step as i64)
    }

    /// True once in so many times.
    pub fn once_in(&mut self, times: u64) -> bool {
        self.below(times) == 0
    }

    /// One of the items.
    pub fn pick<T: Clone>(&mut self, items: &[T]) -> T {
        items[self.below(items.len() as u64) as usize].clone()
    }
}
