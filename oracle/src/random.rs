//! Seeded random numbers (splitmix64).

/// A sequence of random numbers.
pub struct Random {
    state: u64,
}

impl Random {
    /// The sequence with this seed; each number has one of its own.
    pub fn new(seed: u64, number: u64) -> Self {
        let mut start = Self { state: seed };
        let state = start.next() ^ number.wrapping_mul(0x9e37_79b9_7f4a_7c15);
        let mut random = Self { state };
        random.next();
        random
    }

    /// The next number.
    pub fn next(&mut self) -> u64 {
        self.state = self.state.wrapping_add(0x9e37_79b9_7f4a_7c15);
        let mut mixed = self.state;
        mixed = (mixed ^ (mixed >> 30)).wrapping_mul(0xbf58_476d_1ce4_e5b9);
        mixed = (mixed ^ (mixed >> 27)).wrapping_mul(0x94d0_49bb_1331_11eb);
        mixed ^ (mixed >> 31)
    }

    /// A number below `bound`.
    pub fn below(&mut self, bound: u64) -> u64 {
        self.next() % bound
    }

    /// A number from `low` to `high`, both included.
    pub fn from(&mut self, low: u64, high: u64) -> u64 {
        low + self.below(high - low + 1)
    }

    /// Yes once in `times`.
    pub fn once_in(&mut self, times: u64) -> bool {
        self.below(times) == 0
    }

    /// One of the items.
    pub fn pick<T: Clone>(&mut self, items: &[T]) -> T {
        items[self.below(items.len() as u64) as usize].clone()
    }

    /// The place of a weight, each as often as the weight says.
    pub fn weighted(&mut self, weights: &[u64]) -> usize {
        let mut left = self.below(weights.iter().sum());
        for (place, weight) in weights.iter().enumerate() {
            if left < *weight {
                return place;
            }
            left -= weight;
        }
        unreachable!("the number is below the sum of the weights")
    }

    /// A flag's code: mostly 0 or 1.
    pub fn flag(&mut self) -> u8 {
        self.pick(&[0, 0, 0, 0, 1, 1, 1, 1, 2, 255])
    }
}
