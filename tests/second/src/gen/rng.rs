//! A small generator of pseudo-random numbers (splitmix64).

pub struct Rng {
    state: u64,
}

impl Rng {
    pub fn new(seed: u64) -> Rng {
        Rng { state: seed }
    }

    pub fn draw(&mut self) -> u64 {
        self.state = self.state.wrapping_add(0x9e37_79b9_7f4a_7c15);
        let mut z = self.state;
        z = (z ^ (z >> 30)).wrapping_mul(0xbf58_476d_1ce4_e5b9);
        z = (z ^ (z >> 27)).wrapping_mul(0x94d0_49bb_1331_11eb);
        z ^ (z >> 31)
    }

    pub fn word(&mut self) -> u32 {
        (self.draw() >> 32) as u32
    }

    /// A number below the bound, which is at least 1.
    pub fn below(&mut self, bound: u32) -> u32 {
        ((u64::from(self.word()) * u64::from(bound)) >> 32) as u32
    }

    /// A number from the first to the last, both included.
    pub fn between(&mut self, first: u32, last: u32) -> u32 {
        first + self.below(last - first + 1)
    }

    /// True in so many of a hundred cases.
    pub fn percent(&mut self, cases: u32) -> bool {
        self.below(100) < cases
    }

    /// The numbers below the limit, each taken in so many of a hundred cases.
    pub fn some_below(&mut self, limit: u32, cases: u32) -> Vec<u32> {
        (0..limit).filter(|_| self.percent(cases)).collect()
    }

    pub fn pick<T: Copy>(&mut self, from: &[T]) -> T {
        from[self.below(from.len() as u32) as usize]
    }

    /// A word that is likely to upset somebody: an end of a range, a power of two, or anything.
    pub fn junk(&mut self, limit: u32) -> u32 {
        match self.below(8) {
            0 => limit,
            1 => limit.wrapping_add(1),
            2 => limit.wrapping_sub(1),
            3 => u32::MAX,
            4 => 1 << self.below(32),
            5 => self.below(64),
            6 => u32::MAX - self.below(64),
            _ => self.word(),
        }
    }
}
