//! A small generator of pseudo-random numbers, the same in every run.

/// Marsaglia's xorshift on 64 bits.
pub struct Generator {
    state: u64,
}

impl Generator {
    pub fn new(seed: u64) -> Generator {
        // The state must not be 0; an odd factor keeps seeds apart.
        let mut generator = Generator {
            state: (2 * seed + 1).wrapping_mul(0x9E37_79B9_7F4A_7C15),
        };
        for _ in 0..8 {
            generator.next();
        }
        generator
    }

    fn next(&mut self) -> u64 {
        self.state ^= self.state << 13;
        self.state ^= self.state >> 7;
        self.state ^= self.state << 17;
        self.state
    }

    /// A number from 0 to below `end`.
    pub fn below(&mut self, end: u32) -> u32 {
        ((self.next() >> 32) % u64::from(end)) as u32
    }

    /// A number from `least` to `greatest`, both included.
    pub fn between(&mut self, least: u32, greatest: u32) -> u32 {
        least + self.below(greatest - least + 1)
    }

    /// The same for numbers wider than a word. Their ranges are so much smaller
    /// than 2^64 that the remainder favours none of them noticeably.
    pub fn wide_between(&mut self, least: u64, greatest: u64) -> u64 {
        least + self.next() % (greatest - least + 1)
    }

    /// True once in `times` on average.
    pub fn once_in(&mut self, times: u32) -> bool {
        self.below(times) == 0
    }

    pub fn pick<T: Copy>(&mut self, items: &[T]) -> T {
        items[self.below(items.len() as u32) as usize]
    }

    /// A number that differs from `value` by at most `percent` of it.
    pub fn near(&mut self, value: u32, percent: u32) -> u32 {
        let factor = self.between(1_000 - 10 * percent, 1_000 + 10 * percent);
        (u64::from(value) * u64::from(factor) / 1_000) as u32
    }
}
