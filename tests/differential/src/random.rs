//! A small seeded generator (splitmix64), so that a run can be repeated.

pub struct Random {
    state: u64,
}

impl Random {
    /// Two numbers make a seed, so that each block of cases has its own.
    pub fn new(seed: u64, block: u64) -> Random {
        let mut random = Random {
            state: seed ^ block.wrapping_mul(0xD134_2543_DE82_EF95),
        };
        // Neighbouring blocks start from neighbouring states; two steps part them.
        random.next();
        random.state ^= random.next();
        random
    }

    pub fn next(&mut self) -> u64 {
        self.state = self.state.wrapping_add(0x9E37_79B9_7F4A_7C15);
        let mut mixed = self.state;
        mixed = (mixed ^ (mixed >> 30)).wrapping_mul(0xBF58_476D_1CE4_E5B9);
        mixed = (mixed ^ (mixed >> 27)).wrapping_mul(0x94D0_49BB_1331_11EB);
        mixed ^ (mixed >> 31)
    }

    pub fn word(&mut self) -> u32 {
        (self.next() >> 32) as u32
    }

    /// 0 up to, not including, `limit`.
    pub fn below(&mut self, limit: u32) -> u32 {
        ((u64::from(self.word()) * u64::from(limit)) >> 32) as u32
    }

    /// Both ends included.
    pub fn between(&mut self, low: u32, high: u32) -> u32 {
        low + self.below(high - low + 1)
    }

    pub fn chance(&mut self, part: u32, whole: u32) -> bool {
        self.below(whole) < part
    }

    pub fn pick<T: Copy>(&mut self, from: &[T]) -> T {
        from[self.below(from.len() as u32) as usize]
    }

    pub fn fill(&mut self, words: &mut [u32]) {
        for word in words {
            *word = self.word();
        }
    }
}
