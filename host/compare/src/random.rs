//! Random numbers that a seed determines.

/// A splitmix64 generator.
pub struct Random {
    state: u64,
}

impl Random {
    /// The numbers of one case of a seed.
    pub fn for_case(seed: u64, number: u64) -> Self {
        let mut random = Random { state: seed };
        let start = random.next();
        random.state = start ^ number.wrapping_mul(0xd6e8_feb8_6659_fd93);
        random
    }

    fn next(&mut self) -> u64 {
        self.state = self.state.wrapping_add(0x9e37_79b9_7f4a_7c15);
        let mut mixed = self.state;
        mixed = (mixed ^ (mixed >> 30)).wrapping_mul(0xbf58_476d_1ce4_e5b9);
        mixed = (mixed ^ (mixed >> 27)).wrapping_mul(0x94d0_49bb_1331_11eb);
        mixed ^ (mixed >> 31)
    }

    /// A number of `width` bits, at most 64.
    pub fn bits(&mut self, width: u32) -> u64 {
        self.next() >> (64 - width)
    }

    /// A number below `limit`, which is not 0.
    pub fn below(&mut self, limit: u32) -> u32 {
        ((self.bits(32) * u64::from(limit)) >> 32) as u32
    }

    /// A number from `low` to `high`, both included.
    pub fn between(&mut self, low: i32, high: i32) -> i32 {
        low + self.below((high - low + 1) as u32) as i32
    }

    /// True once in `times`.
    pub fn one_in(&mut self, times: u32) -> bool {
        self.below(times) == 0
    }

    /// True in `hundredths` of a hundred.
    pub fn percent(&mut self, hundredths: u32) -> bool {
        self.below(100) < hundredths
    }

    /// One of a list that is not empty.
    pub fn pick<T: Copy>(&mut self, list: &[T]) -> T {
        list[self.below(list.len() as u32) as usize]
    }
}
