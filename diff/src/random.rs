//! Numbers that look random, from a seed: SplitMix64.

pub struct Random(u64);

impl Random {
    /// Of one case.
    pub fn new(seed: u64, case: u64) -> Random {
        let mut random = Random(seed);
        let start = random.next() ^ case;
        Random(start)
    }

    pub fn next(&mut self) -> u64 {
        self.0 = self.0.wrapping_add(0x9e37_79b9_7f4a_7c15);
        let z = (self.0 ^ (self.0 >> 30)).wrapping_mul(0xbf58_476d_1ce4_e5b9);
        let z = (z ^ (z >> 27)).wrapping_mul(0x94d0_49bb_1331_11eb);
        z ^ (z >> 31)
    }

    /// Below `end`, which is not 0.
    pub fn below(&mut self, end: usize) -> usize {
        (self.next() >> 11) as usize % end
    }

    /// True once in so many times.
    pub fn once_in(&mut self, times: usize) -> bool {
        self.below(times) == 0
    }

    pub fn of<T: Copy>(&mut self, items: &[T]) -> T {
        items[self.below(items.len())]
    }

    /// A number of 32 bits: mostly small, at times at an end.
    pub fn number(&mut self) -> u32 {
        match self.below(16) {
            0 => self.next() as u32,
            1 => self.of(&[u32::MAX, 1 << 31, u32::MAX - 1]),
            _ => self.below(100) as u32,
        }
    }
}
