//! A seeded source of numbers (xorshift), so that a failure can be repeated.

pub struct Random(u64);

impl Random {
    /// Each round of a seed has numbers of its own, so that a round can be repeated by itself.
    pub fn new(seed: u64, round: u64) -> Random {
        let mixed =
            (seed.wrapping_add(1).wrapping_mul(0x9E37_79B9_7F4A_7C15) ^ round).wrapping_mul(0xBF58_476D_1CE4_E5B9);
        let mut random = Random((mixed ^ (mixed >> 29)) | 1);
        for _ in 0..8 {
            random.word();
        }
        random
    }

    pub fn word(&mut self) -> u64 {
        self.0 ^= self.0 << 13;
        self.0 ^= self.0 >> 7;
        self.0 ^= self.0 << 17;
        self.0
    }

    /// A number below n.
    pub fn below(&mut self, n: u64) -> u64 {
        (self.word() >> 16) % n
    }

    pub fn one_in(&mut self, n: u64) -> bool {
        self.below(n) == 0
    }

    pub fn pick<T: Copy>(&mut self, from: &[T]) -> T {
        from[self.below(from.len() as u64) as usize]
    }

    pub fn bytes(&mut self, count: usize) -> Vec<u8> {
        (0..count).map(|_| self.word() as u8).collect()
    }
}
