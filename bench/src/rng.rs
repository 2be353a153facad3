//! Chance that repeats by its seed (xorshift64*).

pub struct Rng(u64);

impl Rng {
    pub fn new(seed: u64) -> Rng {
        let mixed = seed.wrapping_mul(0x9E37_79B9_7F4A_7C15) ^ 0xD1B5_4A32_D192_ED03;
        let mut rng = Rng(mixed.max(1));
        for _ in 0..4 {
            rng.word();
        }
        rng
    }

    /// Any 64 bits.
    pub fn word(&mut self) -> u64 {
        self.0 ^= self.0 >> 12;
        self.0 ^= self.0 << 25;
        self.0 ^= self.0 >> 27;
        self.0.wrapping_mul(0x2545_F491_4F6C_DD1D)
    }

    /// 0 to n - 1; n is below 2^32.
    pub fn below(&mut self, n: usize) -> usize {
        ((self.word() >> 32) as usize * n) >> 32
    }

    /// True once in so many times.
    pub fn one_in(&mut self, n: usize) -> bool {
        self.below(n) == 0
    }

    pub fn pick<T: Copy>(&mut self, from: &[T]) -> T {
        from[self.below(from.len())]
    }

    /// So many bytes, each one of those given.
    pub fn bytes(&mut self, n: usize, from: &[u8]) -> Vec<u8> {
        (0..n).map(|_| self.pick(from)).collect()
    }
}
