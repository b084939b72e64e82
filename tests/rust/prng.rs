//! Pseudo-random numbers: xorshift64*, the same on every machine for the same seed.

pub struct Prng(u64);

impl Prng {
    pub fn new(seed: u64) -> Prng {
        // Seeds that differ in a few bits must not give alike streams, and the state must not be 0.
        let mixed = (seed ^ seed >> 31).wrapping_mul(0x9E37_79B9_7F4A_7C15);
        let mut prng = Prng(mixed | 1);
        for _ in 0..8 {
            prng.bits();
        }
        prng
    }

    pub fn bits(&mut self) -> u64 {
        self.0 ^= self.0 >> 12;
        self.0 ^= self.0 << 25;
        self.0 ^= self.0 >> 27;
        self.0.wrapping_mul(0x2545_F491_4F6C_DD1D)
    }

    pub fn below(&mut self, n: usize) -> usize {
        ((self.bits() >> 32) as usize).wrapping_mul(n) >> 32
    }

    pub fn one_in(&mut self, n: usize) -> bool {
        self.below(n) == 0
    }

    pub fn pick<T: Copy>(&mut self, from: &[T]) -> T {
        from[self.below(from.len())]
    }

    pub fn octet(&mut self) -> u8 {
        (self.bits() >> 56) as u8
    }

    pub fn octets(&mut self, n: usize) -> Vec<u8> {
        let mut octets = Vec::with_capacity(n + 8);
        while octets.len() < n {
            octets.extend(self.bits().to_be_bytes());
        }
        octets.truncate(n);
        octets
    }

    /// A number at most one away from the given one; from 0 not down.
    pub fn near(&mut self, n: usize) -> usize {
        (n + self.below(3)).saturating_sub(1)
    }
}
