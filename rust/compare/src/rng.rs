//! A small random generator: splitmix64.

pub struct Rng(u64);

impl Rng {
    pub fn new(seed: u64) -> Rng {
        Rng(seed)
    }

    /// Any 64 bits.
    pub fn bits(&mut self) -> u64 {
        self.0 = self.0.wrapping_add(0x9e37_79b9_7f4a_7c15);
        let z = (self.0 ^ (self.0 >> 30)).wrapping_mul(0xbf58_476d_1ce4_e5b9);
        let z = (z ^ (z >> 27)).wrapping_mul(0x94d0_49bb_1331_11eb);
        z ^ (z >> 31)
    }

    /// A number below `n`, which is not 0.
    pub fn below(&mut self, n: u64) -> u64 {
        ((u128::from(self.bits()) * u128::from(n)) >> 64) as u64
    }

    /// A number from `low` to `high`, both included.
    pub fn between(&mut self, low: u64, high: u64) -> u64 {
        low + self.below(high - low + 1)
    }

    /// True so many times in a hundred.
    pub fn percent(&mut self, n: u64) -> bool {
        self.below(100) < n
    }

    pub fn pick<T: Copy>(&mut self, items: &[T]) -> T {
        items[self.below(items.len() as u64) as usize]
    }

    /// A power of two.
    pub fn power(&mut self) -> u64 {
        1 << self.below(64)
    }

    /// Uniform, small, of any length, or near a power of two.
    pub fn number(&mut self) -> u64 {
        match self.below(4) {
            0 => self.bits(),
            1 => self.below(1_000),
            2 => self.bits() >> self.below(64),
            _ => {
                let power = self.power();
                self.near(power)
            }
        }
    }

    /// At most 4 away, wrapping.
    pub fn near(&mut self, n: u64) -> u64 {
        n.wrapping_add(self.below(9)).wrapping_sub(4)
    }
}

#[cfg(test)]
mod tests {
    use super::Rng;

    // The first numbers that splitmix64 is published with.
    #[test]
    fn is_splitmix64() {
        let mut rng = Rng::new(1_234_567);
        assert_eq!(rng.bits(), 6_457_827_717_110_365_317);
        assert_eq!(rng.bits(), 3_203_168_211_198_807_973);
    }

    #[test]
    fn stays_in_range() {
        let mut rng = Rng::new(0);
        assert!((0..1_000).all(|_| rng.below(3) < 3));
        assert!((0..1_000).all(|_| (5..=6).contains(&rng.between(5, 6))));
        assert!((0..1_000).all(|_| rng.near(0).wrapping_add(4) <= 8));
    }
}
