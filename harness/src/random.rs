//! Random numbers from a seed (splitmix64), so that a run can be repeated.

#[derive(Clone)]
pub struct Random(u64);

impl Random {
    pub fn new(seed: u64) -> Random {
        Random(seed)
    }

    /// The numbers of one case of a run, apart from those of its other cases.
    pub fn of_case(seed: u64, case: u64) -> Random {
        Random(Random(seed ^ case.wrapping_mul(0xd134_2543_de82_ef95)).word())
    }

    pub fn word(&mut self) -> u64 {
        self.0 = self.0.wrapping_add(0x9e37_79b9_7f4a_7c15);
        let z = (self.0 ^ (self.0 >> 30)).wrapping_mul(0xbf58_476d_1ce4_e5b9);
        let z = (z ^ (z >> 27)).wrapping_mul(0x94d0_49bb_1331_11eb);
        z ^ (z >> 31)
    }

    /// 0 to n - 1.
    pub fn below(&mut self, n: usize) -> usize {
        ((u128::from(self.word()) * n as u128) >> 64) as usize
    }

    /// low to high, both included.
    pub fn between(&mut self, low: i64, high: i64) -> i64 {
        low.wrapping_add(((u128::from(self.word()) * (high.wrapping_sub(low) as u64 as u128 + 1)) >> 64) as i64)
    }

    /// True once in n times.
    pub fn once_in(&mut self, n: usize) -> bool {
        self.below(n) == 0
    }

    pub fn pick<T: Copy>(&mut self, from: &[T]) -> T {
        from[self.below(from.len())]
    }

    /// A word of random size: small ones are as likely as large ones.
    pub fn any_size(&mut self) -> u64 {
        let shift = self.below(64);
        self.word() >> shift
    }
}
