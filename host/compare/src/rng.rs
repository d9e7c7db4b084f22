//! Numbers that look random, the same in every run.
pub struct Rng(u64);

impl Rng {
    pub fn new(seed: u64) -> Rng {
        Rng(seed)
    }

    fn next(&mut self) -> u64 {
        self.0 ^= self.0 << 13;
        self.0 ^= self.0 >> 7;
        self.0 ^= self.0 << 17;
        self.0.wrapping_mul(0x2545_f491_4f6c_dd1d)
    }

    /// Below n, or 0.
    pub fn below(&mut self, n: u32) -> u32 {
        if n == 0 { 0 } else { ((self.next() >> 33) % n as u64) as u32 }
    }

    /// A word, small ones and edges more often.
    pub fn word(&mut self) -> u32 {
        match self.below(5) {
            0 => self.below(4),
            1 => self.below(300),
            2 => u32::MAX - self.below(3),
            3 => 1 << self.below(32),
            _ => (self.next() >> 32) as u32,
        }
    }

    pub fn one_in(&mut self, n: u32) -> bool {
        self.below(n) == 0
    }
}
