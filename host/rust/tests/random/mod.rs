//! Numbers that look random, the same in each run: xorshift.

pub struct Random(pub u64);

impl Random {
    pub fn word(&mut self) -> u64 {
        self.0 ^= self.0 << 13;
        self.0 ^= self.0 >> 7;
        self.0 ^= self.0 << 17;
        self.0
    }

    /// One of 0 up to and without a limit.
    pub fn below(&mut self, limit: usize) -> usize {
        (self.word() >> 16) as usize % limit
    }

    /// A number of 1 up to so many bits, so that short ones are as likely as long ones.
    pub fn bits(&mut self, most: usize) -> u64 {
        self.word() >> (63 - self.below(most))
    }
}
