//! Numbers that look random and are the same in every run: xorshift by Marsaglia, 64 bits.

pub struct Random(u64);

impl Default for Random {
    fn default() -> Self {
        Random::new(0)
    }
}

impl Random {
    pub fn new(seed: u64) -> Self {
        Random(seed | 1 << 63)
    }

    pub fn number(&mut self) -> u64 {
        self.0 ^= self.0 << 13;
        self.0 ^= self.0 >> 7;
        self.0 ^= self.0 << 17;
        self.0
    }

    /// From 0 up to and without `bound`.
    pub fn below(&mut self, bound: usize) -> usize {
        ((self.number() >> 16) % bound as u64) as usize
    }

    /// True once in `times`.
    pub fn once_in(&mut self, times: usize) -> bool {
        self.below(times) == 0
    }

    pub fn byte(&mut self) -> u8 {
        (self.number() >> 32) as u8
    }

    pub fn pick<T: Copy>(&mut self, from: &[T]) -> T {
        from[self.below(from.len())]
    }

    /// A number of at most `bits` bits, all sizes equally likely.
    pub fn sized(&mut self, bits: usize) -> u64 {
        let size = self.below(bits + 1);
        if size == 0 {
            return 0;
        }
        self.number() >> (64 - size)
    }

    pub fn bytes(&mut self, count: usize, out: &mut Vec<u8>) {
        out.extend((0..count).map(|_| self.byte()));
    }
}
