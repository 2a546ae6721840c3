// Random numbers from a seed (xorshift64*), so that a seed gives the same run everywhere.
pub struct Random(u64);

impl Random {
    pub fn new(seed: u64) -> Random {
        Random(seed.wrapping_mul(0x9E37_79B9_7F4A_7C15) | 1)
    }

    pub fn next(&mut self) -> u64 {
        self.0 ^= self.0 >> 12;
        self.0 ^= self.0 << 25;
        self.0 ^= self.0 >> 27;
        self.0.wrapping_mul(0x2545_F491_4F6C_DD1D)
    }

    pub fn below(&mut self, n: u64) -> u64 {
        (self.next() >> 16) % n
    }

    pub fn maybe<T>(&mut self, x: T) -> Option<T> {
        if self.below(2) == 0 {
            None
        } else {
            Some(x)
        }
    }

    // bits of a width, of which few or many are set
    pub fn bits(&mut self, width: u32) -> u64 {
        let v = match self.below(4) {
            0 => self.below(4),
            1 => !self.below(4),
            _ => self.next(),
        };
        if width == 8 {
            v
        } else {
            v & ((1 << (8 * width)) - 1)
        }
    }
}
