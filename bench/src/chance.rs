//! Numbers by chance, from fixed seeds.

pub struct Chance {
    state: u64,
}

impl Chance {
    /// Another number gives other numbers.
    pub fn new(number: u64) -> Chance {
        Chance { state: 0x9E37_79B9_7F4A_7C15_u64.wrapping_mul(number + 1) }
    }

    /// A number below `bound`, by xorshift.
    pub fn below(&mut self, bound: usize) -> usize {
        self.state ^= self.state << 13;
        self.state ^= self.state >> 7;
        self.state ^= self.state << 17;
        (self.state >> 33) as usize % bound
    }
}
