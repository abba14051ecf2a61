//! Repeatable chance: the same seed gives the same octets on every machine.

/// Xorshift of 64 bits, its output multiplied.
pub struct Chance {
    state: u64,
}

impl Chance {
    /// A state of zero would stay zero.
    pub fn new(seed: u64) -> Chance {
        Chance { state: seed.max(1) }
    }

    fn next(&mut self) -> u64 {
        self.state ^= self.state >> 12;
        self.state ^= self.state << 25;
        self.state ^= self.state >> 27;
        self.state.wrapping_mul(0x2545_F491_4F6C_DD1D)
    }

    /// A number below the bound, 0 where the bound is 0.
    pub fn below(&mut self, bound: usize) -> usize {
        let drawn = (self.next() >> 33) as usize;
        drawn.checked_rem(bound).unwrap_or(0)
    }

    /// True once in `times` draws.
    pub fn once_in(&mut self, times: usize) -> bool {
        self.below(times) == 0
    }

    pub fn octet(&mut self) -> u8 {
        self.below(256) as u8
    }

    pub fn octet_not_zero(&mut self) -> u8 {
        self.below(255) as u8 + 1
    }

    pub fn octets(&mut self, count: usize) -> Vec<u8> {
        (0..count).map(|_| self.octet()).collect()
    }

    pub fn number_u32(&mut self) -> u32 {
        (self.next() >> 32) as u32
    }

    /// One of a list that is not empty.
    pub fn pick<'l, T>(&mut self, list: &'l [T]) -> &'l T {
        &list[self.below(list.len())]
    }
}
