//! Numbers that a seed decides: the generator splitmix64.

#[derive(Clone)]
pub struct Random(pub u64);

impl Random {
    pub fn next(&mut self) -> u64 {
        self.0 = self.0.wrapping_add(0x9e37_79b9_7f4a_7c15);
        let z = (self.0 ^ (self.0 >> 30)).wrapping_mul(0xbf58_476d_1ce4_e5b9);
        let z = (z ^ (z >> 27)).wrapping_mul(0x94d0_49bb_1331_11eb);
        z ^ (z >> 31)
    }

    pub fn below(&mut self, n: u64) -> u64 {
        self.next() % n
    }

    pub fn place(&mut self, n: usize) -> usize {
        self.below(n as u64) as usize
    }

    pub fn one_of<T: Copy>(&mut self, all: &[T]) -> T {
        all[self.place(all.len())]
    }

    pub fn chance(&mut self, one_in: u64) -> bool {
        self.below(one_in) == 0
    }

    /// No marks, all marks, one in sixteen or one in two.
    pub fn word(&mut self, density: u64) -> u64 {
        match density {
            0 => 0,
            1 => u64::MAX,
            2 => self.next() & self.next() & self.next() & self.next(),
            _ => self.next(),
        }
    }

    pub fn words(&mut self, length: u64) -> Vec<u64> {
        let density = self.below(6);
        (0..length.div_ceil(64)).map(|_| self.word(density)).collect()
    }
}
