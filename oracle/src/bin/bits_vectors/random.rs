//! Random requests, with words from nearly all zeros to nearly all ones and with places mostly in range.

use super::request::*;

// The generator splitmix64.
pub struct Random(pub u64);

impl Random {
    fn next(&mut self) -> u64 {
        self.0 = self.0.wrapping_add(0x9e37_79b9_7f4a_7c15);
        let z = (self.0 ^ (self.0 >> 30)).wrapping_mul(0xbf58_476d_1ce4_e5b9);
        let z = (z ^ (z >> 27)).wrapping_mul(0x94d0_49bb_1331_11eb);
        z ^ (z >> 31)
    }

    fn below(&mut self, n: u64) -> u64 {
        self.next() % n
    }

    fn even(&mut self) -> u128 {
        wide(self.next(), self.next())
    }

    // From a few ones, by way of an even share, to a few zeros; or one run of ones.
    fn bits(&mut self) -> u128 {
        match self.below(8) {
            0 => self.even() & self.even() & self.even() & self.even() & self.even(),
            1 => self.even() & self.even(),
            2 => self.even() | self.even(),
            3 => self.even() | self.even() | self.even() | self.even() | self.even(),
            4 => (u128::MAX >> self.below(128)) << self.below(128),
            _ => self.even(),
        }
    }

    // A number up to a limit, or just past it; now and then one far away.
    fn number(&mut self, limit: u64) -> u64 {
        match self.below(16) {
            0 => self.next(),
            1 => (1 << 32) + self.below(limit + 3),
            _ => self.below(limit + 3),
        }
    }

    fn select(&mut self, width: u64) -> Request {
        let word = first(self.bits(), width);
        let bit = self.below(2) == 1;
        let ones = word.count_ones() as u64;
        let k = self.number(if bit { ones } else { width - ones });
        select_request(width, word, bit, k)
    }

    // Half of the leaves hold a length's bits and zeros past it, as in the tree, and half any bits.
    fn leaf(&mut self) -> (u128, u64) {
        let len = self.below(129);
        let bits = self.bits();
        if self.below(2) == 0 { (first(bits, len), len) } else { (bits, self.number(128)) }
    }

    fn join(&mut self) -> Request {
        let (one, len) = self.leaf();
        let room = 128 - len.min(128);
        let other = self.bits();
        let other_len = self.below(room + 1);
        let other = if self.below(4) > 0 { first(other, other_len) } else { other };
        [JOIN, low(one), high(one), len, low(other), high(other)]
    }

    pub fn request(&mut self) -> Request {
        let operation = 1 + self.below(9);
        let (bits, len) = self.leaf();
        let at = self.number(len.min(128));
        let bit = self.below(2);
        match operation {
            SELECT32 => self.select(32),
            SELECT64 => self.select(64),
            SELECT128 => self.select(128),
            INSERT | COUNT_BEFORE => [operation, low(bits), high(bits), at, bit, 0],
            REMOVE | BIT_AT => [operation, low(bits), high(bits), at, 0, 0],
            JOIN => self.join(),
            _ => [SPLIT, low(bits), high(bits), 0, 0, 0],
        }
    }
}
