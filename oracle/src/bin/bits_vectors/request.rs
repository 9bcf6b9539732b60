//! What a request and an answer are, with the few things done to words and lists of bits to make them.

// A request is an operation and five arguments, an answer four words; what is not used is 0.
pub type Request = [u64; 6];
pub type Answer = [u64; 4];

pub const SELECT32: u64 = 1; // word, bit, k: found, place
pub const SELECT64: u64 = 2; // word, bit, k: found, place
pub const SELECT128: u64 = 3; // low, high, bit, k: found, place
pub const INSERT: u64 = 4; // low, high, at, bit: low, high
pub const REMOVE: u64 = 5; // low, high, at: low, high
pub const JOIN: u64 = 6; // low, high, len, other low, other high: low, high
pub const SPLIT: u64 = 7; // low, high: left low, left high, right low, right high
pub const COUNT_BEFORE: u64 = 8; // low, high, end, bit: count
pub const BIT_AT: u64 = 9; // low, high, at: bit
pub const UNKNOWN: Answer = [u64::MAX; 4];

pub fn wide(low: u64, high: u64) -> u128 {
    low as u128 | (high as u128) << 64
}

pub fn low(bits: u128) -> u64 {
    bits as u64
}

pub fn high(bits: u128) -> u64 {
    (bits >> 64) as u64
}

// The lowest `len` bits.
pub fn first(bits: u128, len: u64) -> u128 {
    if len < 128 { bits & ((1 << len) - 1) } else { bits }
}

// How many bits there are up to the highest that is set.
pub fn length(bits: u128) -> u64 {
    (128 - bits.leading_zeros()) as u64
}

pub fn list(bits: u128, width: usize) -> Vec<bool> {
    (0..width).map(|i| bits >> i & 1 == 1).collect()
}

// The first 128 bits of a list, with zeros where it is shorter.
pub fn word(list: &[bool]) -> u128 {
    let bits = list.iter().take(128).enumerate();
    bits.fold(0, |word, (i, &bit)| word | (bit as u128) << i)
}

pub fn leaf_answer(bits: u128) -> Answer {
    [low(bits), high(bits), 0, 0]
}

pub fn split_answer(left: u128, right: u128) -> Answer {
    [low(left), high(left), low(right), high(right)]
}

pub fn place_answer(place: Option<usize>) -> Answer {
    place.map_or([0; 4], |at| [1, at as u64, 0, 0])
}

pub fn number_answer(number: u64) -> Answer {
    [number, 0, 0, 0]
}

pub fn select_request(width: u64, word: u128, bit: bool, k: u64) -> Request {
    match width {
        32 => [SELECT32, low(word), bit as u64, k, 0, 0],
        64 => [SELECT64, low(word), bit as u64, k, 0, 0],
        _ => [SELECT128, low(word), high(word), bit as u64, k, 0],
    }
}
