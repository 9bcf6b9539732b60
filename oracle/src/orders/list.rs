//! A window as a plain list of bits.

use super::*;

pub fn bits_of(words: &[u64], length: u64) -> Vec<bool> {
    (0..length).map(|i| words[i as usize / 64] >> (i % 64) & 1 == 1).collect()
}

/// Two words for each 128 bits begun.
pub fn values(bits: &[bool]) -> Vec<u64> {
    let mut words = vec![0; 2 * bits.len().div_ceil(128)];
    (0..bits.len()).filter(|&at| bits[at]).for_each(|at| words[at / 64] |= 1 << (at % 64));
    words
}

fn quiet(bits: &[bool]) -> u64 {
    let (mut most, mut last) = (0, None);
    for at in (0..bits.len()).filter(|&at| bits[at]) {
        most = most.max(last.map_or(0, |last| at - last - 1));
        last = Some(at);
    }
    most as u64
}

fn select(bits: &[bool], k: u64, bit: bool) -> Pair {
    let mut places = (0..bits.len()).filter(|&at| bits[at] == bit);
    let place = usize::try_from(k - 1).ok().and_then(|k| places.nth(k));
    place.map_or([TOO_FEW, 0], |at| [DONE, at as u64])
}

/// The answer to an order, which changes the list. Whether an insert at a place finds no room is asked of `full`.
pub fn reply(bits: &mut Vec<bool>, order: Order, full: impl Fn(usize) -> bool) -> Pair {
    let length = bits.len() as u64;
    match order {
        [INSERT | RANK | SELECT, _, (2..)] | [REMOVE | ACCESS, _, (1..)] => [MALFORMED, 0],
        [INSERT | RANK, at, _] if at > length => [OUT_OF_RANGE, 0],
        [REMOVE | ACCESS, at, _] if at >= length => [OUT_OF_RANGE, 0],
        [INSERT, at, _] if full(at as usize) => [FULL, 0],
        [INSERT, at, bit] => {
            bits.insert(at as usize, bit == 1);
            [DONE, 0]
        }
        [REMOVE, at, _] => [DONE, bits.remove(at as usize) as u64],
        [ACCESS, at, _] => [DONE, bits[at as usize] as u64],
        [RANK, end, bit] => [DONE, bits[..end as usize].iter().filter(|b| **b == (bit == 1)).count() as u64],
        [SELECT, 0, _] => [NO_ZEROTH, 0],
        [SELECT, k, bit] => select(bits, k, bit == 1),
        [QUIET, 0, 0] => [DONE, quiet(bits)],
        _ => [MALFORMED, 0],
    }
}
