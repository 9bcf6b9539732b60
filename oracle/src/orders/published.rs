//! A window in the published Rust, where that is defined.

use super::*;
use crate::{Refusal, Vector};

/// It takes blocks of 128 bits, so an odd last word gets a zero word beside it, and for no bits it is given no block.
pub fn vector(words: &[u64], length: u64) -> Vector {
    let words = if length > 0 { words } else { &[] };
    let block = |two: &[u64]| two[0] as u128 | (two.get(1).copied().unwrap_or(0) as u128) << 64;
    Vector::new(words.chunks(2).map(block).collect(), length as usize)
}

/// Two words for each 128 bits begun.
pub fn values(vector: &Vector) -> Vec<u64> {
    vector.values().unwrap().iter().flat_map(|&block| [block as u64, (block >> 64) as u64]).collect()
}

/// The answer to an order, which changes the vector; none to an order that it does not know.
pub fn reply(vector: &mut Vector, [order, second, third]: Order) -> Option<Pair> {
    let (at, bit) = (usize::try_from(second).unwrap(), third == 1);
    let reply = match (order, third) {
        (INSERT, 0..2) => vector.insert(at, bit).map(|()| [DONE, 0]),
        (REMOVE, 0) => vector.remove(at).map(|bit| [DONE, bit as u64]),
        (ACCESS, 0) => vector.access(at).map(|bit| [DONE, bit as u64]),
        (RANK, 0..2) => vector.rank(bit, at).map(|count| [DONE, count as u64]),
        (SELECT, 0..2) => vector.select(bit, at).map(|place| place.map_or([TOO_FEW, 0], |place| [DONE, place as u64])),
        _ => return None,
    };
    Some(reply.unwrap_or_else(|refusal| match refusal {
        Refusal::Index => [OUT_OF_RANGE, 0],
        Refusal::Value => [NO_ZEROTH, 0],
        Refusal::Runtime => [LEAF_LACKS, 0],
    }))
}
