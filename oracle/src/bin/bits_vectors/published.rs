//! Each operation by the published Rust, where that is defined. Where it is not, the reason stands at its place, and
//! `known_breaks` tries that the Rust does stop where it is said to.

use super::request::*;
use oracle::{
    Inserted, bit_select32, bit_select64, bit_select128, leaf_access, leaf_insert, leaf_join_after, leaf_join_before,
    leaf_rank, leaf_remove, split_leaf,
};
use std::panic;

// Its test for k above the count looks at `k as u32`. From 2^32 on it is not asked: the right answer there is none.
fn published_select(k: u64, select: impl Fn(usize) -> Option<usize>) -> Option<Answer> {
    (k < 1 << 32).then(|| place_answer(select(k as usize)))
}

// An insert that makes 128 bits splits the leaf at once, so there its two halves are put together again. A leaf with a bit
// 127 is above what the Rust keeps; the code then drops that bit, and it is asked as for a shorter leaf.
fn published_insert(bits: u128, at: u64, bit: bool) -> Option<Answer> {
    let len = if length(bits) < 128 { length(bits).max(at) } else { at.min(126) };
    (at < 128).then(|| match leaf_insert(bits, at as usize, bit, len as usize) {
        Inserted::Whole(bits) => leaf_answer(bits),
        Inserted::Halves(left, right) => leaf_answer(left | right << 64),
    })
}

// The bit taken out is looked at too. At 127 the Rust shifts by 128.
fn published_remove(bits: u128, at: u64) -> Option<Answer> {
    (at < 127).then(|| {
        let (bit, rest) = leaf_remove(bits, at as usize);
        assert_eq!(bit, list(bits, 128)[at as usize]);
        leaf_answer(rest)
    })
}

// The Rust joins leaves that hold zeros past their lengths, since it keeps what stands there, and 128 bits together at the
// most. A second leaf put after the first may not fill it to 128, and a first put before the second may not be 128 long: in
// either the Rust shifts by 128.
fn published_join(one: u128, len: u64, other: u128) -> Option<Answer> {
    let other_len = length(other);
    if len > 127 || first(one, len) != one || len + other_len > 128 {
        return None;
    }
    let joined = leaf_join_before(one, len as usize, other, other_len as usize);
    if len + other_len < 128 {
        let after = leaf_join_after(one, len as usize, other, other_len as usize);
        assert_eq!(joined, after);
    }
    Some(leaf_answer(joined))
}

// A lone leaf of 128 bits is asked. With 128 as the end the Rust shifts by 128.
fn published_count(bits: u128, end: u64, bit: bool) -> Option<Answer> {
    let count = || leaf_rank(bits, 128, bit, end as usize).unwrap();
    (end < 128).then(|| number_answer(count() as u64))
}

fn published_bit(bits: u128, at: u64) -> Option<Answer> {
    let bit = leaf_access(bits, 128, usize::try_from(at).unwrap());
    assert_eq!(bit.is_some(), at < 128);
    bit.map(|bit| number_answer(bit as u64))
}

pub fn by_the_published(request: Request) -> Option<Answer> {
    let [operation, a, b, c, d, e] = request;
    let leaf = wide(a, b);
    match operation {
        SELECT32 => published_select(c, |k| bit_select32(a as u32, b != 0, k)),
        SELECT64 => published_select(c, |k| bit_select64(a, b != 0, k)),
        SELECT128 => published_select(d, |k| bit_select128(leaf, c != 0, k)),
        INSERT => published_insert(leaf, c, d != 0),
        REMOVE => published_remove(leaf, c),
        JOIN => published_join(leaf, c, wide(d, e)),
        SPLIT => {
            let (left, right) = split_leaf(leaf, 128);
            Some(split_answer(left, right))
        }
        COUNT_BEFORE => published_count(leaf, c, d != 0),
        BIT_AT => published_bit(leaf, c),
        _ => None,
    }
}

fn breaks<T>(name: &str, call: impl Fn() -> T + panic::UnwindSafe) {
    assert!(panic::catch_unwind(call).is_err(), "the published code no longer breaks: {name}");
}

// The places where the Rust stops, or parts from the list. It is built with its assertions and with checks on its sums and shifts.
pub fn known_breaks() {
    let hook = panic::take_hook();
    panic::set_hook(Box::new(|_| ()));
    breaks("insert at 128", || leaf_insert(0, 128, true, 0));
    breaks("remove at 127", || leaf_remove(0, 127));
    breaks("join after to 128", || leaf_join_after(0, 64, 0, 64));
    breaks("join before with 128", || leaf_join_before(0, 128, 0, 0));
    breaks("count before 128", || leaf_rank(0, 128, true, 128));
    breaks("k = 2^32, 32 bits", || bit_select32(0, true, 1 << 32));
    breaks("k = 2^32, 64 bits", || bit_select64(0, true, 1 << 32));
    breaks("k = 2^32, 128 bits", || bit_select128(0, true, 1 << 32));
    breaks("k = 2^32 + 1", || bit_select64(22, true, (1 << 32) + 1));
    panic::set_hook(hook);
    // and where it keeps bits past a leaf's length
    assert_eq!(leaf_join_after(0b10, 1, 0, 1), 0b100);
}
