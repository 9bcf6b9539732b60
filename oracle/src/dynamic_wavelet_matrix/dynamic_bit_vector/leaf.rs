//! What the published code does to one leaf, reached through its private node: a leaf is made of a word, edited, and taken
//! apart again. Each call panics where the published code does, as in a shift by 128.

use super::{DynamicBitVector, DynamicBitVectorNode};
use crate::traits::bit_vector::bit_vector::BitVectorTrait;

/// A leaf after an insert: still one, or two halves where it reached 128 bits.
#[derive(Debug, Clone, Copy, PartialEq, Eq)]
pub enum Inserted {
    Whole(u128),
    Halves(u128, u128),
}

fn leaf(bits: u128) -> DynamicBitVectorNode {
    DynamicBitVectorNode::Leaf { bits }
}

fn bits_of(node: &DynamicBitVectorNode) -> u128 {
    match node {
        DynamicBitVectorNode::Leaf { bits } => *bits,
        DynamicBitVectorNode::Internal { .. } => panic!("a leaf was looked for"),
    }
}

// The two leaves of a leaf that was split. What the new node says of them has to be true.
fn halves_of(node: &DynamicBitVectorNode, len: usize) -> (u128, u128) {
    let DynamicBitVectorNode::Internal { left, right, left_total, left_ones, balance } = node else {
        panic!("two leaves were looked for")
    };
    let (left, right) = (bits_of(left), bits_of(right));
    assert_eq!(*left_total, len / 2);
    assert_eq!(*left_ones, left.count_ones() as usize);
    assert_eq!(*balance, 0);
    (left, right)
}

/// The published `insert` on a leaf of `len` bits.
pub fn leaf_insert(bits: u128, index: usize, bit: bool, len: usize) -> Inserted {
    let mut node = leaf(bits);
    match node.insert(index, bit, len) {
        0 => Inserted::Whole(bits_of(&node)),
        _ => {
            let (left, right) = halves_of(&node, len + 1);
            Inserted::Halves(left, right)
        }
    }
}

/// The published `remove` on a leaf: the bit taken out, and the leaf without it.
pub fn leaf_remove(bits: u128, index: usize) -> (bool, u128) {
    let mut node = leaf(bits);
    let (bit, height) = node.remove(index, 0);
    assert_eq!(height, 0);
    (bit, bits_of(&node))
}

/// The published `insert_batch` as a merge to the right neighbour calls it: the first leaf's bits are put in front of the
/// second's.
pub fn leaf_join_before(first: u128, first_len: usize, second: u128, second_len: usize) -> u128 {
    let mut node = leaf(second);
    node.insert_batch(0, first, second_len, first_len);
    bits_of(&node)
}

/// The published `insert_batch` as a merge to the left neighbour calls it: the second leaf's bits are put after the first's.
pub fn leaf_join_after(first: u128, first_len: usize, second: u128, second_len: usize) -> u128 {
    let mut node = leaf(first);
    node.insert_batch(first_len, second, first_len, second_len);
    bits_of(&node)
}

/// The published `split_leaf` on a leaf of `len` bits.
pub fn split_leaf(bits: u128, len: usize) -> (u128, u128) {
    let mut node = leaf(bits);
    node.split_leaf(len);
    halves_of(&node, len)
}

fn lone(bits: u128, len: usize) -> DynamicBitVector {
    DynamicBitVector { len, root: Box::new(leaf(bits)) }
}

/// The published `rank` on a vector of one leaf.
pub fn leaf_rank(bits: u128, len: usize, bit: bool, end: usize) -> Option<usize> {
    lone(bits, len).rank(bit, end).ok()
}

/// The published `access` on a vector of one leaf.
pub fn leaf_access(bits: u128, len: usize, index: usize) -> Option<bool> {
    lone(bits, len).access(index).ok()
}
