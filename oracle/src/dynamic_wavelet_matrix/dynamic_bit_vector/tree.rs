//! The published tree as a list of its nodes, each before what is under it, left before right; and a vector made of such a list.

use super::{DynamicBitVector, DynamicBitVectorNode};

/// A node. A leaf's size is told by the forks above it.
#[derive(Debug, Clone, Copy, PartialEq, Eq)]
pub enum Part {
    Fork { left_total: usize, left_ones: usize, balance: isize },
    Leaf { bits: u128, size: usize },
}

fn list(node: &DynamicBitVectorNode, size: usize, parts: &mut Vec<Part>) {
    match node {
        DynamicBitVectorNode::Leaf { bits } => parts.push(Part::Leaf { bits: *bits, size }),
        DynamicBitVectorNode::Internal { left, right, left_total, left_ones, balance } => {
            parts.push(Part::Fork { left_total: *left_total, left_ones: *left_ones, balance: *balance });
            list(left, *left_total, parts);
            list(right, size - *left_total, parts);
        }
    }
}

fn node(parts: &mut impl Iterator<Item = Part>) -> DynamicBitVectorNode {
    match parts.next().expect("a fork has two children") {
        Part::Leaf { bits, .. } => DynamicBitVectorNode::Leaf { bits },
        Part::Fork { left_total, left_ones, balance } => DynamicBitVectorNode::Internal {
            left: Box::new(node(parts)),
            right: Box::new(node(parts)),
            left_total,
            left_ones,
            balance,
        },
    }
}

pub(super) fn parts(vector: &DynamicBitVector) -> Vec<Part> {
    let mut parts = Vec::new();
    list(&vector.root, vector.len, &mut parts);
    parts
}

pub(super) fn vector(parts: &[Part]) -> DynamicBitVector {
    let size = |part: &Part| if let Part::Leaf { size, .. } = part { *size } else { 0 };
    let root = Box::new(node(&mut parts.iter().copied()));
    DynamicBitVector { len: parts.iter().map(size).sum(), root }
}
