//! The published bit vector with numbers and an enum for its answers.

use super::DynamicBitVector;
use super::tree::{self, Part};
use crate::traits::bit_vector::{bit_vector::BitVectorTrait, dynamic_bit_vector::DynamicBitVectorTrait};
use pyo3::{Kind, PyErr};

/// Why a call was refused: an index or an end out of range, a select with k = 0, or a leaf that lacks the bit.
#[derive(Debug, Clone, Copy, PartialEq, Eq)]
pub enum Refusal {
    Index,
    Value,
    Runtime,
}

impl From<PyErr> for Refusal {
    fn from(error: PyErr) -> Self {
        match error.kind {
            Kind::Index => Refusal::Index,
            Kind::Value => Refusal::Value,
            Kind::Runtime => Refusal::Runtime,
        }
    }
}

#[derive(Clone)]
pub struct Vector(DynamicBitVector);

impl Vector {
    /// The first `len` bits of the blocks, lowest first. A length of 0 with blocks present panics.
    pub fn new(blocks: Vec<u128>, len: usize) -> Self {
        Vector(DynamicBitVector::new(blocks, len))
    }

    /// A vector with such a tree. Nothing is tested: what the list says of the totals, ones and balances is taken as it is.
    pub fn of_parts(parts: &[Part]) -> Self {
        Vector(tree::vector(parts))
    }

    /// The nodes of its tree.
    pub fn parts(&self) -> Vec<Part> {
        tree::parts(&self.0)
    }

    /// The bits in blocks of 128, the last one padded with zeros.
    pub fn values(&self) -> Result<Vec<u128>, Refusal> {
        Ok(self.0.values()?)
    }

    pub fn access(&self, index: usize) -> Result<bool, Refusal> {
        Ok(self.0.access(index)?)
    }

    pub fn rank(&self, bit: bool, end: usize) -> Result<usize, Refusal> {
        Ok(self.0.rank(bit, end)?)
    }

    /// `None` where k is above the count.
    pub fn select(&self, bit: bool, k: usize) -> Result<Option<usize>, Refusal> {
        Ok(self.0.select(bit, k)?)
    }

    pub fn insert(&mut self, index: usize, bit: bool) -> Result<(), Refusal> {
        Ok(self.0.insert(index, bit)?)
    }

    pub fn remove(&mut self, index: usize) -> Result<bool, Refusal> {
        Ok(self.0.remove(index)?)
    }
}
