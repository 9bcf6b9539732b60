//! The orders of a run.

/// An order. A mark is `true` where the trigger fired.
#[derive(Debug, Clone, Copy, PartialEq, Eq)]
pub enum Order {
    /// Puts a mark in at a place, which may be the length. Its value is 0.
    Insert { at: u64, mark: bool },
    /// Takes the mark out that stands at a place, and tells it.
    Remove { at: u64 },
    /// Tells the mark at a place.
    Access { at: u64 },
    /// Tells how many such marks are before a place, which may be the length.
    Rank { end: u64, mark: bool },
    /// Tells where the k-th such mark stands, k from 1.
    Select { k: u64, mark: bool },
    /// Tells the most quiet frames between two neighbouring strikes, 0 with fewer than two strikes.
    LongestQuiet,
}

impl Order {
    /// The three words of the order.
    pub const fn words(self) -> [u64; 3] {
        match self {
            Order::Insert { at, mark } => [1, at, mark as u64],
            Order::Remove { at } => [2, at, 0],
            Order::Access { at } => [3, at, 0],
            Order::Rank { end, mark } => [4, end, mark as u64],
            Order::Select { k, mark } => [5, k, mark as u64],
            Order::LongestQuiet => [6, 0, 0],
        }
    }
}
