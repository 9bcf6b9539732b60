//! The orders of a window as three words and their answers as two, by a plain list of bits and by the published Rust. Neither knows the other.

pub mod list;
pub mod published;

/// A number, and its second and third word.
pub type Order = [u64; 3];
/// A code and a value.
pub type Pair = [u64; 2];

pub const INSERT: u64 = 1;
pub const REMOVE: u64 = 2;
pub const ACCESS: u64 = 3;
pub const RANK: u64 = 4;
pub const SELECT: u64 = 5;
pub const QUIET: u64 = 6;

pub const DONE: u64 = 0;
pub const OUT_OF_RANGE: u64 = 1;
pub const NO_ZEROTH: u64 = 2;
pub const TOO_FEW: u64 = 3;
pub const FULL: u64 = 4;
pub const MALFORMED: u64 = 5;
pub const WRONG_SIZE: u64 = 6;
pub const NOT_SOUND: u64 = 7;
pub const SHORT_OUTPUT: u64 = 8;
pub const TOO_LONG: u64 = 10;
pub const LEAF_LACKS: u64 = 11;
