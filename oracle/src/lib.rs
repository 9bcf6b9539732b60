//! The published Rust of the dynamic bit vector (math-hiyoko/wavelet-matrix c0d44ecfaf, MIT), compiled from its own files
//! without a change, with a plain face on it. The files are taken in at the module paths that they name themselves, and only
//! what they answer through `pyo3` and `num_traits` is replaced, by the stand-ins. `dynamic_wavelet_matrix.rs` is kept
//! beside them and is not compiled.

#![allow(dead_code)]

mod traits {
    pub(crate) mod bit_vector {
        #[allow(clippy::module_inception)]
        pub(crate) mod bit_vector {
            include!("../published/src/traits/bit_vector/bit_vector.rs");
        }
        pub(crate) mod dynamic_bit_vector {
            include!("../published/src/traits/bit_vector/dynamic_bit_vector.rs");
        }
    }
    pub(crate) mod utils {
        pub(crate) mod bit_select {
            include!("../published/src/traits/utils/bit_select.rs");
        }
    }
}

mod dynamic_wavelet_matrix {
    pub(crate) mod dynamic_bit_vector;
}

pub mod orders;

pub use dynamic_wavelet_matrix::dynamic_bit_vector::leaf::{
    Inserted, leaf_access, leaf_insert, leaf_join_after, leaf_join_before, leaf_rank, leaf_remove, split_leaf,
};
pub use dynamic_wavelet_matrix::dynamic_bit_vector::tree::Part;
pub use dynamic_wavelet_matrix::dynamic_bit_vector::vector::{Refusal, Vector};

use traits::utils::bit_select::BitSelect;

/// The place of the k-th bit of a word, k from 1. The published test for k above the count looks at k's low 32 bits, so a k
/// of 2^32 and above is not for these three.
pub fn bit_select32(word: u32, bit: bool, k: usize) -> Option<usize> {
    word.bit_select(bit, k)
}

pub fn bit_select64(word: u64, bit: bool, k: usize) -> Option<usize> {
    word.bit_select(bit, k)
}

pub fn bit_select128(word: u128, bit: bool, k: usize) -> Option<usize> {
    word.bit_select(bit, k)
}
