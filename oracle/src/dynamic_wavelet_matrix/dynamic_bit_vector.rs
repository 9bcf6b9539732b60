// The published bit vector and its nodes. The modules below it reach the private node and the constructor, since what
// is private to a module is open to the modules within it.
include!("../../published/src/dynamic_wavelet_matrix/dynamic_bit_vector.rs");

pub mod leaf;
pub mod tree;
pub mod vector;
