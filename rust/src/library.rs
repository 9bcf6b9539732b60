//! The calls as the library has them, for a host in C (include/spelunzone.h).

/// A code and a value.
#[repr(C)]
pub struct Reply {
    pub code: u64,
    pub value: u64,
}

#[link(name = "spelunzone", kind = "static")]
unsafe extern "C" {
    pub fn sz_check(pool: *const u64, pool_words: usize) -> Reply;
    pub fn sz_build(pool: *mut u64, pool_words: usize, words: *const u64, word_count: usize, length: u64) -> Reply;
    pub fn sz_values(pool: *const u64, pool_words: usize, out: *mut u64, out_words: usize) -> Reply;
    pub fn sz_run(
        pool: *mut u64,
        pool_words: usize,
        orders: *const u64,
        order_words: usize,
        out: *mut u64,
        out_words: usize,
    ) -> Reply;
}
