//! The window of marks for a Rust host: one pool of 64-bit words, lent for the time of a call. No heap, no state of its own.
//!
//! A pool of N nodes, 1 to 1,023, is 6 (N + 1) words ([`pool_words`]). Every call takes arbitrary words and tests them itself; a refusal
//! changes no word of what it was lent. The calls are those of libspelunzone.a, which is proved; this crate is not, and does no more than
//! hand slices over and read the answers.
//!
//! ```
//! use spelunzone::{Order, answers, build, check, pool_words, run, values};
//!
//! let mut pool = [0; pool_words(3)];
//! assert_eq!(build(&mut pool, &[0b101], 3), Ok(3));
//!
//! let orders = [Order::Insert { at: 1, mark: true }, Order::Rank { end: 4, mark: true }, Order::Access { at: 9 }];
//! let words = orders.map(Order::words);
//! let mut out = [0; 6];
//! let served = run(&mut pool, words.as_flattened(), &mut out)?;
//! let told: Vec<_> = answers(&out, served).collect();
//! assert_eq!(told, [Ok(0), Ok(3), Err(spelunzone::Refusal::OutOfRange)]);
//!
//! let mut marks = [0; 2];
//! assert_eq!(values(&pool, &mut marks), Ok(2));
//! assert_eq!(marks, [0b1011, 0]);
//! assert_eq!(check(&pool), Ok(4));
//! # Ok::<(), spelunzone::Refusal>(())
//! ```

#![no_std]

// The example of the README is compiled and run too.
#[doc = include_str!("../README.md")]
#[cfg(doctest)]
struct Readme;

mod library;
mod order;
mod refusal;

pub use order::Order;
pub use refusal::Refusal;

/// The words of a node, and of the trailer.
pub const NODE_WORDS: usize = 6;
/// The most nodes of a pool.
pub const MOST_NODES: usize = 1023;
/// The words of an order.
pub const ORDER_WORDS: usize = 3;
/// The words of an order's answer: a code and a value.
pub const ANSWER_WORDS: usize = 2;

/// The words of a pool of so many nodes.
pub const fn pool_words(nodes: usize) -> usize {
    NODE_WORDS * (nodes + 1)
}

/// The words that [`values`] writes for so many marks: two for each 128 begun.
pub const fn value_words(marks: usize) -> usize {
    2 * marks.div_ceil(128)
}

/// A code and a value as they stand in the words, read: the value where the code is 0, else why it was refused. None where the code is
/// above 11, which no answer of the library is.
pub fn answer(code: u64, value: u64) -> Option<Result<u64, Refusal>> {
    match code {
        0 => Some(Ok(value)),
        _ => Refusal::of(code).map(Err),
    }
}

/// The answers that [`run`] wrote, one for each of the orders that it served. Words after them are not read, and it ends before words that
/// are no answer, so that it takes any words.
pub fn answers(out: &[u64], served: u64) -> impl Iterator<Item = Result<u64, Refusal>> + '_ {
    let most = usize::try_from(served).unwrap_or(usize::MAX);
    out.chunks_exact(ANSWER_WORDS).take(most).map_while(|two| answer(two[0], two[1]))
}

// What a call answers.
fn replied(reply: library::Reply) -> Result<u64, Refusal> {
    answer(reply.code, reply.value).expect("a call of the library is answered 0 to 11")
}

/// Whether the pool is well-formed: how many marks it holds, or [`WrongSize`](Refusal::WrongSize) or [`NotSound`](Refusal::NotSound).
pub fn check(pool: &[u64]) -> Result<u64, Refusal> {
    // SAFETY: the pointer of a slice is aligned and not null, also where it is empty, and stands for as many words as its length says.
    // They are only read.
    let reply = unsafe { library::sz_check(pool.as_ptr(), pool.len()) };
    replied(reply)
}

/// Overwrites the pool with the first marks of some words, lowest bit first: how many marks it holds, or
/// [`WrongSize`](Refusal::WrongSize), [`TooLong`](Refusal::TooLong) or [`Full`](Refusal::Full).
pub fn build(pool: &mut [u64], words: &[u64], length: u64) -> Result<u64, Refusal> {
    // SAFETY: the pointers are aligned and not null, also of an empty slice, and stand for as many words as the lengths say. The pool,
    // which is written, is borrowed alone, so the words do not overlap it.
    let reply = unsafe { library::sz_build(pool.as_mut_ptr(), pool.len(), words.as_ptr(), words.len(), length) };
    replied(reply)
}

/// Writes the marks out, two words for each 128 begun, padded with zeros; later words stay: how many words, or
/// [`WrongSize`](Refusal::WrongSize), [`NotSound`](Refusal::NotSound) or [`ShortOutput`](Refusal::ShortOutput).
pub fn values(pool: &[u64], out: &mut [u64]) -> Result<u64, Refusal> {
    // SAFETY: the pointers are aligned and not null, also of an empty slice, and stand for as many words as the lengths say. The output,
    // which is written, is borrowed alone, so the pool does not overlap it.
    let reply = unsafe { library::sz_values(pool.as_ptr(), pool.len(), out.as_mut_ptr(), out.len()) };
    replied(reply)
}

/// Serves orders, three words each, one after the other, and writes two words for each, to be read with [`answers`]; later words stay:
/// how many orders, or [`WrongSize`](Refusal::WrongSize), [`PartOrder`](Refusal::PartOrder), [`ShortOutput`](Refusal::ShortOutput) or
/// [`NotSound`](Refusal::NotSound). An order that is refused changes no word of the pool, and the next is served.
pub fn run(pool: &mut [u64], orders: &[u64], out: &mut [u64]) -> Result<u64, Refusal> {
    // SAFETY: the pointers are aligned and not null, also of an empty slice, and stand for as many words as the lengths say. The pool and
    // the output, which are written, are each borrowed alone, so none of the three slices overlaps another.
    let reply = unsafe {
        library::sz_run(pool.as_mut_ptr(), pool.len(), orders.as_ptr(), orders.len(), out.as_mut_ptr(), out.len())
    };
    replied(reply)
}
