//! The places where we part from the published Rust on a window, each with its smallest input (docs/DIFFERENCES.md): what the Rust does there, and
//! what ours does.

use super::lent::Lent;
use oracle::orders::published;
use oracle::{Vector, bit_select64};
use spelunzone::{Order, Refusal, answer, build, check, pool_words, run, values};
use std::panic;

// The hook is put back before the assertion, so that a call that no longer stops is named.
fn stops<T>(name: &str, call: impl Fn() -> T + panic::UnwindSafe) {
    let hook = panic::take_hook();
    panic::set_hook(Box::new(|_| ()));
    let stopped = panic::catch_unwind(call).is_err();
    panic::set_hook(hook);
    assert!(stopped, "the published code no longer stops: {name}");
}

fn built<const WORDS: usize>(words: &[u64], length: u64) -> [u64; WORDS] {
    let mut pool = [0; WORDS];
    assert_eq!(build(&mut pool, words, length), Ok(length));
    pool
}

fn one(pool: &mut [u64], order: [u64; 3]) -> Result<u64, Refusal> {
    let mut out = [0; 2];
    assert_eq!(run(pool, &order, &mut out), Ok(1));
    answer(out[0], out[1]).expect("an order is answered 0 to 11")
}

// A call that is refused so, and leaves each word as it was.
fn refused(words: &[u64], refusal: Refusal, call: impl Fn(&mut [u64]) -> Result<u64, Refusal>) {
    let mut pool = Lent::new(words);
    let before = pool.clone();
    assert_eq!(call(pool.words_mut()), Err(refusal));
    assert!(pool == before, "a refusal changed a word");
}

const TWO_NODES: usize = pool_words(2);
const THREE_NODES: usize = pool_words(3);

fn builds() {
    // more leaves than nodes for them: the Rust grows on the heap
    assert_eq!(Vector::new(vec![0], 65).parts().len(), 3);
    refused(&[0; TWO_NODES], Refusal::Full, |pool| build(pool, &[0, 0], 65));

    // more marks than the words hold: the Rust takes the length, and breaks where a shift passes its leaf
    assert_eq!(Vector::new(vec![], 1).values().unwrap(), [0]);
    assert_eq!(Vector::new(vec![], 127).rank(true, 127), Ok(0));
    stops("no block, length 128, the rank of all", || Vector::new(vec![], 128).rank(true, 128));
    stops("no block, length 129, the access of 128", || Vector::new(vec![], 129).access(128));
    stops("one block, length 193, the access of 192", || Vector::new(vec![0], 193).access(192));
    stops("one block of ones, length 192, the 65th quiet", || Vector::new(vec![u128::MAX], 192).select(false, 65));
    refused(&[0; TWO_NODES], Refusal::TooLong, |pool| build(pool, &[], 1));
    refused(&[0; TWO_NODES], Refusal::TooLong, |pool| build(pool, &[0], 65));

    // no marks with words present
    stops("one block, length 0", || Vector::new(vec![0], 0));
    let empty = built::<TWO_NODES>(&[7], 0);
    assert_eq!(empty, built::<TWO_NODES>(&[], 0));
    assert_eq!(check(&empty), Ok(0));

    // an odd count of words: the Rust takes blocks of two
    let mut out = [0; 2];
    assert_eq!(values(&built::<TWO_NODES>(&[5], 3), &mut out), Ok(2));
    assert_eq!(published::values(&Vector::new(vec![5], 3)), out);
}

fn orders() {
    // a leaf of 127 marks and fewer than two nodes free: the Rust grows on the heap
    let mut leaf = built::<TWO_NODES>(&[0], 64);
    let mut rust = Vector::new(vec![0], 64);
    for _ in 0..63 {
        assert_eq!(one(&mut leaf, [1, 0, 1]), Ok(0));
        rust.insert(0, true).unwrap();
    }
    refused(&leaf, Refusal::Full, |pool| one(pool, [1, 0, 1]));
    refused(&leaf, Refusal::Full, |pool| one(pool, [1, 127, 0]));
    assert_eq!((rust.parts().len(), rust.insert(0, true), rust.parts().len()), (1, Ok(()), 3));

    // an order that is not as tabled: the Rust has no such order
    let pool = built::<THREE_NODES>(&[5], 3);
    for order in [[0, 0, 0], [7, 0, 0], [1, 0, 2], [2, 0, 1], [3, 0, 1], [4, 0, 2], [5, 1, 2], [6, 1, 0], [6, 0, 1]] {
        refused(&pool, Refusal::Malformed, |pool| one(pool, order));
    }

    // longest quiet: the Rust has no such order
    assert_eq!(one(&mut built::<THREE_NODES>(&[0b1001_0001], 8), Order::LongestQuiet.words()), Ok(3));

    // k of 2^32 and above: only the Rust's search in a word breaks there; its vector counts first, and ours answers the same
    stops("word 22, ones, k = 2^32 + 1", || bit_select64(22, true, (1 << 32) + 1));
    stops("word 0, k = 2^32", || bit_select64(0, true, 1 << 32));
    for k in [1 << 32, (1 << 32) + 1] {
        assert_eq!(Vector::new(vec![22], 64).select(true, k), Ok(None));
        refused(&built::<TWO_NODES>(&[22], 64), Refusal::TooFew, |pool| one(pool, [5, k as u64, 1]));
    }
}

fn words() {
    // any call on damaged words, or on words that are no pool's count: the Rust has none
    let mut pool = built::<TWO_NODES>(&[5], 3);
    pool[5] = 1;
    refused(&pool, Refusal::NotSound, |pool| check(pool));
    refused(&pool, Refusal::NotSound, |pool| values(pool, &mut [0; 2]));
    refused(&pool, Refusal::NotSound, |pool| run(pool, &[1, 0, 1], &mut [0; 2]));
    refused(&[0; 11], Refusal::WrongSize, |pool| build(pool, &[], 0));
    refused(&[0; pool_words(1024)], Refusal::WrongSize, |pool| build(pool, &[], 0));

    // values and answers go into words that the caller lends: the Rust makes new ones
    let pool = built::<TWO_NODES>(&[5], 3);
    refused(&pool, Refusal::ShortOutput, |pool| values(pool, &mut [0; 1]));
    refused(&pool, Refusal::ShortOutput, |pool| run(pool, &[3, 0, 0], &mut [0; 1]));
    refused(&pool, Refusal::PartOrder, |pool| run(pool, &[3, 0], &mut [0; 2]));
}

/// Stops where a row is no longer true.
pub fn parting() {
    builds();
    orders();
    words();
}
