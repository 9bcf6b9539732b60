//! Words that are lent to a call, with words on either side that it may not touch.

use std::sync::atomic::{AtomicUsize, Ordering};

pub const SPARE: u64 = 0x5a5a_5a5a_5a5a_5a5a;

/// How many words stand on either side. With none, a tool that watches the memory sees each word past an end.
pub static MARGIN: AtomicUsize = AtomicUsize::new(8);

fn margin() -> usize {
    MARGIN.load(Ordering::Relaxed)
}

#[derive(Clone, PartialEq, Eq)]
pub struct Lent(Vec<u64>);

impl Lent {
    pub fn new(words: &[u64]) -> Self {
        let side = vec![SPARE; margin()];
        Lent([&side, words, &side].concat())
    }

    /// So many words that are all alike.
    pub fn spare(count: usize) -> Self {
        Lent(vec![SPARE; count + 2 * margin()])
    }

    pub fn words(&self) -> &[u64] {
        &self.0[margin()..self.0.len() - margin()]
    }

    pub fn words_mut(&mut self) -> &mut [u64] {
        let end = self.0.len() - margin();
        &mut self.0[margin()..end]
    }

    /// Whether the words on either side are as they were.
    pub fn margins_stay(&self) -> bool {
        let (first, last) = (&self.0[..margin()], &self.0[self.0.len() - margin()..]);
        first.iter().chain(last).all(|word| *word == SPARE)
    }
}
