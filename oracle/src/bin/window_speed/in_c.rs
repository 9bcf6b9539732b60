//! The check in C (check_in_c.c), and that it gives the verdict of the library's check: on sound pools, on pools with some words changed, and on
//! some that were cut off.

use super::measure::Random;
use spelunzone::{Order, build, check, pool_words, run};

#[link(name = "check_in_c", kind = "static")]
unsafe extern "C" {
    #[link_name = "check_in_c"]
    fn code_in_c(words: *const u64, count: usize) -> u64;
}

/// The code of a pool.
pub fn check_in_c(pool: &[u64]) -> u64 {
    // SAFETY: the pointer stands for as many words as the length says, and they are only read.
    unsafe { code_in_c(pool.as_ptr(), pool.len()) }
}

/// Nodes and marks of the pools that are damaged, and how often each is.
const POOLS: [(usize, u64); 12] = [
    (1, 0),
    (1, 64),
    (3, 65),
    (7, 190),
    (15, 320),
    (63, 1_000),
    (255, 100),
    (255, 4_000),
    (1_023, 100),
    (1_023, 5_000),
    (1_023, 15_000),
    (1_023, 30_000),
];
const DAMAGES: usize = 15_000;
/// After so many the pool is looked at whole and cut off, and edited by as many orders.
const AGEING: usize = 50;

fn age(pool: &mut [u64], marks: u64, random: &mut Random) {
    let edit = |index: usize| match index % 2 {
        0 => Order::Insert { at: random.below(marks + 1), mark: random.strike(false) },
        _ => Order::Remove { at: random.below(marks + 1) },
    };
    let words: Vec<u64> = (0..AGEING).map(edit).flat_map(Order::words).collect();
    run(pool, &words, &mut [0; 2 * AGEING]).expect("a sound pool is edited");
}

/// A word in place of one of the pool: a number near it, a bit turned over, a word of another place, a small number, or any.
fn other(pool: &[u64], at: usize, random: &mut Random) -> u64 {
    match random.below(6) {
        0 => pool[at].wrapping_add(1),
        1 => pool[at].wrapping_sub(1),
        2 => pool[at] ^ 1 << random.below(64),
        3 => pool[random.below(pool.len() as u64) as usize],
        4 => random.below(pool.len() as u64 / 6 + 1),
        _ => random.next(),
    }
}

#[derive(Default)]
pub struct Verdicts {
    sound: usize,
    not: usize,
}

impl Verdicts {
    fn compare(&mut self, pool: &[u64]) {
        let ours = check(pool).map_or_else(|refusal| refusal.number(), |_| 0);
        let in_c = check_in_c(pool);
        assert_eq!(ours, in_c, "the check and the check in C differ on a pool of {} words: {pool:?}", pool.len());
        if ours == 0 { self.sound += 1 } else { self.not += 1 }
    }

    // Up to three words are changed, compared, and put back.
    fn damaged(&mut self, pool: &mut [u64], random: &mut Random) {
        let changed: Vec<(usize, u64)> = (0..=random.below(3))
            .map(|_| {
                // one in four stands in the trailer
                let among = if random.below(4) == 0 { 6 } else { pool.len() as u64 };
                let at = pool.len() - 1 - random.below(among) as usize;
                let word = other(pool, at, random);
                (at, std::mem::replace(&mut pool[at], word))
            })
            .collect();
        self.compare(pool);
        changed.into_iter().rev().for_each(|(at, word)| pool[at] = word);
    }

    /// Compares the verdicts, and stops where two differ.
    pub fn compared(random: &mut Random) -> Self {
        let mut verdicts = Verdicts::default();
        for (nodes, marks) in POOLS {
            let mut pool = vec![0; pool_words(nodes)];
            let words = random.marks(marks as usize, false);
            build(&mut pool, &words, marks).expect("there is room for the marks");
            for turn in 0..DAMAGES {
                if turn % AGEING == 0 {
                    verdicts.compare(&pool);
                    verdicts.compare(&pool[..random.below(pool.len() as u64 + 1) as usize]);
                    age(&mut pool, marks, random);
                }
                verdicts.damaged(&mut pool, random);
            }
        }
        verdicts
    }
}

impl std::fmt::Display for Verdicts {
    fn fmt(&self, f: &mut std::fmt::Formatter) -> std::fmt::Result {
        let Verdicts { sound, not } = self;
        write!(f, "The check and the check in C gave the same verdict on {sound} sound pools and {not} others.")
    }
}
