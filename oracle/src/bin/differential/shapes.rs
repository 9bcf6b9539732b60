//! Trees that no build makes: any balanced shape, leaves of any sizes that are allowed, numbers and free chain in any order. Edits on each, beside
//! the published Rust with the same tree.

use super::Failure;
use super::beside::Beside;
use super::counts::{Counts, Progress};
use super::layout;
use super::random::Random;
use super::script;
use oracle::Part;
use oracle::orders::*;

/// A tree in words: its nodes' numbers are drawn from those that are left.
struct Maker<'a> {
    random: &'a mut Random,
    words: Vec<u64>,
    numbers: Vec<u64>,
}

struct Made {
    number: u64,
    size: u64,
    ones: u64,
    height: u64,
}

impl Maker<'_> {
    fn put(&mut self, cell: [u64; 6]) -> u64 {
        let number = self.numbers.pop().expect("there are numbers for a full tree");
        self.words[6 * number as usize..][..6].copy_from_slice(&cell);
        number
    }

    fn leaf(&mut self, last: bool, lone: bool) -> Made {
        let size = match (self.random.below(4), last) {
            (0, true) => self.random.below(128).max(!lone as u64),
            (0 | 1, _) => 33 + self.random.below(3),
            (2, _) => 126 + self.random.below(2),
            _ => 33 + self.random.below(95),
        };
        let mask = if size == 0 { 0 } else { u128::MAX >> (128 - size) };
        let bits = (self.random.next() as u128 | (self.random.next() as u128) << 64) & mask;
        let number = self.put([1, bits as u64, (bits >> 64) as u64, 0, 0, 0]);
        Made { number, size, ones: bits.count_ones() as u64, height: 0 }
    }

    fn tree(&mut self, height: u64, last: bool, lone: bool) -> Made {
        if height == 0 {
            return self.leaf(last, lone);
        }
        let (left, right) = match (height, self.random.below(3)) {
            (2.., 0) => (height - 1, height - 2),
            (2.., 1) => (height - 2, height - 1),
            _ => (height - 1, height - 1),
        };
        let left = self.tree(left, false, false);
        let right = self.tree(right, last, false);
        let number = self.put([2, left.number, right.number, left.size, left.ones, 2 + right.height - left.height]);
        let height = 1 + left.height.max(right.height);
        Made { number, size: left.size + right.size, ones: left.ones + right.ones, height }
    }
}

impl Random {
    fn shuffled(&mut self, count: u64) -> Vec<u64> {
        let mut all: Vec<u64> = (0..count).collect();
        (1..all.len()).for_each(|at| all.swap(at, self.place(at + 1)));
        all
    }

    /// The words of a sound pool of a tree of so great a height, with some free nodes.
    pub fn sound_pool(&mut self, height: u64) -> Vec<u64> {
        let spare = self.one_of(&[0, 0, 1, 2, 3, 7]);
        let most = (2 << height) - 1;
        let mut maker = Maker { numbers: self.shuffled(most), words: vec![0; 6 * most as usize], random: self };
        let root = maker.tree(height, true, true);
        let (words, unused) = (maker.words, maker.numbers.len() as u64);
        self.packed(&words, root, most - unused, spare)
    }

    // The nodes that the tree uses under new numbers, free ones after them, all shuffled.
    fn packed(&mut self, words: &[u64], root: Made, used: u64, spare: u64) -> Vec<u64> {
        let nodes = (used + spare).min(1023);
        let mut numbers = self.shuffled(nodes);
        let mut pool = vec![0; 6 * nodes as usize];
        let top = renumbered(words, root.number, &mut numbers, &mut pool);
        let (free, count) = (numbers, nodes - used);
        let chain = free.iter().chain([&nodes]).collect::<Vec<_>>();
        for two in chain.windows(2) {
            pool[6 * *two[0] as usize + 1] = *two[1];
        }
        pool.extend([top, root.size, *chain[0], count, nodes, 0]);
        pool
    }
}

// Copies the tree at a node to numbers taken from the list, and tells the number of its top.
fn renumbered(words: &[u64], number: u64, numbers: &mut Vec<u64>, pool: &mut [u64]) -> u64 {
    let mut cell: [u64; 6] = words[6 * number as usize..][..6].try_into().unwrap();
    if cell[0] == 2 {
        cell[1] = renumbered(words, cell[1], numbers, pool);
        cell[2] = renumbered(words, cell[2], numbers, pool);
    }
    let new = numbers.pop().expect("there are numbers for every node");
    pool[6 * new as usize..][..6].copy_from_slice(&cell);
    new
}

// Places at which something happens: the ends of the window and of its leaves, and one anywhere.
fn places(parts: &[Part], random: &mut Random) -> Vec<u64> {
    let mut all = vec![0];
    for (_, size) in layout::leaves(parts) {
        let end = all[all.len() - 1] + size as u64;
        all.extend([end.saturating_sub(1), end]);
    }
    let end = all[all.len() - 1];
    all.extend([end + 1, random.below(end + 1)]);
    all
}

fn edits(random: &mut Random, height: u64, counts: &mut Counts) -> Result<(), Failure> {
    let words = random.sound_pool(height);
    let pool = layout::read(&words).expect("the pool that was made is well-formed");
    let start = Beside::of_pool(&words, &pool.parts);
    let places = places(&pool.parts, random);
    let orders = places.iter().flat_map(|&at| [[INSERT, at, at % 2], [REMOVE, at, 0]]);
    let some = if height > 3 { 8 } else { 1 };
    let from = random.place(some);
    for order in orders.skip(from).step_by(some) {
        let mut beside = start.clone();
        let held = beside.look(counts).and_then(|()| beside.order(order, counts)).and_then(|()| beside.look(counts));
        held.map_err(|difference| Failure::Words(words.clone(), script::line(order), difference))?;
    }
    Ok(())
}

pub fn shapes(random: &mut Random, trees: u64, counts: &mut Counts, progress: &mut Progress) -> Result<(), Failure> {
    for done in 0..trees {
        let height = random.one_of(&[0, 1, 1, 1, 2, 2, 2, 3, 3, 4, 5]);
        edits(random, height, counts)?;
        progress.tell("trees of any shape", done, trees, counts);
    }
    Ok(())
}
