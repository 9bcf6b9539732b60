//! Reads a pool's words as docs/REFERENCE.md lays them out, by itself: it knows neither the library's code nor the published Rust. A pool that is not
//! well-formed reads as none.

use oracle::Part;

const FREE: u64 = 0;
const LEAF: u64 = 1;
const FORK: u64 = 2;

/// A well-formed pool: its tree, each node before what is under it, and its free numbers in the order of the chain.
pub struct Pool {
    pub parts: Vec<Part>,
    pub free: Vec<u64>,
}

struct Reader<'a> {
    cells: Vec<&'a [u64]>,
    met: Vec<bool>,
    parts: Vec<Part>,
}

impl Reader<'_> {
    /// The words of a node that was not met before.
    fn meet(&mut self, number: u64) -> Option<[u64; 6]> {
        let number = usize::try_from(number).ok()?;
        let met = self.met.get_mut(number)?;
        if *met {
            return None;
        }
        *met = true;
        self.cells[number].try_into().ok()
    }

    /// Reads the tree at a node that holds so many marks, where it is the last leaf of the whole tree's or not: its ones and its height.
    fn tree(&mut self, number: u64, size: u64, last: bool, lone: bool) -> Option<(u64, i64)> {
        match self.meet(number)? {
            [LEAF, low, high, 0, 0, 0] => {
                let bits = low as u128 | (high as u128) << 64;
                let fewest = if lone {
                    0
                } else if last {
                    1
                } else {
                    33
                };
                if !(fewest..=127).contains(&size) || bits >> size != 0 {
                    return None;
                }
                self.parts.push(Part::Leaf { bits, size: size as usize });
                Some((bits.count_ones() as u64, 0))
            }
            [FORK, left, right, left_total, left_ones, shifted] => {
                let balance = i64::try_from(shifted).ok()? - 2;
                self.parts.push(Part::Fork {
                    left_total: usize::try_from(left_total).ok()?,
                    left_ones: usize::try_from(left_ones).ok()?,
                    balance: balance as isize,
                });
                let (ones, height) = self.tree(left, left_total, false, false)?;
                let (more, other) = self.tree(right, size.checked_sub(left_total)?, last, false)?;
                let true_words = ones == left_ones && balance == other - height && (-1..=1).contains(&balance);
                true_words.then_some((ones + more, 1 + height.max(other)))
            }
            _ => None,
        }
    }

    fn chain(&mut self, mut next: u64, end: u64) -> Option<Vec<u64>> {
        let mut free = Vec::new();
        while next != end {
            free.push(next);
            let [FREE, after, 0, 0, 0, 0] = self.meet(next)? else { return None };
            next = after;
        }
        Some(free)
    }
}

/// The pool that the words hold, where they are well-formed.
pub fn read(words: &[u64]) -> Option<Pool> {
    let mut cells: Vec<&[u64]> = words.chunks(6).collect();
    let &[root, length, first_free, count, nodes, 0] = cells.pop()? else { return None };
    if !words.len().is_multiple_of(6) || cells.len() as u64 != nodes || !(1..=1023).contains(&nodes) {
        return None;
    }
    let met = vec![false; cells.len()];
    let mut reader = Reader { cells, met, parts: Vec::new() };
    reader.tree(root, length, true, true)?;
    let free = reader.chain(first_free, nodes)?;
    let all_met = reader.met.iter().all(|met| *met);
    (all_met && free.len() as u64 == count).then_some(Pool { parts: reader.parts, free })
}

pub fn leaves(parts: &[Part]) -> impl Iterator<Item = (u128, usize)> {
    parts.iter().filter_map(|part| if let Part::Leaf { bits, size } = part { Some((*bits, *size)) } else { None })
}

pub fn marks(parts: &[Part]) -> Vec<bool> {
    leaves(parts).flat_map(|(bits, size)| (0..size).map(move |i| bits >> i & 1 == 1)).collect()
}

/// How many marks the leaf holds that an insert at a place leads to: the one whose marks are around it, and at the end the last one.
pub fn leaf_of(parts: &[Part], mut at: usize) -> usize {
    let mut held = 0;
    for (_, size) in leaves(parts) {
        held = size;
        if at < size {
            break;
        }
        at -= size;
    }
    held
}
