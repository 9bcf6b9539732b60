//! The pool that build leaves, by the rules of its tree: leaves of 64, paired from the right end, an odd first one joined as
//! left child to the pair just made beside it; numbers as they are made; the rest a free chain upward.

// A node that has no parent yet: its number, its marks, its ones and its height.
#[derive(Clone, Copy)]
struct Part {
    number: u64,
    size: u64,
    ones: u64,
    height: u64,
}

struct Pool {
    words: Vec<u64>,
    next: u64,
}

impl Pool {
    fn put(&mut self, number: u64, cell: [u64; 6]) {
        let at = 6 * number as usize;
        self.words[at..at + 6].copy_from_slice(&cell);
    }

    fn leaf(&mut self, bits: &[bool]) -> Part {
        let word = bits.iter().rev().fold(0, |word, &bit| word << 1 | bit as u64);
        self.put(self.next, [1, word, 0, 0, 0, 0]);
        self.next += 1;
        Part { number: self.next - 1, size: bits.len() as u64, ones: word.count_ones() as u64, height: 0 }
    }

    fn fork(&mut self, l: Part, r: Part) -> Part {
        self.put(self.next, [2, l.number, r.number, l.size, l.ones, r.height + 2 - l.height]);
        self.next += 1;
        let height = 1 + l.height.max(r.height);
        Part { number: self.next - 1, size: l.size + r.size, ones: l.ones + r.ones, height }
    }

    // One round, on parts in order from the right end.
    fn round(&mut self, parts: Vec<Part>) -> Vec<Part> {
        let mut made: Vec<Part> = parts.chunks_exact(2).map(|pair| self.fork(pair[1], pair[0])).collect();
        if let [odd] = parts.chunks_exact(2).remainder() {
            let beside = made.pop().expect("an odd part is never alone");
            made.push(self.fork(*odd, beside));
        }
        made
    }
}

pub fn leaves(length: usize) -> usize {
    length.div_ceil(64).max(1)
}

/// The nodes of a tree that is built.
pub fn need(length: usize) -> usize {
    2 * leaves(length) - 1
}

/// The words of a pool of so many nodes with the bits in it, where it has as many nodes as they need.
pub fn built(nodes: usize, bits: &[bool]) -> Vec<u64> {
    let mut pool = Pool { words: vec![0; 6 * nodes + 6], next: 0 };
    let mut parts: Vec<Part> = bits.chunks(64).map(|leaf| pool.leaf(leaf)).collect();
    if parts.is_empty() {
        parts.push(pool.leaf(&[]));
    }
    parts.reverse();
    while parts.len() > 1 {
        parts = pool.round(parts);
    }
    let (first, end) = (pool.next, nodes as u64);
    (first..end).for_each(|number| pool.put(number, [0, number + 1, 0, 0, 0, 0]));
    pool.put(end, [parts[0].number, parts[0].size, first, end - first, end, 0]);
    pool.words
}
