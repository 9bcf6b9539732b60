//! What a script prints, read from docs/OPERATORS.md and from nothing else of ours.

use oracle::orders::list::{bits_of, reply, values};
use oracle::orders::*;
use oracle::{Part, Vector};

/// A pool: how many nodes it may have, its marks, and the published Rust's tree of the same marks.
struct Window {
    nodes: usize,
    marks: Vec<bool>,
    tree: Vector,
}

fn told([code, value]: Pair) -> String {
    format!("{code} {value}")
}

/// 1 to 18 digits.
fn decimal(field: &str) -> Option<u64> {
    let sound = (1..=18).contains(&field.len()) && field.bytes().all(|byte| byte.is_ascii_digit());
    if sound { field.parse().ok() } else { None }
}

/// 16 digits, in lower case.
fn word(field: &&str) -> Option<u64> {
    let sound = field.len() == 16 && field.bytes().all(|byte| matches!(byte, b'0'..=b'9' | b'a'..=b'f'));
    if sound { u64::from_str_radix(field, 16).ok() } else { None }
}

fn bit(field: &str) -> Option<u64> {
    decimal(field).filter(|bit| *bit < 2)
}

enum Line {
    Pool(u64),
    Load(u64, Vec<u64>),
    Order(Order),
    Dump,
}

fn line(text: &str) -> Option<Line> {
    let fields: Vec<&str> = text.split(' ').collect();
    Some(match fields[..] {
        ["pool", n] => Line::Pool(decimal(n)?),
        ["load", length, ref words @ ..] => {
            Line::Load(decimal(length)?, words.iter().map(word).collect::<Option<_>>()?)
        }
        ["ins", i, b] => Line::Order([INSERT, decimal(i)?, bit(b)?]),
        ["rem", i] => Line::Order([REMOVE, decimal(i)?, 0]),
        ["get", i] => Line::Order([ACCESS, decimal(i)?, 0]),
        ["rank", b, e] => Line::Order([RANK, decimal(e)?, bit(b)?]),
        ["sel", b, k] => Line::Order([SELECT, decimal(k)?, bit(b)?]),
        ["gap"] => Line::Order([QUIET, 0, 0]),
        ["dump"] => Line::Dump,
        _ => return None,
    })
}

impl Window {
    fn new(nodes: usize, marks: Vec<bool>) -> Self {
        let blocks = values(&marks).chunks(2).map(|two| u128::from(two[0]) | u128::from(two[1]) << 64).collect();
        let tree = Vector::new(blocks, marks.len());
        Window { nodes, marks, tree }
    }

    /// The leaf that a place leads to holds 127 marks, and fewer than two nodes are free.
    fn full(&self, at: usize) -> bool {
        let size = |part: Part| if let Part::Leaf { size, .. } = part { Some(size) } else { None };
        let leaves: Vec<usize> = self.tree.parts().into_iter().filter_map(size).collect();
        let mut end = 0;
        let here = leaves.iter().find(|size| {
            end += **size;
            at < end
        });
        let free = self.nodes - (2 * leaves.len() - 1);
        *here.or(leaves.last()).expect("a tree has a leaf") == 127 && free < 2
    }

    fn load(&mut self, length: u64, words: &[u64]) -> Pair {
        if 64 * (words.len() as u64) < length {
            return [TOO_LONG, 0];
        }
        let leaves = length.div_ceil(64).max(1) as usize;
        if self.nodes < 2 * leaves - 1 {
            return [FULL, 0];
        }
        *self = Window::new(self.nodes, bits_of(words, length));
        [DONE, length]
    }

    fn order(&mut self, order: Order) -> Pair {
        let mut marks = self.marks.clone();
        let pair = reply(&mut marks, order, |at| self.full(at));
        if let ([DONE, _], [INSERT, at, bit]) = (pair, order) {
            self.tree.insert(at as usize, bit == 1).expect("it is in range");
        }
        if let ([DONE, _], [REMOVE, at, _]) = (pair, order) {
            self.tree.remove(at as usize).expect("it is in range");
        }
        self.marks = marks;
        pair
    }

    fn play(&mut self, line: Line) -> String {
        match line {
            Line::Pool(_) => unreachable!("a pool begins another window"),
            Line::Load(length, words) => told(self.load(length, &words)),
            Line::Order(order) => told(self.order(order)),
            Line::Dump => {
                let words: String = values(&self.marks).iter().map(|word| format!(" {word:016x}")).collect();
                told([DONE, self.marks.len() as u64]) + &words
            }
        }
    }
}

pub fn prints(script: &[u8]) -> Vec<u8> {
    if 16384 < script.len() {
        return b"12 0\n".to_vec();
    }
    let mut window: Option<Window> = None;
    let mut printed = String::new();
    for text in script.split_inclusive(|byte| *byte == b'\n') {
        let text = text.strip_suffix(b"\n").unwrap_or(text);
        printed += &match (std::str::from_utf8(text).ok().and_then(line), &mut window) {
            (None, _) => told([MALFORMED, 0]),
            (Some(Line::Pool(n @ 1..=1023)), _) => {
                window = Some(Window::new(n as usize, Vec::new()));
                told([DONE, n])
            }
            (Some(Line::Pool(_)), _) | (Some(_), None) => told([WRONG_SIZE, 0]),
            (Some(line), Some(window)) => window.play(line),
        };
        printed.push('\n');
    }
    printed.into_bytes()
}
