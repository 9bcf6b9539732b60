//! The requests at the boundaries: of the words, of k, of a leaf's length and of the places in it. `sample` is a few hundred
//! of them.

use super::request::*;

const LENGTHS: [u64; 11] = [0, 1, 31, 32, 33, 63, 64, 65, 126, 127, 128];
const PAST: [u64; 6] = [128, 129, 192, 1 << 32, (1 << 32) + 1, u64::MAX];

// Nothing, all, each bit alone and each bit left out, and stripes of 1, 2, 4, 8, 16, 32 and 64.
fn words(width: u64) -> Vec<u128> {
    let mut words = vec![0, 22, 0x5555 << 3];
    words.extend((0..width).map(|i| 1 << i));
    words.extend((0..7).map(|i| u128::MAX / ((1 << (1 << i)) + 1)));
    let inverses: Vec<u128> = words.iter().map(|word| !word).collect();
    words.extend(inverses);
    words.iter().map(|&word| first(word, width)).collect()
}

fn selects(width: u64, words: &[u128], out: &mut Vec<Request>) {
    for &word in words {
        let ones = word.count_ones() as u64;
        for (bit, count) in [(true, ones), (false, width - ones)] {
            let over = 1 << 32;
            let ends = [0, 1, 2, count / 2, count, count + 1, width, width + 1];
            let far = [over - 1, over, over + 1, over + count, 3 * over + 1, u64::MAX];
            let ks = ends.iter().chain(&far);
            out.extend(ks.map(|&k| select_request(width, word, bit, k)));
        }
    }
}

// Every k that is meant, on a few words.
fn all_selects(width: u64, out: &mut Vec<Request>) {
    for word in [0, u128::MAX, u128::MAX / 3, u128::MAX / 5, u128::MAX / 7, u128::MAX / 11] {
        for k in 1..=width {
            out.push(select_request(width, first(word, width), true, k));
            out.push(select_request(width, first(word, width), false, k));
        }
    }
}

fn fillings(len: u64) -> Vec<u128> {
    let third = u128::MAX / 3;
    let ends = [1, first(!0, len) - (first(!0, len) >> 1)];
    let all = [0, !0, third, third << 1, u128::MAX / 7, ends[0], ends[1], ends[0] | ends[1]];
    all.iter().map(|&bits| first(bits, len)).collect()
}

fn leaf_edits(bits: u128, at: u64, out: &mut Vec<Request>) {
    let (low, high) = (low(bits), high(bits));
    out.push([INSERT, low, high, at, 0, 0]);
    out.push([INSERT, low, high, at, 1, 0]);
    out.push([REMOVE, low, high, at, 0, 0]);
    out.push([COUNT_BEFORE, low, high, at, 0, 0]);
    out.push([COUNT_BEFORE, low, high, at, 1, 0]);
    out.push([BIT_AT, low, high, at, 0, 0]);
}

fn joins(one: u128, len: u64, other: u128, out: &mut Vec<Request>) {
    out.push([JOIN, low(one), high(one), len, low(other), high(other)]);
}

fn splits(words: &[u128], out: &mut Vec<Request>) {
    out.extend(words.iter().map(|&word| [SPLIT, low(word), high(word), 0, 0, 0]));
}

// Operations that are none, bits that are neither 0 nor 1, and words of 32 bits with more above.
fn odd_requests(out: &mut Vec<Request>) {
    out.extend([0, 10, 257, 1 << 32, u64::MAX].map(|operation| [operation, 1, 1, 1, 1, 1]));
    for bit in [2, 1 << 32, u64::MAX] {
        out.push([SELECT32, 22 | 9 << 32, bit, 2, 0, 0]);
        out.push([SELECT64, 22, bit, 2, 0, 0]);
        out.push([SELECT128, 0, 22, bit, 2, 0]);
        out.push([INSERT, 22, 22, 64, bit, 0]);
        out.push([COUNT_BEFORE, 22, 22, 70, bit, 0]);
    }
    out.push([SELECT32, u64::MAX << 32, 1, 1, 0, 0]);
    out.push([SELECT32, u64::MAX << 32, 0, 32, 0, 0]);
}

pub fn boundaries() -> Vec<Request> {
    let mut out = Vec::new();
    for width in [32, 64, 128] {
        selects(width, &words(width), &mut out);
        all_selects(width, &mut out);
    }
    for len in LENGTHS {
        for bits in fillings(len) {
            (0..=len).chain(PAST).for_each(|at| leaf_edits(bits, at, &mut out));
            for other_len in LENGTHS.iter().filter(|&other| len + other <= 128) {
                fillings(*other_len).iter().for_each(|&other| joins(bits, len, other, &mut out));
            }
        }
    }
    for len in LENGTHS.iter().chain(&PAST) {
        joins(u128::MAX, *len, u128::MAX, &mut out);
        joins(u128::MAX, *len, 0, &mut out);
        joins(u128::MAX / 3, *len, u128::MAX / 7, &mut out);
    }
    splits(&words(128), &mut out);
    odd_requests(&mut out);
    out
}

pub fn sample() -> Vec<Request> {
    let mut out = Vec::new();
    for width in [32, 64, 128] {
        for word in [0, u128::MAX, 22, 1 << (width - 1), u128::MAX / 3] {
            let word = first(word, width);
            let ones = word.count_ones() as u64;
            for (bit, count) in [(true, ones), (false, width - ones)] {
                let ks = [0, 1, 2, count, count + 1, (1 << 32) + 1];
                out.extend(ks.map(|k| select_request(width, word, bit, k)));
            }
        }
    }
    let places = [(0, 0), (1, 1), (33, 32), (64, 63), (65, 64), (127, 127), (128, 0), (128, 127)];
    for (len, at) in places.into_iter().chain([(127, 128), (128, u64::MAX)]) {
        leaf_edits(first(!0, len), at, &mut out);
        leaf_edits(first(u128::MAX / 3, len), at, &mut out);
    }
    let lengths = [(0, 0), (0, 128), (32, 33), (33, 32), (63, 64), (64, 64), (127, 1), (128, 0)];
    for (len, other_len) in lengths {
        let (one, other) = (first(!0, len), first(u128::MAX / 3, other_len));
        joins(one, len, other, &mut out);
        joins(u128::MAX / 3, len, !0, &mut out);
    }
    splits(&fillings(128), &mut out);
    odd_requests(&mut out);
    out
}
