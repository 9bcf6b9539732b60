//! The requests: every length to 2,000 at four densities, long ones at random, what is refused or damaged, and runs that change the
//! marks.

use super::layout::{built, need};
use super::request::*;
use oracle::orders::list::bits_of;

const LONGEST: u64 = 32768;
const LAST: u64 = 2000;

// The generator splitmix64.
pub struct Random(pub u64);

impl Random {
    fn next(&mut self) -> u64 {
        self.0 = self.0.wrapping_add(0x9e37_79b9_7f4a_7c15);
        let z = (self.0 ^ (self.0 >> 30)).wrapping_mul(0xbf58_476d_1ce4_e5b9);
        let z = (z ^ (z >> 27)).wrapping_mul(0x94d0_49bb_1331_11eb);
        z ^ (z >> 31)
    }

    fn below(&mut self, n: u64) -> u64 {
        self.next() % n
    }

    // No marks, all marks, one in sixteen or one in two.
    fn word(&mut self, density: u64) -> u64 {
        match density {
            0 => 0,
            1 => u64::MAX,
            2 => self.next() & self.next() & self.next() & self.next(),
            _ => self.next(),
        }
    }

    // Words that hold the length, now and then one or two more; bits past the length are set too.
    fn words(&mut self, length: u64, density: u64) -> Vec<u64> {
        let count = (length.div_ceil(64) + self.below(8).saturating_sub(5)).min(520);
        (0..count).map(|_| self.word(density)).collect()
    }

    // Boundaries and three random places of each question, in range but for one or two.
    fn questions(&mut self, bits: &[bool]) -> Vec<Order> {
        let length = bits.len() as u64;
        let ones = bits.iter().filter(|bit| **bit).count() as u64;
        let mut places = vec![0, 63, 64, 127, 128, length.saturating_sub(1), length, length + 1, u64::MAX];
        places.extend((0..3).map(|_| self.below(length + 1)));
        let mut all: Vec<Order> = places.iter().map(|&at| [ACCESS, at, 0]).collect();
        for (bit, count) in [(0, length - ones), (1, ones)] {
            all.extend(places.iter().map(|&end| [RANK, end, bit]));
            let random = (0..3).map(|_| 1 + self.below(count.max(1))).collect::<Vec<_>>();
            let ks = [0, 1, 2, 64, 65, count, count + 1, 1 << 32, (1 << 32) + 1, u64::MAX];
            all.extend(ks.into_iter().chain(random).map(|k| [SELECT, k, bit]));
        }
        all.extend([[QUIET, 0, 0], [QUIET, 0, 1], [QUIET, 1, 0], [ACCESS, 0, 1], [RANK, 0, 2], [0, 0, 0], [7, 0, 0]]);
        all
    }

    // A build into a pool of the nodes needed and some more, with an output that has room and some more.
    fn build(&mut self, length: u64, density: u64, more: u64) -> Request {
        let words = self.words(length, density);
        let orders = self.questions(&bits_of(&words, length));
        let nodes = (need(length as usize) + more as usize).min(1023);
        let room = 2 * length.div_ceil(128) as usize + self.below(3) as usize;
        Request {
            size: 6 * nodes + 6,
            fill: 3 + self.below(1 << 40),
            words,
            length,
            orders,
            room,
            at: Request::NOWHERE,
            word: 0,
            shown: 6 * nodes + 6,
        }
    }
}

/// Where a run puts marks in and takes them out.
#[derive(Clone, Copy)]
pub enum Where {
    Anywhere,
    First,
    Last,
    /// within so many places behind one
    Near(u64, u64),
}

/// How a run goes on: out of ten orders so many are inserts and so many removes, and the rest questions.
#[derive(Clone, Copy)]
pub struct Mix(u64, u64);

impl Random {
    fn place(&mut self, places: Where, count: u64) -> u64 {
        match places {
            Where::Anywhere => self.below(count),
            Where::First => 0,
            Where::Last => count - 1,
            Where::Near(from, width) => (from + self.below(width)) % count,
        }
    }

    // Orders that are carried out but for a place past the end now and then, on a list of so many marks.
    fn changes(&mut self, length: u64, count: u64, places: Where, Mix(inserts, removes): Mix) -> Vec<Order> {
        let mut length = length;
        let mut order = || {
            let pick = self.below(10);
            let bit = self.below(2);
            if pick < inserts {
                let at = self.place(places, length + 1);
                length += 1;
                [INSERT, at, bit]
            } else if pick < inserts + removes && length > 0 {
                let at = self.place(places, length);
                length -= 1;
                [REMOVE, at, 0]
            } else {
                match self.below(6) {
                    0 => [ACCESS, self.below(length + 2), 0],
                    1 => [RANK, self.below(length + 2), bit],
                    2 => [SELECT, self.below(length + 2), bit],
                    3 => [QUIET, 0, 0],
                    4 => [INSERT, length + 1, bit],
                    _ => [REMOVE, length, 0],
                }
            }
        };
        (0..count).map(|_| order()).collect()
    }

    // A run from a list of so many marks, in a pool that has room for all of them at every time.
    fn run(&mut self, length: u64, count: u64, places: Where, mix: Mix) -> Request {
        let words = self.words(length, 3);
        let orders = self.changes(length, count, places, mix);
        let most = length + orders.iter().filter(|order| order[0] == INSERT).count() as u64;
        let nodes = (2 * (most / 33 + 2) as usize).max(need(length as usize)).min(1023);
        let room = 2 * most.div_ceil(128) as usize;
        Request { size: 6 * nodes + 6, fill: 0, words, length, orders, room, at: Request::NOWHERE, word: 0, shown: 0 }
    }
}

const MIXED: Mix = Mix(4, 4);
const GROWING: Mix = Mix(9, 0);
const SHRINKING: Mix = Mix(0, 9);

// Short runs, each as one request for every order of it, so that the marks are seen after each.
fn steps(random: &mut Random) -> Vec<Request> {
    let mut all = Vec::new();
    for length in [0, 1, 31, 32, 33, 34, 35, 63, 64, 65, 66, 96, 97, 98, 126, 127, 128, 129, 160, 192, 193, 260, 400] {
        for (places, mix) in [
            (Where::Anywhere, MIXED),
            (Where::First, SHRINKING),
            (Where::Last, SHRINKING),
            (Where::Near(60, 8), GROWING),
            (Where::Near(30, 4), SHRINKING),
        ] {
            let whole = random.run(length, 48, places, mix);
            all.extend((1..=48).map(|count| Request { orders: whole.orders[..count].to_vec(), ..whole.clone() }));
        }
    }
    all
}

// Long runs: they grow, shrink, or do both, anywhere and at either end, and hover where leaves split, join and borrow.
fn runs(random: &mut Random) -> Vec<Request> {
    let mut all = Vec::new();
    for places in [Where::Anywhere, Where::First, Where::Last, Where::Near(5, 200)] {
        for length in [0, 2_000, 5_000, 8_000, 11_000] {
            all.push(random.run(length, 4_000, places, GROWING));
            all.push(random.run(length + 4_000, 4_000, places, SHRINKING));
            all.push(random.run(length, 4_000, places, MIXED));
        }
        all.push(random.run(3_000, 4_000, places, SHRINKING));
    }
    for length in [32, 33, 34, 64, 65, 66, 67, 97, 127, 128, 129, 191, 1_000] {
        for places in [Where::Near(0, 33), Where::Near(32, 4), Where::Near(60, 8), Where::Near(120, 10)] {
            all.push(random.run(length, 600, places, MIXED));
        }
    }
    all
}

// A pool without a node for its last fork, words without the last mark, a size that no pool has, an output one word short.
fn refused(request: &Request) -> Vec<Request> {
    let mut all = Vec::new();
    if request.size > 12 {
        let size = 6 * need(request.length as usize);
        all.push(Request { size, shown: size, ..request.clone() });
    }
    if request.length > 0 {
        let words = request.words[..(request.length as usize - 1) / 64].to_vec();
        all.push(Request { words, ..request.clone() });
        all.push(Request { room: 2 * request.length.div_ceil(128) as usize - 1, ..request.clone() });
    }
    let sizes = [0, 6, 11, 6145, 6150, request.size + 1, request.size - 1];
    all.extend(sizes.map(|size| Request { size, shown: size, ..request.clone() }));
    all.push(Request { length: u64::MAX, ..request.clone() });
    all
}

// Words that no pool has there, whatever else it holds: kinds above 2, a leaf's last words, a wrong count of nodes or of free
// nodes, a last word; and totals, ones and balances that are not those of the tree.
fn damaged(request: &Request) -> Vec<Request> {
    let pool = built(request.size / 6 - 1, &bits_of(&request.words, request.length));
    let end = pool.len() - 6;
    let mut places = vec![0, 3, 5, end + 3, end + 4, end + 5];
    let forks = (0..end).step_by(6).filter(|at| pool[*at] == 2);
    places.extend(forks.flat_map(|at| [at, at + 3, at + 4, at + 5]).take(40));
    let frees = (0..end).step_by(6).filter(|at| pool[*at] == 0);
    places.extend(frees.flat_map(|at| [at, at + 1, at + 2]).take(9));
    let set = |at: usize, word: u64| Request { at: at as u64, word, ..request.clone() };
    let spoil = |at: usize| [set(at, pool[at] + 7), set(at, u64::MAX)];
    places.into_iter().flat_map(spoil).collect()
}

pub fn cases(seed: u64, longs: u64) -> Vec<Request> {
    let mut random = Random(seed);
    let mut all = Vec::new();
    for length in 0..=LAST {
        for density in 0..4 {
            let more = random.below(4).saturating_sub(1);
            all.push(random.build(length, density, more));
        }
    }
    for length in [0, 1, 63, 64, 65, 127, 128, 129, 192, 193, 320, 1000, LONGEST] {
        for more in [0, 5] {
            let request = random.build(length, 3, more);
            all.extend(refused(&request));
            all.extend(damaged(&request));
        }
    }
    for n in 0..longs {
        let length = if n < 4 { LONGEST - n } else { LAST + random.below(LONGEST - LAST) };
        let more = random.below(1024);
        all.push(random.build(length, n % 4, more));
    }
    all.extend(steps(&mut random));
    all.extend(runs(&mut random));
    all
}

/// A few of them, for a run with each proof.
pub fn sample() -> Vec<Request> {
    let mut random = Random(1);
    let mut all: Vec<Request> = [0, 1, 64, 65, 129, 320].map(|length| random.build(length, 3, 1)).into();
    let last = random.build(130, 3, 1);
    all.extend(refused(&last).into_iter().filter(|request| request.size < 100));
    all.extend(damaged(&last).into_iter().take(4));
    for (places, mix) in [(Where::Anywhere, MIXED), (Where::First, SHRINKING), (Where::Last, GROWING)] {
        all.push(random.run(120, 150, places, mix));
    }
    all
}
