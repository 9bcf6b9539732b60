//! The same window several times over: one pool for each length of list, and the published Rust. All of them get the same orders.

use super::measure::Random;
use oracle::{Refusal, Vector};
use spelunzone::{Order, answers, build, pool_words, run, value_words};
use std::hint::black_box;
use std::time::Instant;

pub const NODES: usize = 1023;
/// The orders of a turn.
pub const ORDERS: usize = 1_000;
/// The lengths of the lists that ours gets them in.
pub const LISTS: [usize; 3] = [1, 16, ORDERS];
/// The orders of a frame, which go into one call.
const FRAME: usize = 2;
/// Pairs of an insert and a remove at random places before the first turn, so that leaves have all sizes.
const AGEING: usize = 50_000;
/// The most marks that are built; more are put in evenly.
pub const MOST_BUILT: usize = 32_768;
const LEAF: usize = 64;

/// The published Rust has no longest quiet. It is asked for all its marks, and they are gone through from strike to strike.
pub fn quiet_by_the_rust(vector: &Vector) -> u64 {
    let (mut most, mut last) = (0, None);
    for (index, block) in vector.values().unwrap().into_iter().enumerate() {
        let mut left = block;
        while left != 0 {
            let at = 128 * index as u64 + u64::from(left.trailing_zeros());
            most = most.max(last.map_or(0, |last| at - last - 1));
            last = Some(at);
            left &= left - 1;
        }
    }
    most
}

fn by_the_rust(vector: &mut Vector, order: Order) -> Result<u64, Refusal> {
    match order {
        Order::Insert { at, mark } => vector.insert(at as usize, mark).map(|()| 0),
        Order::Remove { at } => vector.remove(at as usize).map(u64::from),
        Order::Access { at } => vector.access(at as usize).map(u64::from),
        Order::Rank { end, mark } => vector.rank(mark, end as usize).map(|count| count as u64),
        Order::Select { k, mark } => vector.select(mark, k as usize).map(|place| place.unwrap() as u64),
        Order::LongestQuiet => Ok(quiet_by_the_rust(vector)),
    }
}

/// What the Rust answers to some orders, each of which has to be done, and the nanoseconds of them all.
fn told_by_the_rust(vector: &mut Vector, orders: &[Order]) -> (Vec<u64>, f64) {
    let mut told = Vec::with_capacity(orders.len());
    let start = Instant::now();
    orders.iter().for_each(|order| told.push(by_the_rust(black_box(vector), *order)));
    let time = start.elapsed().as_nanos() as f64;
    (told.into_iter().map(|answer| answer.expect("the Rust does every order")).collect(), time)
}

/// The nanoseconds of serving all these orders by ours, in lists of some length. The answers have to be those that were told.
fn served(pool: &mut [u64], orders: &[Order], list: usize, told: &[u64]) -> f64 {
    let words: Vec<u64> = orders.iter().flat_map(|order| order.words()).collect();
    let mut out = vec![0; 2 * orders.len()];
    let pool = black_box(pool);
    let start = Instant::now();
    for (orders, out) in words.chunks(3 * list).zip(out.chunks_mut(2 * list)) {
        run(pool, orders, out).expect("the list is served");
    }
    let time = start.elapsed().as_nanos() as f64;
    let answers = answers(&out, orders.len() as u64).map(|answer| answer.expect("an order is done"));
    assert!(answers.eq(told.iter().copied()), "an answer differs");
    time
}

#[derive(Clone)]
pub struct Windows {
    pub pools: [Vec<u64>; LISTS.len()],
    pub vector: Vector,
    pub length: usize,
}

/// The nanoseconds of an order: ours by the length of the lists, and the Rust's.
pub type Times = [f64; LISTS.len() + 1];

pub fn blocks(marks: &[u64], length: usize) -> Vec<u128> {
    let marks = &marks[..value_words(length)];
    marks.chunks(2).map(|two| u128::from(two[0]) | u128::from(two[1]) << 64).collect()
}

impl Windows {
    /// A window that was just built.
    pub fn built(marks: &[u64], length: usize) -> Self {
        let mut pool = vec![0; pool_words(NODES)];
        assert_eq!(build(&mut pool, marks, length as u64), Ok(length as u64));
        Windows {
            pools: [pool.clone(), pool.clone(), pool],
            vector: Vector::new(blocks(marks, length), length),
            length,
        }
    }

    /// A window of some length, built and then aged; a length above what can be built is reached by marks put in evenly, and not aged, since in
    /// leaves that are nearly full an insert would soon be answered Full.
    pub fn new(marks: &[u64], length: usize, sparse: bool, random: &mut Random) -> Self {
        let mut windows = Windows::built(marks, length.min(MOST_BUILT));
        if length > MOST_BUILT {
            windows.put_in_evenly(length, sparse, random);
        } else {
            for _ in 0..AGEING / ORDERS {
                let edits = windows.edits(random);
                windows.serve(&edits);
            }
        }
        windows
    }

    // One mark into the middle of each leaf, from the last leaf to the first, and again.
    fn put_in_evenly(&mut self, length: usize, sparse: bool, random: &mut Random) {
        let leaves = MOST_BUILT / LEAF;
        let place = |more: usize| (leaves - 1 - more % leaves) * (LEAF + more / leaves) + LEAF / 2;
        let order = |more| Order::Insert { at: place(more) as u64, mark: random.strike(sparse) };
        let orders: Vec<Order> = (0..length - MOST_BUILT).map(order).collect();
        let words: Vec<u64> = orders.iter().flat_map(|order| order.words()).collect();
        let mut out = vec![0; 2 * orders.len()];
        assert_eq!(run(&mut self.pools[0], &words, &mut out), Ok(orders.len() as u64));
        assert!(answers(&out, orders.len() as u64).all(|answer| answer == Ok(0)), "no insert is Full");
        for order in orders {
            by_the_rust(&mut self.vector, order).unwrap();
        }
        self.pools = std::array::from_fn(|_| self.pools[0].clone());
        self.length = length;
    }

    /// Serves the same orders to all and tells what one took: each order has to be done, and alike by all.
    pub fn serve(&mut self, orders: &[Order]) -> Times {
        let (told, rust) = told_by_the_rust(&mut self.vector, orders);
        let mut times = [rust; LISTS.len() + 1];
        for (which, list) in LISTS.into_iter().enumerate() {
            times[which] = served(&mut self.pools[which], orders, list, &told);
        }
        times.map(|time| time / orders.len() as f64)
    }

    /// Serves frames, each an insert and a rank in one call, and tells what a frame took, ours and the Rust's. The marks are taken out again.
    pub fn serve_frames(&mut self, random: &mut Random) -> [f64; 2] {
        let frames: Vec<Order> = self
            .inserts(random)
            .into_iter()
            .zip(self.ranks(random))
            .flat_map(|(insert, rank)| [insert, rank])
            .collect();
        let (told, rust) = told_by_the_rust(&mut self.vector, &frames);
        let ours = served(&mut self.pools[0], &frames, FRAME, &told);
        let removes = self.removes(random);
        let (told, _) = told_by_the_rust(&mut self.vector, &removes);
        served(&mut self.pools[0], &removes, ORDERS, &told);
        [ours, rust].map(|time| time / ORDERS as f64)
    }

    fn drawn(&self, random: &mut Random, order: impl Fn(&mut Random, u64) -> Order) -> Vec<Order> {
        (0..ORDERS as u64).map(|index| order(random, index)).collect()
    }

    pub fn accesses(&self, random: &mut Random) -> Vec<Order> {
        self.drawn(random, |random, _| Order::Access { at: random.below(self.length as u64) })
    }

    pub fn ranks(&self, random: &mut Random) -> Vec<Order> {
        self.drawn(random, |random, _| Order::Rank {
            end: random.below(self.length as u64 + 1),
            mark: random.below(2) == 1,
        })
    }

    pub fn selects(&self, random: &mut Random) -> Vec<Order> {
        let ones = self.vector.rank(true, self.length).unwrap() as u64;
        let counts = [self.length as u64 - ones, ones];
        self.drawn(random, |random, _| {
            let bit = random.below(2);
            Order::Select { k: 1 + random.below(counts[bit as usize]), mark: bit == 1 }
        })
    }

    pub fn inserts(&self, random: &mut Random) -> Vec<Order> {
        let length = self.length as u64;
        self.drawn(random, |random, more| Order::Insert {
            at: random.below(length + more + 1),
            mark: random.below(2) == 1,
        })
    }

    /// As many as were inserted, from a window that is longer by them.
    pub fn removes(&self, random: &mut Random) -> Vec<Order> {
        let length = (self.length + ORDERS) as u64;
        self.drawn(random, |random, fewer| Order::Remove { at: random.below(length - fewer) })
    }

    /// Inserts and removes in turn.
    pub fn edits(&self, random: &mut Random) -> Vec<Order> {
        let length = self.length as u64;
        self.drawn(random, |random, index| match index % 2 {
            0 => Order::Insert { at: random.below(length + 1), mark: random.below(2) == 1 },
            _ => Order::Remove { at: random.below(length + 1) },
        })
    }
}
