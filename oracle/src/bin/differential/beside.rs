//! One window three times over: in a pool of the library's, as a plain list and in the published Rust. Each order goes to all of them, and the
//! first answer or word that is not as it is to be ends the run.

#[path = "../window_vectors/layout.rs"]
mod built;

use super::counts::{BUILD, Counts};
use super::lent::{Lent, SPARE};
use super::{layout, script};
use built::{built, need};
use oracle::Vector;
use oracle::orders::*;
use spelunzone::{build, check, pool_words, run, values};
use std::panic::{AssertUnwindSafe, catch_unwind};

/// How many nodes are free stands so many words before the end of a pool.
const FREE_COUNT: usize = 3;
/// The most marks of a leaf.
const FULL_LEAF: usize = 127;
/// A tree of up to so many nodes is compared after every edit.
const SMALL: usize = 40;

/// Something that is not as it is to be.
#[derive(Clone, Debug)]
pub struct Difference {
    /// how many orders had been served
    pub served: usize,
    pub what: String,
    pub wanted: String,
    pub came: String,
}

/// A fault put into the oracle on purpose, to see that it is found and its script shortened: on windows of 65 marks and more the answers to
/// orders of this number are one too great.
pub type Fault = Option<u64>;
pub const FAULT_FROM: usize = 65;

#[derive(Clone)]
pub struct Beside {
    pub pool: Lent,
    pub list: Vec<bool>,
    pub rust: Vector,
    pub nodes: usize,
    pub served: usize,
    /// the answers to those
    pub answers: Vec<Pair>,
    fault: Fault,
}

type Held = Result<(), Difference>;

impl Beside {
    /// Builds the window; where the pool has too few nodes it is refused, and there is nothing to run.
    pub fn new(
        nodes: usize,
        words: &[u64],
        length: u64,
        fault: Fault,
        counts: &mut Counts,
    ) -> Result<Option<Self>, Difference> {
        counts.sizes.insert(nodes);
        let mut pool = Lent::spare(pool_words(nodes));
        let before = pool.clone();
        let got = spelled(build(pool.words_mut(), words, length));
        let fits = need(length as usize) <= nodes;
        let wanted = if fits { [DONE, length] } else { [FULL, 0] };
        let list = list::bits_of(words, length);
        let beside =
            Beside { pool, rust: published::vector(words, length), list, nodes, served: 0, answers: vec![], fault };
        beside.same("build", wanted, got)?;
        if !fits {
            counts.refusal(BUILD, FULL);
            beside.same("the words after a refused build", true, beside.pool == before)?;
            return Ok(None);
        }
        beside.same("the words of the built pool", true, beside.pool.words() == built(nodes, &beside.list))?;
        beside.look(counts)?;
        Ok(Some(beside))
    }

    /// A window in a pool that was not built, and the published tree of the same nodes.
    pub fn of_pool(words: &[u64], parts: &[oracle::Part]) -> Self {
        let (list, rust) = (layout::marks(parts), Vector::of_parts(parts));
        Beside {
            pool: Lent::new(words),
            list,
            rust,
            nodes: words.len() / 6 - 1,
            served: 0,
            answers: vec![],
            fault: None,
        }
    }

    fn same<T: PartialEq + std::fmt::Debug>(&self, what: &str, wanted: T, came: T) -> Held {
        if wanted == came {
            return Ok(());
        }
        let (wanted, came) = (format!("{wanted:?}"), format!("{came:?}"));
        Err(Difference { served: self.served, what: what.into(), wanted, came })
    }

    fn free(&self) -> i64 {
        let words = self.pool.words();
        words[words.len() - FREE_COUNT] as i64
    }

    /// Whether an order is an insert that is to be Full, read off the pool's words: its leaf holds 127 marks and fewer than two nodes are free.
    /// The published tree has to lead to a leaf of the same size.
    fn full(&self, order: Order) -> Result<bool, Difference> {
        if order[0] != INSERT || order[1] > self.list.len() as u64 || self.free() >= 2 {
            return Ok(false);
        }
        let pool = self.read()?;
        let [leaf, by_rust] = [&pool.parts, &self.rust.parts()].map(|parts| layout::leaf_of(parts, order[1] as usize));
        self.same("the size of the leaf that an insert leads to, beside the published one", by_rust, leaf)?;
        Ok(leaf == FULL_LEAF && pool.free.len() < 2)
    }

    fn read(&self) -> Result<layout::Pool, Difference> {
        let read = layout::read(self.pool.words());
        self.same("the pool is well-formed, read by the layout", true, read.is_some())?;
        Ok(read.unwrap())
    }

    // The answer that the list gives, held to the published Rust's where that has one.
    fn wanted(&mut self, order: Order, counts: &mut Counts) -> Result<Pair, Difference> {
        let length = self.list.len();
        let full = self.full(order)?;
        let wanted = list::reply(&mut self.list, order, |_| full);
        if wanted[0] != FULL {
            let what = "the published Rust's answer beside the list's";
            match catch_unwind(AssertUnwindSafe(|| published::reply(&mut self.rust, order))) {
                Ok(Some(reply)) => {
                    self.same(what, wanted, reply)?;
                    counts.by_rust += 1;
                }
                Ok(None) => (),
                Err(_) => self.same(what, format!("{wanted:?}"), "it stopped".into())?,
            }
        }
        let faulty = self.fault == Some(order[0]) && length >= FAULT_FROM && wanted[0] == DONE;
        Ok([wanted[0], wanted[1] + faulty as u64])
    }

    /// Serves one order and holds its answer to the list's and to the published Rust's. Where it is refused or asks only, each word is held to
    /// what it was.
    pub fn order(&mut self, order: Order, counts: &mut Counts) -> Held {
        let (before, free) = (self.pool.clone(), self.free());
        let wanted = self.wanted(order, counts)?;
        let mut out = Lent::spare(3);
        let ran = run(self.pool.words_mut(), &order, out.words_mut());
        self.served += 1;
        self.same("run", Ok(1), ran)?;
        let what = script::line(order);
        let came = [out.words()[0], out.words()[1]];
        self.same(&what, wanted, came)?;
        self.answers.push(came);
        self.same("the words beside the answer", true, out.words()[2] == SPARE && out.margins_stay())?;
        let edited = wanted[0] == DONE && (order[0] == INSERT || order[0] == REMOVE);
        if edited {
            self.same("the words beside the pool", true, self.pool.margins_stay())?;
        } else {
            self.same(&format!("{what}: the words of the pool unchanged"), true, self.pool == before)?;
        }
        counts.order(order, wanted, self.free() - free);
        if edited && self.nodes <= SMALL {
            self.tree(&before, order, counts)?;
        }
        Ok(())
    }

    // The pool read back: well-formed, and its tree the published one, node by node.
    fn tree(&self, before: &Lent, order: Order, counts: &mut Counts) -> Held {
        counts.trees += 1;
        let pool = self.read()?;
        self.same("the tree beside the published one", self.rust.parts(), pool.parts.clone())?;
        if order[0] == REMOVE {
            let sizes = |words: &[u64]| {
                layout::read(words).map(|pool| layout::leaves(&pool.parts).map(|(_, size)| size).collect::<Vec<_>>())
            };
            counts.borrows +=
                borrowed(&sizes(before.words()).unwrap(), &sizes(self.pool.words()).unwrap(), order[1]) as u64;
        }
        Ok(())
    }

    /// The window as a whole: check, values, and the tree, each as the list and the published Rust have it.
    pub fn look(&self, counts: &mut Counts) -> Held {
        counts.looks += 1;
        let before = self.pool.clone();
        self.same("check", Ok(self.list.len() as u64), check(self.pool.words()))?;
        let wanted = list::values(&self.list);
        let mut out = Lent::spare(wanted.len() + 1);
        let told = values(self.pool.words(), out.words_mut());
        self.same("values", Ok(wanted.len() as u64), told)?;
        let (got, after) = out.words().split_at(wanted.len());
        self.same("the words of values", &wanted[..], got)?;
        self.same("the words after values", true, after == [SPARE] && out.margins_stay())?;
        self.same("the published Rust's values", wanted.clone(), published::values(&self.rust))?;
        self.same("the pool after check and values", true, self.pool == before)?;
        self.tree(&before, [0; 3], counts)
    }

    /// Every question that the window has: each place, each end, each k, and one or two past the last.
    pub fn ask_all(&mut self, counts: &mut Counts) -> Held {
        let length = self.list.len() as u64;
        let mut orders: Vec<Order> = vec![[QUIET, 0, 0]];
        for bit in 0..2 {
            orders.extend((0..=length + 2).map(|end| [RANK, end, bit]));
            orders.extend((0..=length + 1).map(|k| [SELECT, k, bit]));
        }
        orders.extend((0..=length + 2).map(|at| [ACCESS, at, 0]));
        self.ask(&orders, counts)
    }

    /// Questions, in one list.
    pub fn ask(&mut self, orders: &[Order], counts: &mut Counts) -> Held {
        let before = self.pool.clone();
        let mut out = Lent::spare(2 * orders.len());
        let ran = run(self.pool.words_mut(), orders.as_flattened(), out.words_mut());
        self.same("run", Ok(orders.len() as u64), ran)?;
        for (order, came) in orders.iter().zip(out.words().chunks(2)) {
            let wanted = self.wanted(*order, counts)?;
            self.same(&script::line(*order), wanted, [came[0], came[1]])?;
            counts.order(*order, wanted, 0);
        }
        self.same("the words after questions", true, self.pool == before && out.margins_stay())
    }
}

// A remove has borrowed where as many leaves are left and the one that it led to is no shorter.
fn borrowed(before: &[usize], after: &[usize], at: u64) -> bool {
    let mut left = at as usize;
    let led = before.iter().position(|size| {
        let here = left < *size;
        left = left.wrapping_sub(*size);
        here
    });
    before.len() == after.len() && led.is_some_and(|led| before[led] == after[led])
}

pub fn spelled(answer: Result<u64, spelunzone::Refusal>) -> Pair {
    answer.map_or_else(|refusal| [refusal.number(), 0], |value| [DONE, value])
}
