//! What was compared, counted, and a line about it on standard error while the program runs.

use oracle::orders::{FULL, INSERT, Order, Pair, REMOVE};
use std::collections::BTreeSet;
use std::io::{IsTerminal, stderr};
use std::time::{Duration, Instant};

pub const CALLS: [&str; 5] = ["an order", "check", "build", "values", "run"];
pub const ORDER: usize = 0;
pub const CHECK: usize = 1;
pub const BUILD: usize = 2;
pub const VALUES: usize = 3;
pub const RUN: usize = 4;

#[derive(Default, Clone)]
pub struct Counts {
    pub orders: u64,
    pub edits: u64,
    pub by_rust: u64,
    pub splits: u64,
    pub joins: u64,
    pub borrows: u64,
    pub looks: u64,
    pub trees: u64,
    pub lists: u64,
    pub damaged: u64,
    pub sound_after_all: u64,
    /// the sizes of the pools, in nodes
    pub sizes: BTreeSet<usize>,
    /// by the call and the code
    pub refused: [[u64; 12]; 5],
}

impl Counts {
    pub fn refusal(&mut self, call: usize, code: u64) {
        self.refused[call][code as usize] += 1;
    }

    pub fn full(&self) -> u64 {
        self.refused[ORDER][FULL as usize]
    }

    /// Counts an order, its answer, and by how many nodes the free ones have changed.
    pub fn order(&mut self, order: Order, [code, _]: Pair, freed: i64) {
        self.orders += 1;
        if code != 0 {
            self.refusal(ORDER, code);
        } else if order[0] == INSERT || order[0] == REMOVE {
            self.edits += 1;
            self.splits += (freed == -2) as u64;
            self.joins += (freed == 2) as u64;
        }
    }

    pub fn print(&self) {
        println!(
            "{} orders, {} by the published Rust too; {} edits, {} Full",
            self.orders,
            self.by_rust,
            self.edits,
            self.full()
        );
        println!(
            "{} leaves split, {} joined, {} borrowed from, in pools of {} sizes",
            self.splits,
            self.joins,
            self.borrows,
            self.sizes.len()
        );
        println!(
            "{} times values and check, {} times the whole tree, {} lists at once and by ones",
            self.looks, self.trees, self.lists
        );
        println!("{} damaged pools, and {} that a change left well-formed", self.damaged, self.sound_after_all);
        for (call, codes) in CALLS.iter().zip(&self.refused) {
            let told = (1..12).filter(|&code| codes[code] > 0).map(|code| format!("{code}: {}", codes[code]));
            println!("refused by {call}, by code: {}", told.collect::<Vec<_>>().join(", "));
        }
        println!(
            "never 11: a pool is tested before its first order, and in a sound one a leaf has the marks that are counted in it"
        );
    }
}

/// A line now and then: often on a terminal, every five seconds elsewhere.
pub struct Progress {
    start: Instant,
    last: Instant,
    terminal: bool,
}

impl Progress {
    pub fn new() -> Self {
        Progress { start: Instant::now(), last: Instant::now(), terminal: stderr().is_terminal() }
    }

    pub fn tell(&mut self, part: &str, done: u64, of: u64, counts: &Counts) {
        let pause = if self.terminal { Duration::from_millis(200) } else { Duration::from_secs(5) };
        if self.last.elapsed() < pause {
            return;
        }
        self.last = Instant::now();
        let (seconds, orders) = (self.start.elapsed().as_secs(), counts.orders);
        let line = format!("{seconds:>4} s  {part}: {done} of {of}; {orders} orders, {} damaged pools", counts.damaged);
        if self.terminal { eprint!("\r{line:<100}") } else { eprintln!("{line}") }
    }

    pub fn end(&self) {
        if self.terminal {
            eprint!("\r{:100}\r", "");
        }
    }
}
