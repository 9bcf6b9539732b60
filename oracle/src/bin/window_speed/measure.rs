//! Turns, their middle, random numbers, and a line on standard error while it is measured.

use spelunzone::value_words;
use std::hint::black_box;
use std::io::{IsTerminal, stderr};
use std::time::{Duration, Instant};

pub struct Random(pub u64);

impl Random {
    pub fn next(&mut self) -> u64 {
        self.0 ^= self.0 << 13;
        self.0 ^= self.0 >> 7;
        self.0 ^= self.0 << 17;
        self.0
    }

    pub fn below(&mut self, n: u64) -> u64 {
        ((u128::from(self.next()) * u128::from(n)) >> 64) as u64
    }

    /// One in two is a strike, or one in 64.
    pub fn strike(&mut self, sparse: bool) -> bool {
        self.below(if sparse { 64 } else { 2 }) == 0
    }

    /// Words for so many marks: one in two a strike, or one in 64.
    pub fn marks(&mut self, length: usize, sparse: bool) -> Vec<u64> {
        let word = |random: &mut Self| {
            if sparse { (0..6).fold(u64::MAX, |word, _| word & random.next()) } else { random.next() }
        };
        (0..value_words(length)).map(|_| word(self)).collect()
    }
}

/// The middle of some times, each part by itself.
pub fn middle<const PARTS: usize>(mut turns: Vec<[f64; PARTS]>) -> [f64; PARTS] {
    std::array::from_fn(|part| {
        turns.sort_by(|one, other| one[part].total_cmp(&other[part]));
        turns[turns.len() / 2][part]
    })
}

/// The nanoseconds of a call.
pub fn timed<T>(call: impl FnOnce() -> T) -> f64 {
    let start = Instant::now();
    let made = black_box(call());
    let time = start.elapsed().as_nanos() as f64;
    drop(made);
    time
}

/// The nanoseconds of a call that has just been made twice, so that a processor has learned of it what it can.
pub fn timed_again<T>(call: impl Fn() -> T) -> f64 {
    black_box((call(), call()));
    timed(call)
}

pub struct Progress {
    start: Instant,
    last: Instant,
}

impl Progress {
    pub fn new() -> Self {
        Progress { start: Instant::now(), last: Instant::now() }
    }

    pub fn tell(&mut self, part: &str, turn: usize, turns: usize) {
        let terminal = stderr().is_terminal();
        if self.last.elapsed() < if terminal { Duration::from_millis(200) } else { Duration::from_secs(5) } {
            return;
        }
        self.last = Instant::now();
        let line = format!("{:>4} s  {part}: turn {turn} of {turns}", self.start.elapsed().as_secs());
        if terminal { eprint!("\r{line:<70}") } else { eprintln!("{line}") }
    }

    pub fn end(&self) {
        if stderr().is_terminal() {
            eprint!("\r{:70}\r", "");
        }
    }
}
