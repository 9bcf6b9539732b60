//! Holds the library libspelunzone.a to the published Rust and to a plain list of bits, order by order. The same windows stand in a pool of the
//! library's, as a list and in the Rust, and every answer, the marks, the tree and every word that may not change are compared.
//!
//!     differential quick          under a minute
//!     differential long [SEED]    ten million orders in random runs, and as many damaged pools
//!     differential small          a little of each, with nothing beside the words that are lent, for a tool that watches the memory
//!     differential fault NUMBER   shows that a fault is found: the oracle's answers to orders of that number are falsified
//!
//! A case that fails is made shorter and printed as a script of the order program, with what was wanted and what came.

#![allow(clippy::result_large_err)]

#[path = "differential/beside.rs"]
mod beside;
#[path = "differential/counts.rs"]
mod counts;
#[path = "differential/damage.rs"]
mod damage;
#[path = "differential/exhaustive.rs"]
mod exhaustive;
#[path = "differential/layout.rs"]
mod layout;
#[path = "differential/lent.rs"]
mod lent;
#[path = "differential/parting.rs"]
mod parting;
#[path = "differential/random.rs"]
mod random;
#[path = "differential/refusals.rs"]
mod refusals;
#[path = "differential/replay.rs"]
mod replay;
#[path = "differential/runs.rs"]
mod runs;
#[path = "differential/script.rs"]
mod script;
#[path = "differential/shapes.rs"]
mod shapes;

use beside::{Difference, Fault};
use counts::{CALLS, Counts, Progress};
use random::Random;
use script::Script;
use std::process::ExitCode;
use std::sync::atomic::Ordering;

/// What was found, with what it takes to see it again.
pub enum Failure {
    /// orders on a window that was loaded
    Script(Script, Difference),
    /// an order on a pool with these words
    Words(Vec<u64>, String, Difference),
    /// a call on a pool with these words
    Pool(Vec<u64>, usize, String),
    /// a call that is to be refused
    Call(usize, String),
}

fn print(failure: Failure, fault: Fault) {
    match failure {
        Failure::Script(script, difference) => {
            let orders = script.orders.len();
            let (script, Difference { what, wanted, came, .. }) = replay::shortened(script, difference, fault);
            println!("FAILED after {orders} orders. A short script of {} lines that fails too:\n", script.lines());
            println!("{script}\n{what}\n  wanted: {wanted}\n  came:   {came}");
        }
        Failure::Words(words, line, Difference { what, wanted, came, .. }) => {
            println!("FAILED: {line} on the pool {words:?}\n{what}\n  wanted: {wanted}\n  came:   {came}");
        }
        Failure::Pool(words, call, told) => println!("FAILED: {} on the pool {words:?}\n  {told}", CALLS[call]),
        Failure::Call(call, told) => println!("FAILED: {}\n  {told}", CALLS[call]),
    }
}

/// How much is done.
struct Size {
    single: u64,
    double: u64,
    every_size: bool,
    orders: u64,
    trees: u64,
    damaged: u64,
}

const SMALL: Size = Size { single: 5, double: 3, every_size: false, orders: 40_000, trees: 400, damaged: 20_000 };
const QUICK: Size =
    Size { single: 12, double: 8, every_size: true, orders: 1_000_000, trees: 10_000, damaged: 400_000 };
const LONG: Size =
    Size { single: 12, double: 8, every_size: true, orders: 10_000_000, trees: 200_000, damaged: 10_000_000 };

fn compare(size: Size, seed: u64, counts: &mut Counts, progress: &mut Progress) -> Result<(), Failure> {
    let mut random = Random(seed);
    refusals::refusals(&mut random, counts, progress)?;
    if size.every_size {
        runs::every_size(&mut random, counts, progress)?;
    }
    runs::runs(&mut random, size.orders, None, counts, progress)?;
    shapes::shapes(&mut random, size.trees, counts, progress)?;
    damage::damages(&mut random, size.damaged, counts, progress)?;
    exhaustive::exhaustive(size.single, size.double, counts, progress)?;
    refusals::all_reached(counts)?;
    parting::parting();
    Ok(())
}

fn number(word: &str) -> u64 {
    word.parse().unwrap_or_else(|_| panic!("{word} is no number"))
}

fn main() -> ExitCode {
    let words: Vec<String> = std::env::args().skip(1).collect();
    let words: Vec<&str> = words.iter().map(String::as_str).collect();
    let (mut counts, mut progress) = (Counts::default(), Progress::new());
    let (result, fault) = match words[..] {
        ["small"] => {
            lent::MARGIN.store(0, Ordering::Relaxed);
            (compare(SMALL, 1, &mut counts, &mut progress), None)
        }
        ["quick"] => (compare(QUICK, 1, &mut counts, &mut progress), None),
        ["long"] => (compare(LONG, 2, &mut counts, &mut progress), None),
        ["long", seed] => (compare(LONG, number(seed), &mut counts, &mut progress), None),
        ["fault", order] => {
            let fault = Some(number(order));
            (runs::runs(&mut Random(1), QUICK.orders, fault, &mut counts, &mut progress), fault)
        }
        _ => panic!("the arguments are those of one of the lines at the head of this program"),
    };
    progress.end();
    match result {
        Ok(()) => counts.print(),
        Err(failure) => {
            print(failure, fault);
            return ExitCode::FAILURE;
        }
    }
    ExitCode::SUCCESS
}
