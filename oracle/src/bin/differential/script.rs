//! A case as a script in the language of the order program, one line for the pool, one for what is loaded and one for each order. An order that
//! the language cannot say is written as a line that it calls malformed.

use oracle::orders::*;
use std::fmt;

#[derive(Clone, Debug)]
pub struct Script {
    pub nodes: usize,
    pub length: u64,
    pub words: Vec<u64>,
    pub orders: Vec<Order>,
}

pub fn line([order, second, third]: Order) -> String {
    match (order, second, third) {
        (INSERT, at, 0..2) => format!("ins {at} {third}"),
        (REMOVE, at, 0) => format!("rem {at}"),
        (ACCESS, at, 0) => format!("get {at}"),
        (RANK, end, 0..2) => format!("rank {third} {end}"),
        (SELECT, k, 0..2) => format!("sel {third} {k}"),
        (QUIET, 0, 0) => "gap".into(),
        _ => format!("order {order} {second} {third}"),
    }
}

impl fmt::Display for Script {
    fn fmt(&self, out: &mut fmt::Formatter<'_>) -> fmt::Result {
        let words: String = self.words.iter().map(|word| format!(" {word:016x}")).collect();
        writeln!(out, "pool {}", self.nodes)?;
        writeln!(out, "load {}{words}", self.length)?;
        self.orders.iter().try_for_each(|order| writeln!(out, "{}", line(*order)))
    }
}

impl Script {
    pub fn lines(&self) -> usize {
        2 + self.orders.len()
    }
}
