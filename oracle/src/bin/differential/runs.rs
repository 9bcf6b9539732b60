//! Random runs at the boundaries: windows about the sizes at which leaves split, join and borrow, in pools of every size, that grow, shrink,
//! hover, and work at one end or anywhere. The length that an order is drawn for is the one that the window has, so a pool that is full is
//! asked again and again.

use super::Failure;
use super::beside::{Beside, Difference, Fault};
use super::counts::{Counts, Progress};
use super::random::Random;
use super::replay::at_once;
use super::script::Script;
use oracle::orders::*;
use spelunzone::MOST_NODES;

/// About the sizes of leaves: empty, joining, built, full.
const ABOUT: [u64; 9] = [0, 32, 64, 97, 127, 160, 192, 257, 320];
/// The window is looked at as a whole after so many orders: a small one, and a large one.
const LOOK_SMALL: usize = 4;
const LOOK_LARGE: usize = 100;
const LARGE: usize = 2_000;

#[derive(Clone, Copy)]
enum Place {
    Anywhere,
    First,
    Last,
    EitherEnd,
    Near(u64, u64),
}

/// How a part of a run goes on: where, and out of ten orders so many inserts and so many removes; the rest are questions.
#[derive(Clone, Copy)]
struct Way {
    place: Place,
    inserts: u64,
    removes: u64,
}

impl Random {
    fn way(&mut self, length: u64) -> Way {
        let near = Place::Near(self.below(length + 1), self.one_of(&[1, 2, 4, 8, 33, 64, 128]));
        let place = self.one_of(&[Place::Anywhere, Place::First, Place::Last, Place::EitherEnd, near, near, near]);
        let (inserts, removes) = self.one_of(&[(9, 0), (9, 0), (8, 1), (0, 9), (0, 9), (1, 8), (4, 4), (5, 4), (2, 2)]);
        Way { place, inserts, removes }
    }

    // A place of so many.
    fn spot(&mut self, place: Place, count: u64) -> u64 {
        match place {
            Place::Anywhere => self.below(count),
            Place::First => 0,
            Place::Last => count - 1,
            Place::EitherEnd => self.one_of(&[0, count - 1]),
            Place::Near(from, width) => (from + self.below(width)) % count,
        }
    }

    // A question, or an order that is refused.
    fn question(&mut self, length: u64) -> Order {
        let (bit, at) = (self.below(2), self.below(length + 2));
        match self.below(10) {
            0 | 1 => [ACCESS, at, 0],
            2 | 3 => [RANK, at, bit],
            4 | 5 => [SELECT, at, bit],
            6 => [QUIET, 0, 0],
            7 => [INSERT, length + 1 + self.below(3), bit],
            8 => [REMOVE, length + self.below(3), 0],
            _ => [self.below(9), at, self.below(3)],
        }
    }

    fn order(&mut self, way: Way, length: u64) -> Order {
        let pick = self.below(10);
        if pick < way.inserts {
            [INSERT, self.spot(way.place, length + 1), self.below(2)]
        } else if pick < way.inserts + way.removes && length > 0 {
            [REMOVE, self.spot(way.place, length), 0]
        } else {
            self.question(length)
        }
    }

    fn nodes(&mut self) -> usize {
        match self.below(8) {
            0..3 => 1 + self.place(9),
            3..6 => 1 + self.place(40),
            6 => 1 + self.place(1023),
            _ => self.one_of(&[1, 2, 3, 62, 63, 64, 127, 128, 255, 511, 512, 1021, 1022, 1023]),
        }
    }

    // A length for a pool: about a boundary, anything that fits, or all that fits, so that no node or one is free; now and then one mark more.
    fn length(&mut self, nodes: usize) -> u64 {
        let most = 64 * nodes.div_ceil(2) as u64;
        let about = (self.one_of(&ABOUT) + self.below(7)).saturating_sub(3);
        match self.below(16) {
            0 => most + 1,
            1..4 => most - self.below(66).min(most),
            4..7 => self.below(most + 1),
            _ => about.min(most),
        }
    }
}

/// A script that is made as it is played: so many orders, in parts that each go their own way.
fn run(random: &mut Random, orders: usize, fault: Fault, counts: &mut Counts) -> Result<(), Failure> {
    let nodes = random.nodes();
    let length = random.length(nodes);
    let way = random.way(length);
    play(random, nodes, length, way, orders, fault, counts)
}

fn play(
    random: &mut Random,
    nodes: usize,
    length: u64,
    way: Way,
    orders: usize,
    fault: Fault,
    counts: &mut Counts,
) -> Result<(), Failure> {
    let mut script = Script { nodes, length, words: random.words(length), orders: Vec::new() };
    let held = drive(random, &mut script, way, orders, fault, counts);
    held.map_err(|difference| Failure::Script(script, difference))
}

fn drive(
    random: &mut Random,
    script: &mut Script,
    mut way: Way,
    orders: usize,
    fault: Fault,
    counts: &mut Counts,
) -> Result<(), Difference> {
    let started = Beside::new(script.nodes, &script.words, script.length, fault, counts)?;
    let Some(mut beside) = started else { return Ok(()) };
    for index in 1..=orders {
        let length = beside.list.len();
        if random.chance(120) {
            way = random.way(length as u64);
        }
        let order = random.order(way, length as u64);
        script.orders.push(order);
        beside.order(order, counts)?;
        if index % if length < LARGE { LOOK_SMALL } else { LOOK_LARGE } == 0 {
            beside.look(counts)?;
        }
    }
    beside.look(counts)?;
    at_once(script, &beside, counts)
}

/// Runs until so many orders were served.
pub fn runs(
    random: &mut Random,
    orders: u64,
    fault: Fault,
    counts: &mut Counts,
    progress: &mut Progress,
) -> Result<(), Failure> {
    let start = counts.orders;
    while counts.orders < start + orders {
        let some = random.one_of(&[20, 100, 300, 600, 1500]);
        run(random, some, fault, counts)?;
        progress.tell("random runs", counts.orders - start, orders, counts);
    }
    Ok(())
}

/// A pool of every size, built as full as it gets and then grown at one place until its leaf is full, and beyond.
pub fn every_size(random: &mut Random, counts: &mut Counts, progress: &mut Progress) -> Result<(), Failure> {
    for nodes in 1..=MOST_NODES {
        let length = 64 * nodes.div_ceil(2) as u64 - random.below(3);
        let way = Way { place: Place::Near(random.below(length), 1), inserts: 9, removes: 0 };
        play(random, nodes, length, way, 110, None, counts)?;
        progress.tell("pools of every size", nodes as u64, MOST_NODES as u64, counts);
    }
    Ok(())
}
