//! Every small window with every order on it, and every pair of edits on windows that are smaller still.

use super::Failure;
use super::beside::{Beside, Difference};
use super::counts::{Counts, Progress};
use super::script::Script;
use oracle::orders::*;

/// All six orders at every place, up to two past the end, with both marks, and every k up to one above the length.
fn all_orders(length: u64) -> Vec<Order> {
    let mut all = vec![[QUIET, 0, 0]];
    for at in 0..=length + 2 {
        all.extend([[REMOVE, at, 0], [ACCESS, at, 0]]);
        all.extend([0, 1].map(|bit| [INSERT, at, bit]));
        all.extend([0, 1].map(|bit| [RANK, at, bit]));
    }
    all.extend((0..=length + 1).flat_map(|k| [[SELECT, k, 0], [SELECT, k, 1]]));
    all
}

/// Inserts and removes at every place, one past the end with them.
fn all_edits(length: u64) -> Vec<Order> {
    let inserts = (0..=length + 1).flat_map(|at| [[INSERT, at, 0], [INSERT, at, 1]]);
    inserts.chain((0..=length).map(|at| [REMOVE, at, 0])).collect()
}

// Serves the orders on a copy of a window; after an edit everything that can be asked is asked.
fn serve(start: &Beside, orders: &[Order], counts: &mut Counts) -> Result<Beside, Difference> {
    let mut beside = start.clone();
    for order in orders {
        beside.order(*order, counts)?;
        if matches!(order[0], INSERT | REMOVE) {
            beside.look(counts)?;
            beside.ask_all(counts)?;
        }
    }
    Ok(beside)
}

// A window of up to 64 marks with one, two or three nodes, and what is done on it.
fn window(length: u64, bits: u64, pairs: bool, counts: &mut Counts) -> Result<(), Failure> {
    let nodes = 1 + (bits % 3) as usize;
    let words = if length == 0 { vec![] } else { vec![bits] };
    let failure = |orders: &[Order]| {
        let script = Script { nodes, length, words: words.clone(), orders: orders.to_vec() };
        move |difference| Failure::Script(script, difference)
    };
    let start = Beside::new(nodes, &words, length, None, counts).map_err(failure(&[]))?.expect("64 marks fit a node");
    for first in if pairs { all_edits(length) } else { all_orders(length) } {
        let once = serve(&start, &[first], counts).map_err(failure(&[first]))?;
        if pairs {
            for second in all_edits(once.list.len() as u64) {
                serve(&once, &[second], counts).map_err(failure(&[first, second]))?;
            }
        }
    }
    Ok(())
}

/// Every window of up to `single` marks with every order, and of up to `double` with every pair of edits.
pub fn exhaustive(single: u64, double: u64, counts: &mut Counts, progress: &mut Progress) -> Result<(), Failure> {
    for (pairs, most) in [(false, single), (true, double)] {
        for length in 0..=most {
            for bits in 0..1 << length {
                window(length, bits, pairs, counts)?;
                let part = if pairs { "every pair of edits" } else { "every order" };
                progress.tell(&format!("{part}, windows of {length} marks"), bits, 1 << length, counts);
            }
        }
    }
    Ok(())
}
