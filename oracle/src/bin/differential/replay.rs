//! Plays a script from its start and makes a failing one shorter.

use super::beside::{Beside, Difference, Fault};
use super::counts::Counts;
use super::lent::Lent;
use super::script::Script;
use oracle::orders::list;
use spelunzone::{MOST_NODES, build, pool_words, run};

/// The window is looked at as a whole after so many orders.
const LOOK_EVERY: usize = 16;

/// The first difference of a script, its orders served one by one and then as one list.
pub fn play(script: &Script, fault: Fault, counts: &mut Counts) -> Result<(), Difference> {
    let Some(mut beside) = Beside::new(script.nodes, &script.words, script.length, fault, counts)? else {
        return Ok(());
    };
    for (index, order) in script.orders.iter().enumerate() {
        beside.order(*order, counts)?;
        if index % LOOK_EVERY == LOOK_EVERY - 1 {
            beside.look(counts)?;
        }
    }
    beside.look(counts)?;
    at_once(script, &beside, counts)
}

/// The orders of a script as one list are answered as one by one, and leave the same words.
pub fn at_once(script: &Script, beside: &Beside, counts: &mut Counts) -> Result<(), Difference> {
    counts.lists += 1;
    let mut pool = Lent::spare(pool_words(script.nodes));
    let mut out = Lent::spare(2 * script.orders.len());
    let built = build(pool.words_mut(), &script.words, script.length);
    let ran = run(pool.words_mut(), script.orders.as_flattened(), out.words_mut());
    let wanted = (Ok(script.length), Ok(script.orders.len() as u64), true, true, true);
    let answers = out.words() == beside.answers.as_flattened();
    let came = (built, ran, answers, pool == beside.pool, out.margins_stay());
    if wanted == came {
        return Ok(());
    }
    let what =
        "build, then run of all orders as one list: the answers and the pool as one by one, and the margins".into();
    Err(Difference { served: beside.served, what, wanted: format!("{wanted:?}"), came: format!("{came:?}") })
}

/// No more plays than this are spent on a script.
const MOST_PLAYS: usize = 20_000;

struct Shortener {
    best: Script,
    difference: Difference,
    fault: Fault,
    plays: usize,
}

impl Shortener {
    /// Takes the script where it still fails.
    fn takes(&mut self, script: Script) -> bool {
        self.plays += 1;
        if self.plays > MOST_PLAYS {
            return false;
        }
        match play(&script, self.fault, &mut Counts::default()) {
            Ok(()) => false,
            Err(difference) => {
                self.best = script;
                self.difference = difference;
                true
            }
        }
    }

    fn drop_orders(&mut self) -> bool {
        let mut shorter = false;
        let mut some = self.best.orders.len();
        while some > 0 {
            let mut at = 0;
            while at < self.best.orders.len() {
                let mut script = self.best.clone();
                script.orders.drain(at..(at + some).min(script.orders.len()));
                if self.takes(script) { shorter = true } else { at += some }
            }
            some /= 2;
        }
        shorter
    }

    // Loads the marks that the first orders leave in place of serving them.
    fn load_for_orders(&mut self) -> bool {
        let orders = self.best.orders.len();
        [orders.saturating_sub(1), orders / 2, 1].into_iter().filter(|some| (1..=orders).contains(some)).any(|some| {
            let mut marks = list::bits_of(&self.best.words, self.best.length);
            for order in &self.best.orders[..some] {
                list::reply(&mut marks, *order, |_| false);
            }
            let mut words = list::values(&marks);
            words.truncate(marks.len().div_ceil(64));
            let nodes = self.best.nodes.max(2 * words.len().max(1) - 1);
            let orders = self.best.orders[some..].to_vec();
            nodes <= MOST_NODES && self.takes(Script { nodes, length: marks.len() as u64, words, orders })
        })
    }

    fn load_less(&mut self) -> bool {
        let length = self.best.length;
        let lengths = [0, length / 2, length.saturating_sub(64), length.saturating_sub(1)];
        let shorter = lengths.into_iter().filter(|less| *less < length).any(|less| {
            let mut script = Script { length: less, ..self.best.clone() };
            script.words.truncate(less.div_ceil(64) as usize);
            self.takes(script)
        });
        let mut plainer = false;
        for at in 0..self.best.words.len() {
            let mut script = self.best.clone();
            let word = std::mem::replace(&mut script.words[at], 0);
            plainer |= word != 0 && self.takes(script);
        }
        shorter || plainer
    }

    fn fewer_nodes(&mut self) -> bool {
        let nodes = self.best.nodes;
        let fewer = [1, 2, 3, nodes / 2, nodes - 1].into_iter().filter(|fewer| (1..nodes).contains(fewer));
        fewer.collect::<Vec<_>>().into_iter().any(|nodes| self.takes(Script { nodes, ..self.best.clone() }))
    }

    fn lower_numbers(&mut self) -> bool {
        let mut lower = false;
        for at in 0..self.best.orders.len() {
            for word in 1..3 {
                let old = self.best.orders[at][word];
                for new in [0, 1, old / 2, old.wrapping_sub(1)].into_iter().filter(|new| *new < old) {
                    let mut script = self.best.clone();
                    script.orders[at][word] = new;
                    if self.takes(script) {
                        lower = true;
                        break;
                    }
                }
            }
        }
        lower
    }
}

/// A script that fails too, made as short as it gets by dropping orders, loading marks in their place, loading less, fewer nodes and lower
/// numbers; and where it fails.
pub fn shortened(script: Script, difference: Difference, fault: Fault) -> (Script, Difference) {
    let mut shortener = Shortener { best: script, difference, fault, plays: 0 };
    loop {
        let mut script = shortener.best.clone();
        script.orders.truncate(shortener.difference.served);
        if script.orders.len() < shortener.best.orders.len() {
            shortener.takes(script);
        }
        let mut better = false;
        for step in [
            Shortener::drop_orders,
            Shortener::load_for_orders,
            Shortener::load_less,
            Shortener::fewer_nodes,
            Shortener::lower_numbers,
        ] {
            better |= step(&mut shortener);
        }
        if !better || shortener.plays > MOST_PLAYS {
            return (shortener.best, shortener.difference);
        }
    }
}
