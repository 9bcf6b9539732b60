//! What a request of `window_replay` holds, and how it and its answer are written as words.

pub use oracle::orders::*;

/// A build of `words` and `length` into `size` words of `fill`, orders on what was built, and the word put at `at` before check and
/// values are called, the latter with an output of `room` words. So many of the pool's words are `shown` afterwards.
#[derive(Clone, Debug, Default)]
pub struct Request {
    pub size: usize,
    pub fill: u64,
    pub words: Vec<u64>,
    pub length: u64,
    pub orders: Vec<Order>,
    pub room: usize,
    pub at: u64,
    pub word: u64,
    pub shown: usize,
}

#[derive(Clone, Debug, PartialEq, Eq)]
pub struct Answer {
    pub built: Pair,
    pub ran: Pair,
    pub checked: Pair,
    pub valued: Pair,
    pub replies: Vec<Pair>,
    pub out: Vec<u64>,
    pub pool: Vec<u64>,
}

impl Request {
    /// No word of the pool is set after the orders.
    pub const NOWHERE: u64 = u64::MAX;

    pub fn to_words(&self) -> Vec<u64> {
        let counts = [self.words.len() as u64, self.length, self.orders.len() as u64, self.room as u64];
        let mut all = vec![self.size as u64, self.fill];
        all.extend(counts);
        all.extend([self.at, self.word, self.shown as u64]);
        all.extend(&self.words);
        all.extend(self.orders.concat());
        all
    }
}

impl Answer {
    pub fn to_words(&self) -> Vec<u64> {
        let mut all = [self.built, self.ran, self.checked, self.valued].concat();
        all.extend(self.replies.concat());
        all.extend(&self.out);
        all.extend(&self.pool);
        all
    }

    /// What the word at a place of the answer is.
    pub fn part(&self, request: &Request, place: usize) -> String {
        let asked = 8 + 2 * self.replies.len();
        match place {
            0..8 => format!(
                "{} of {}",
                ["the code", "the value"][place % 2],
                ["build", "run", "check", "values"][place / 2]
            ),
            _ if place < asked => {
                format!("the answer to order {}, {:?}", (place - 8) / 2, request.orders[(place - 8) / 2])
            }
            _ if place < asked + self.out.len() => format!("word {} of the output", place - asked),
            _ => format!("word {} of the pool", place - asked - self.out.len()),
        }
    }
}
