//! Damaged pools: words of a sound pool changed, chains cut, cycles, and words that were never a pool. Whether the words are well-formed is told by
//! the reader of the layout; check has to say the same, and where they are not every call refuses and changes nothing.

use super::Failure;
use super::counts::{CHECK, Counts, Progress, RUN, VALUES};
use super::layout;
use super::lent::Lent;
use super::random::Random;
use oracle::orders::list;
use spelunzone::{Refusal, check, run, values};

fn failure(words: &[u64], call: usize, told: String) -> Failure {
    Failure::Pool(words.to_vec(), call, told)
}

/// Holds the calls on some words to what the layout says of them.
fn judge(words: &[u64], counts: &mut Counts) -> Result<(), Failure> {
    let mut pool = Lent::new(words);
    let before = pool.clone();
    let came = check(pool.words());
    let read = layout::read(words);
    let wanted = match &read {
        Some(pool) => Ok(layout::leaves(&pool.parts).map(|(_, size)| size as u64).sum()),
        None => Err(Refusal::NotSound),
    };
    if came != wanted {
        return Err(failure(words, CHECK, format!("{wanted:?} by the layout, {came:?} came")));
    }
    let marks = read.map(|pool| list::values(&layout::marks(&pool.parts)));
    let mut out = Lent::spare(marks.as_ref().map_or(4, Vec::len));
    let spare = out.clone();
    let valued = values(pool.words(), out.words_mut());
    if let Some(marks) = marks {
        counts.sound_after_all += 1;
        let right = valued == Ok(marks.len() as u64) && out.words() == marks && out.margins_stay();
        return if right { Ok(()) } else { Err(failure(words, VALUES, format!("{valued:?} came, or other marks"))) };
    }
    counts.damaged += 1;
    let ran = run(pool.words_mut(), &[1, 0, 1, 2, 0, 0], out.words_mut());
    let stays = pool == before && out == spare;
    for (call, came) in [(CHECK, came), (VALUES, valued), (RUN, ran)] {
        if came != Err(Refusal::NotSound) || !stays {
            return Err(failure(words, call, format!("{came:?} came, or a word was changed")));
        }
        counts.refusal(call, Refusal::NotSound.number());
    }
    Ok(())
}

/// Every bit of every word turned over, one at a time.
fn every_bit(sound: &[u64], counts: &mut Counts) -> Result<(), Failure> {
    let mut words = sound.to_vec();
    for at in 0..words.len() {
        for bit in 0..64 {
            words[at] ^= 1 << bit;
            judge(&words, counts)?;
            words[at] ^= 1 << bit;
        }
    }
    Ok(())
}

/// Every word set to each of the numbers that mean something in a pool, and to those beside what it was.
fn every_word(sound: &[u64], counts: &mut Counts) -> Result<(), Failure> {
    let nodes = sound.len() as u64 / 6 - 1;
    let mut words = sound.to_vec();
    for at in 0..words.len() {
        let old = words[at];
        let beside = [old.wrapping_add(1), old.wrapping_sub(1), old ^ 1 << 63, !old, u64::MAX, 32, 33, 64, 127, 128];
        for new in (0..nodes + 2).chain(beside) {
            words[at] = new;
            judge(&words, counts)?;
        }
        words[at] = old;
    }
    Ok(())
}

impl Random {
    // A word that could stand somewhere in a pool of so many nodes.
    fn likely(&mut self, nodes: u64) -> u64 {
        match self.below(8) {
            0..3 => self.below(nodes + 2),
            3 => self.below(4),
            4 => self.below(200),
            5 => self.next(),
            6 => 0,
            _ => 1 << self.below(64),
        }
    }

    fn node(&mut self, words: &[u64]) -> usize {
        6 * self.place(words.len() / 6 - 1)
    }

    // One damage: words set, moved or exchanged, nodes exchanged or copied, the chain or a child turned elsewhere.
    fn damage(&mut self, words: &mut [u64]) {
        let (end, nodes) = (words.len(), words.len() as u64 / 6 - 1);
        let (one, two) = (self.place(end), self.place(end));
        let (node, other) = (self.node(words), self.node(words));
        match self.below(9) {
            0 => words[one] = self.likely(nodes),
            1 => words[one] ^= 1 << self.below(64),
            2 => words.swap(one, two),
            3 => words[one] = words[two],
            4 => (0..6).for_each(|i| words.swap(node + i, other + i)),
            5 => words.copy_within(node..node + 6, other),
            // the next number of the chain, or a child: itself, the end, another, or the root
            6 => {
                words[node + 1 + self.place(2)] =
                    self.one_of(&[node as u64 / 6, nodes, other as u64 / 6, words[end - 6]])
            }
            7 => words[end - 6 + self.place(4)] = self.likely(nodes),
            _ => words[end - 3] = words[end - 3].wrapping_add(self.below(5)).wrapping_sub(2),
        }
    }

    // Words that were never a pool, with the trailer of one now and then.
    fn never_a_pool(&mut self, nodes: u64) -> Vec<u64> {
        let mut words: Vec<u64> = (0..6 * nodes).map(|_| self.likely(nodes)).collect();
        for cell in words.chunks_mut(6) {
            match self.below(4) {
                0 => cell.copy_from_slice(&[0, self.below(nodes + 1), 0, 0, 0, 0]),
                1 => cell.copy_from_slice(&[1, self.next(), self.below(4), 0, 0, 0]),
                2 => cell.copy_from_slice(&[
                    2,
                    self.below(nodes),
                    self.below(nodes),
                    self.below(200),
                    self.below(100),
                    self.below(5),
                ]),
                _ => (),
            }
        }
        words.extend([self.below(nodes), self.below(300), self.below(nodes + 1), self.below(nodes + 1), nodes, 0]);
        if self.chance(4) {
            let at = self.place(6);
            words[6 * nodes as usize + at] = self.likely(nodes);
        }
        words
    }
}

/// Small pools with every bit and word changed, then so many at random.
pub fn damages(random: &mut Random, pools: u64, counts: &mut Counts, progress: &mut Progress) -> Result<(), Failure> {
    for height in [0, 0, 1, 1, 2, 2, 3] {
        let sound = random.sound_pool(height);
        judge(&sound, counts)?;
        every_bit(&sound, counts)?;
        every_word(&sound, counts)?;
        progress.tell("every bit and word of small pools", height, 3, counts);
    }
    let start = counts.damaged;
    while counts.damaged < start + pools {
        let height = random.one_of(&[0, 1, 1, 2, 2, 3, 3, 4, 5, 8]);
        let sound = random.sound_pool(height);
        for _ in 0..20 {
            let mut words = sound.clone();
            for _ in 0..random.one_of(&[1, 1, 1, 2, 3, 8]) {
                random.damage(&mut words);
            }
            judge(&words, counts)?;
            let nodes = random.one_of(&[1, 2, 3, 4, 5, 9, 30]);
            judge(&random.never_a_pool(nodes), counts)?;
        }
        progress.tell("damaged pools", counts.damaged - start, pools, counts);
    }
    Ok(())
}
