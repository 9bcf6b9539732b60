//! Every refusal of every call, and which comes first where several could be told. Each lent word, and words on either side, is held to what it was.

use super::Failure;
use super::beside::Beside;
use super::counts::{BUILD, CHECK, Counts, Progress, RUN, VALUES};
use super::lent::Lent;
use super::random::Random;
use super::script::Script;
use oracle::orders::*;
use spelunzone::{MOST_NODES, Refusal, build, check, pool_words, run, values};

/// What a call is lent.
#[derive(Clone, PartialEq, Eq)]
struct Lending {
    pool: Lent,
    given: Lent,
    out: Lent,
}

/// The refusal that is to come: the first of those whose reason holds.
fn first(tests: &[(bool, Refusal)]) -> Option<Refusal> {
    tests.iter().find(|(holds, _)| *holds).map(|(_, refusal)| *refusal)
}

// A call that is to be refused so, or done; where it is refused no word may change.
fn held(
    call: usize,
    wanted: Option<Refusal>,
    lending: &Lending,
    counts: &mut Counts,
    make: impl FnOnce(&mut Lending) -> Result<u64, Refusal>,
) -> Result<(), Failure> {
    let mut after = lending.clone();
    let came = make(&mut after);
    let margins = after.pool.margins_stay() && after.given.margins_stay() && after.out.margins_stay();
    let right = match wanted {
        Some(refusal) => came == Err(refusal) && after == *lending,
        None => came.is_ok() && margins,
    };
    if !right {
        let sizes = [&lending.pool, &lending.given, &lending.out].map(|lent| lent.words().len());
        return Err(Failure::Call(
            call,
            format!("words lent {sizes:?}; {wanted:?} wanted, {came:?} came, or a word was changed"),
        ));
    }
    if let Some(refusal) = wanted {
        counts.refusal(call, refusal.number());
    }
    Ok(())
}

fn is_size(words: usize) -> bool {
    words.is_multiple_of(6) && (1..=MOST_NODES).contains(&(words / 6).wrapping_sub(1))
}

/// The four calls on the words of a pool, sound or damaged, cut or drawn out to a size.
fn calls(sound: &[u64], size: usize, damaged: bool, counts: &mut Counts) -> Result<(), Failure> {
    let length = sound[sound.len() - 5];
    let mut words = sound.to_vec();
    words[sound.len() - 1] = damaged as u64;
    words.resize(size, 0);
    let pool = Lent::new(&words);
    let not_size = (!is_size(size), Refusal::WrongSize);
    let not_sound = (damaged || size != sound.len(), Refusal::NotSound);
    let lending =
        |given: &[u64], out: usize| Lending { pool: pool.clone(), given: Lent::new(given), out: Lent::spare(out) };

    held(CHECK, first(&[not_size, not_sound]), &lending(&[], 0), counts, |lent| check(lent.pool.words()))?;
    let need = 2 * length.div_ceil(128) as usize;
    for room in [0, need.saturating_sub(1), need, need + 1] {
        let wanted = first(&[not_size, not_sound, (room < need, Refusal::ShortOutput)]);
        held(VALUES, wanted, &lending(&[], room), counts, |lent| values(lent.pool.words(), lent.out.words_mut()))?;
    }
    let orders = [[INSERT, 0, 1], [REMOVE, 0, 0], [ACCESS, 0, 0], [INSERT, length, 0]];
    for count in 0..=orders.as_flattened().len() {
        let given = &orders.as_flattened()[..count];
        for room in [0, 1, (2 * (count / 3)).saturating_sub(1), 2 * (count / 3), 9] {
            let part = (count % 3 != 0, Refusal::PartOrder);
            let wanted = first(&[not_size, part, (room < 2 * (count / 3), Refusal::ShortOutput), not_sound]);
            let make = |lent: &mut Lending| run(lent.pool.words_mut(), lent.given.words(), lent.out.words_mut());
            held(RUN, wanted, &lending(given, room), counts, make)?;
        }
    }
    builds(size, &pool, counts)
}

// Builds into a pool of a size, of lengths about what the words give and about what the nodes hold.
fn builds(size: usize, pool: &Lent, counts: &mut Counts) -> Result<(), Failure> {
    let fits = 64 * (size / 6) as u64 / 2;
    for count in [0, 1, 2, size / 12, size / 12 + 1] {
        let gives = 64 * count as u64;
        for length in
            [0, 1, gives.saturating_sub(1), gives, gives + 1, fits / 64 * 64, fits / 64 * 64 + 1, 1 << 58, u64::MAX]
        {
            let leaves = length.div_ceil(64).max(1);
            let full = leaves > size as u64 || 2 * leaves - 1 > (size as u64 / 6).wrapping_sub(1);
            let tests =
                [(!is_size(size), Refusal::WrongSize), (length > gives, Refusal::TooLong), (full, Refusal::Full)];
            let lending = Lending { pool: pool.clone(), given: Lent::spare(count), out: Lent::spare(0) };
            held(BUILD, first(&tests), &lending, counts, |lent| {
                build(lent.pool.words_mut(), lent.given.words(), length)
            })?;
        }
    }
    Ok(())
}

/// Orders of any number with any second and third word, on a window; the list tells which refusal comes first.
fn orders(start: &Beside, script: &Script, counts: &mut Counts) -> Result<(), Failure> {
    let length = start.list.len() as u64;
    let seconds = [0, 1, 2, length.saturating_sub(1), length, length + 1, length + 2, 1 << 32, (1 << 32) + 1, u64::MAX];
    for number in [0, 1, 2, 3, 4, 5, 6, 7, 8, 1 << 32, (1 << 32) + 1, u64::MAX] {
        for second in seconds {
            for third in [0, 1, 2, 3, 1 << 32, u64::MAX] {
                let order = [number, second, third];
                let held = start.clone().order(order, counts);
                held.map_err(|difference| {
                    let mut script = script.clone();
                    script.orders.push(order);
                    Failure::Script(script, difference)
                })?;
            }
        }
    }
    Ok(())
}

// A window that was loaded and then grown in its middle, so that a leaf of the smallest pools is full.
fn grown(
    nodes: usize,
    length: u64,
    inserts: u64,
    random: &mut Random,
    counts: &mut Counts,
) -> Result<(Beside, Script), Failure> {
    let mut script = Script { nodes, length, words: random.words(length), orders: Vec::new() };
    script.orders = (0..inserts).map(|_| [INSERT, length / 2, random.below(2)]).collect();
    let failure = |difference| Failure::Script(script.clone(), difference);
    let mut beside =
        Beside::new(nodes, &script.words, length, None, counts).map_err(failure)?.expect("the length fits");
    script.orders.iter().try_for_each(|order| beside.order(*order, counts)).map_err(failure)?;
    Ok((beside, script))
}

pub fn refusals(random: &mut Random, counts: &mut Counts, progress: &mut Progress) -> Result<(), Failure> {
    let windows = [
        (1, 0, 0),
        (1, 5, 0),
        (1, 64, 63),
        (2, 64, 63),
        (3, 64, 63),
        (3, 128, 63),
        (9, 300, 0),
        (10, 320, 100),
        (1023, 9000, 0),
    ];
    for (nodes, length, inserts) in windows {
        let (beside, script) = grown(nodes, length, inserts, random, counts)?;
        orders(&beside, &script, counts)?;
        let sound = beside.pool.words();
        for size in [0, 1, 5, 6, 7, 11, 12, 13, 6143, 6144, 6145, 6150, sound.len() - 1, sound.len(), sound.len() + 1] {
            for damaged in [false, true] {
                if size != sound.len() || !damaged || size >= 12 {
                    calls(sound, size, damaged, counts)?;
                }
            }
        }
        progress.tell("refusals", nodes as u64, 1023, counts);
    }
    // every size up to two nodes above the largest pool, on words that are no pool
    for size in (0..=pool_words(MOST_NODES + 2)).filter(|size| !is_size(*size)) {
        let lending = Lending { pool: Lent::spare(size), given: Lent::spare(3), out: Lent::spare(2) };
        let wanted = Some(Refusal::WrongSize);
        held(CHECK, wanted, &lending, counts, |lent| check(lent.pool.words()))?;
        held(BUILD, wanted, &lending, counts, |lent| build(lent.pool.words_mut(), lent.given.words(), 1))?;
        held(VALUES, wanted, &lending, counts, |lent| values(lent.pool.words(), lent.out.words_mut()))?;
        held(RUN, wanted, &lending, counts, |lent| {
            run(lent.pool.words_mut(), lent.given.words(), lent.out.words_mut())
        })?;
        progress.tell("sizes", size as u64, 6156, counts);
    }
    Ok(())
}

/// Each refusal that can be reached has been. 11 cannot: a pool is tested before its first order, and in a sound one every count is true, so the
/// leaf that select comes to has the mark.
pub fn all_reached(counts: &Counts) -> Result<(), Failure> {
    let reachable: [&[usize]; 5] = [&[1, 2, 3, 4, 5], &[6, 7], &[4, 6, 10], &[6, 7, 8], &[6, 7, 8, 9]];
    for (call, codes) in reachable.into_iter().enumerate() {
        for code in 1..12 {
            if (counts.refused[call][code] > 0) != codes.contains(&code) {
                return Err(Failure::Call(call, format!("the code {code} came {} times", counts.refused[call][code])));
            }
        }
    }
    Ok(())
}
