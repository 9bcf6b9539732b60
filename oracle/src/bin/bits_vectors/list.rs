//! Each operation on a plain list of bits, for all arguments. It knows nothing of the published code.

use super::request::*;

fn list_select(list: Vec<bool>, bit: bool, k: u64) -> Answer {
    let places = (0..list.len()).filter(|&i| list[i] == bit);
    place_answer(places.zip(1..).find(|&(_, n)| n == k).map(|(i, _)| i))
}

fn list_insert(mut list: Vec<bool>, at: u64, bit: bool) -> Answer {
    if at < 128 {
        list.insert(at as usize, bit);
    }
    leaf_answer(word(&list))
}

fn list_remove(mut list: Vec<bool>, at: u64) -> Answer {
    if at < 128 {
        list.remove(at as usize);
    }
    leaf_answer(word(&list))
}

fn list_join(list: Vec<bool>, len: u64, other: Vec<bool>) -> Answer {
    let kept = list.into_iter().take(len.min(128) as usize);
    leaf_answer(word(&kept.chain(other).collect::<Vec<_>>()))
}

pub fn by_list(request: Request) -> Answer {
    let [operation, a, b, c, d, e] = request;
    let leaf = list(wide(a, b), 128);
    match operation {
        SELECT32 => list_select(list(a as u128, 32), b != 0, c),
        SELECT64 => list_select(list(a as u128, 64), b != 0, c),
        SELECT128 => list_select(leaf, c != 0, d),
        INSERT => list_insert(leaf, c, d != 0),
        REMOVE => list_remove(leaf, c),
        JOIN => list_join(leaf, c, list(wide(d, e), 128)),
        SPLIT => split_answer(word(&leaf[..64]), word(&leaf[64..])),
        COUNT_BEFORE => {
            let before = leaf.iter().take(c.min(128) as usize);
            number_answer(before.filter(|&&bit| bit == (d != 0)).count() as u64)
        }
        BIT_AT => number_answer((c < 128 && leaf[c as usize]) as u64),
        _ => UNKNOWN,
    }
}
