//! What a request is to be answered, worked out on a plain list of bits. It knows nothing of the published code.

use super::layout::{built, need};
use super::request::*;
use oracle::orders::list::{bits_of, reply, values};

fn refusal(request: &Request) -> Option<u64> {
    let Request { size, length, .. } = *request;
    if size % 6 != 0 || !(12..=6144).contains(&size) {
        return Some(WRONG_SIZE);
    }
    if length > 64 * request.words.len() as u64 {
        return Some(TOO_LONG);
    }
    (need(length as usize) > size / 6 - 1).then_some(FULL)
}

fn refused(request: &Request, code: u64) -> Answer {
    // the words of a pool that is not built are all the same, and no pool is
    let after = if code == WRONG_SIZE { WRONG_SIZE } else { NOT_SOUND };
    Answer {
        built: [code, 0],
        ran: [after, 0],
        checked: [after, 0],
        valued: [after, 0],
        replies: vec![[u64::MAX; 2]; request.orders.len()],
        out: vec![request.fill; request.room],
        pool: vec![request.fill; request.shown],
    }
}

/// What a request is to be answered, and the list afterwards. The pool has room for every mark, so that no order is Full. A word that is
/// set after the orders is to damage the pool, and the pool's words are told only where no order changes them.
pub fn by_list(request: &Request) -> (Answer, Option<Vec<bool>>) {
    if let Some(code) = refusal(request) {
        return (refused(request, code), None);
    }
    let mut bits = bits_of(&request.words, request.length);
    let mut answer = refused(request, DONE);
    answer.built = [DONE, request.length];
    answer.pool = built(request.size / 6 - 1, &bits);
    answer.replies = request.orders.iter().map(|order| reply(&mut bits, *order, |_| false)).collect();
    answer.ran = [DONE, request.orders.len() as u64];
    let words = values(&bits);
    if let Some(word) = answer.pool.get_mut(request.at as usize) {
        *word = request.word;
    } else {
        answer.checked = [DONE, bits.len() as u64];
        answer.valued = [SHORT_OUTPUT, 0];
        if words.len() <= request.room {
            answer.valued = [DONE, words.len() as u64];
            answer.out[..words.len()].copy_from_slice(&words);
        }
    }
    answer.pool.truncate(request.shown);
    (answer, Some(bits))
}
