//! Builds, values and orders by the published Rust, where that is defined.

use super::request::*;
use oracle::Vector;
use oracle::orders::list::values;
use oracle::orders::published::{self, reply, vector};
use std::panic;

/// Stops where the published code and the list differ, in an answer or in the marks that are left, and says how many answers they
/// gave alike.
pub fn hold_to_the_published(request: &Request, list: &[bool], answer: &Answer) -> u64 {
    let mut vector = vector(&request.words, request.length);
    let mut alike = 1;
    for (order, expected) in request.orders.iter().zip(&answer.replies) {
        if let Some(reply) = reply(&mut vector, *order) {
            assert_eq!(reply, *expected, "{order:?} differs on {request:?}");
            alike += 1;
        }
    }
    assert_eq!(published::values(&vector), values(list), "values differ on {request:?}");
    alike
}

// The hook is put back before the assertion, so that a call that no longer stops is named.
fn breaks<T>(name: &str, call: impl Fn() -> T + panic::UnwindSafe) {
    let hook = panic::take_hook();
    panic::set_hook(Box::new(|_| ()));
    let broken = panic::catch_unwind(call).is_err();
    panic::set_hook(hook);
    assert!(broken, "the published code no longer breaks: {name}");
}

/// Where the published code stops. Ours builds an empty tree in the first, and refuses the second.
pub fn known_breaks() {
    breaks("length 0 with a block", || Vector::new(vec![0], 0));
    breaks("a place past its blocks, in its length", || Vector::new(vec![], 129).access(128));
}
