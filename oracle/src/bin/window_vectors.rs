//! Makes requests for the program `window_replay` and the answers they are to have. Each answer is worked out on a plain list of
//! bits, the pool's words by the rules of the tree that is built, and wherever the published Rust is defined its values and its
//! answers have to be the same, or this program stops. The published Rust keeps no pool, so the pool's words, and what is refused
//! or damaged, have the list alone.
//!
//!     window_vectors SEED LONGS REQUESTS ANSWERS      LONGS of them longer than 2,000
//!     window_vectors sample REQUESTS ANSWERS
//!     window_vectors word PLACE SEED LONGS            says which request a word of the answers belongs to, and what it is

#[path = "window_vectors/cases.rs"]
mod cases;
#[path = "window_vectors/layout.rs"]
mod layout;
#[path = "window_vectors/list.rs"]
mod list;
#[path = "window_vectors/published.rs"]
mod published;
#[path = "window_vectors/request.rs"]
mod request;

use cases::{cases, sample};
use list::by_list;
use published::{hold_to_the_published, known_breaks};
use request::Request;
use std::fs::File;
use std::io::{BufWriter, Write};

fn made(path: &str) -> BufWriter<File> {
    BufWriter::new(File::create(path).unwrap_or_else(|error| panic!("{path}: {error}")))
}

fn put(file: &mut BufWriter<File>, words: &[u64]) {
    for word in words {
        file.write_all(&word.to_le_bytes()).expect("a write failed");
    }
}

fn write(all: &[Request], requests: &str, answers: &str) {
    let (mut requests, mut answers) = (made(requests), made(answers));
    let (mut calls, mut orders, mut words, mut alike) = (0, 0, 0, 0);
    for request in all {
        let (answer, list) = by_list(request);
        alike += list.map_or(0, |list| hold_to_the_published(request, &list, &answer));
        put(&mut requests, &request.to_words());
        put(&mut answers, &answer.to_words());
        calls += 4;
        orders += answer.replies.len();
        words += answer.out.len() + answer.pool.len();
    }
    requests.flush().expect("a write failed");
    answers.flush().expect("a write failed");
    println!(
        "{} requests: {calls} calls, {orders} orders and {words} words of pools and outputs; {alike} answers by the published \
         code and the list alike",
        all.len()
    );
}

fn number(word: &str) -> u64 {
    word.parse().unwrap_or_else(|_| panic!("{word} is no number"))
}

// Says what stands at a word of all answers.
fn tell(all: &[Request], mut place: usize) {
    for (index, request) in all.iter().enumerate() {
        let answer = by_list(request).0;
        let count = answer.to_words().len();
        if place < count {
            let Request { size, length, .. } = request;
            println!("request {index}, a build of length {length} in {size} words: {}", answer.part(request, place));
            return;
        }
        place -= count;
    }
    println!("past the last answer");
}

fn main() {
    let words: Vec<String> = std::env::args().skip(1).collect();
    let words: Vec<&str> = words.iter().map(String::as_str).collect();
    known_breaks();
    match words[..] {
        ["sample", requests, answers] => write(&sample(), requests, answers),
        ["word", place, seed, longs] => tell(&cases(number(seed), number(longs)), number(place) as usize),
        [seed, longs, requests, answers] => write(&cases(number(seed), number(longs)), requests, answers),
        _ => panic!("the arguments are those of one of the three lines at the head of this program"),
    }
}
