//! Makes requests for the program `bits_replay` and the answers they are to have: every boundary first, then COUNT random
//! ones. Each answer is worked out on a plain list of bits, and wherever the published Rust is defined it has to give the
//! same, or this program stops; so one reading of each operation checks the other.
//!
//!     bits_vectors SEED COUNT REQUESTS ANSWERS
//!     bits_vectors sample REQUESTS ANSWERS        a few hundred of the boundaries

#[path = "bits_vectors/boundaries.rs"]
mod boundaries;
#[path = "bits_vectors/list.rs"]
mod list;
#[path = "bits_vectors/published.rs"]
mod published;
#[path = "bits_vectors/random.rs"]
mod random;
#[path = "bits_vectors/request.rs"]
mod request;

use boundaries::{boundaries, sample};
use list::by_list;
use published::{by_the_published, known_breaks};
use random::Random;
use request::Request;
use std::fs::File;
use std::io::{BufWriter, Write};

struct Files {
    requests: BufWriter<File>,
    answers: BufWriter<File>,
    written: u64,
    by_both: u64,
}

fn made(path: &str) -> BufWriter<File> {
    BufWriter::new(File::create(path).unwrap_or_else(|error| panic!("{path}: {error}")))
}

fn put(file: &mut BufWriter<File>, words: &[u64]) {
    for word in words {
        file.write_all(&word.to_le_bytes()).expect("a write failed");
    }
}

impl Files {
    fn new(requests: &str, answers: &str) -> Self {
        let (requests, answers) = (made(requests), made(answers));
        Files { requests, answers, written: 0, by_both: 0 }
    }

    fn add(&mut self, request: Request) {
        let answer = by_list(request);
        if let Some(published) = by_the_published(request) {
            assert_eq!(published, answer, "the published code and the list differ on {request:?}");
            self.by_both += 1;
        }
        put(&mut self.requests, &request);
        put(&mut self.answers, &answer);
        self.written += 1;
    }

    fn close(mut self) {
        self.requests.flush().expect("a write failed");
        self.answers.flush().expect("a write failed");
        let by_list = self.written - self.by_both;
        println!(
            "{} requests: {} answered by the published code and the list alike, {by_list} by the list alone",
            self.written, self.by_both
        );
    }
}

fn main() {
    let words: Vec<String> = std::env::args().skip(1).collect();
    let words: Vec<&str> = words.iter().map(String::as_str).collect();
    known_breaks();
    match words[..] {
        ["sample", requests, answers] => {
            let mut files = Files::new(requests, answers);
            sample().into_iter().for_each(|request| files.add(request));
            files.close();
        }
        [seed, count, requests, answers] => {
            let mut random = Random(seed.parse().expect("SEED is a number"));
            let count: u64 = count.parse().expect("COUNT is a number");
            let mut files = Files::new(requests, answers);
            boundaries().into_iter().for_each(|request| files.add(request));
            (0..count).for_each(|_| files.add(random.request()));
            files.close();
        }
        _ => panic!("bits_vectors SEED COUNT REQUESTS ANSWERS, or bits_vectors sample REQUESTS ANSWERS"),
    }
}
