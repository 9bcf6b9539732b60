//! What examples/host.c is to print, from a plain array of marks: no tree, no pool, and nothing of the library. The story is told once more here,
//! window, edits and small pool.

/// The frames of the window, and the storms in it: a strike in every third frame of the first, in every second frame of the other.
const FRAMES: usize = 15_000;
const STORMS: [(std::ops::Range<usize>, usize); 2] = [(4000..4300, 3), (9000..9100, 2)];

/// What a lone leaf holds, and so a pool of one node.
const LEAF_MOST: usize = 127;

enum Edit {
    Insert(usize, bool),
    Remove(usize),
}

/// Makes an edit and gives its answer: a code, a value, and the code in words.
fn edit(marks: &mut Vec<bool>, edit: &Edit) -> (u64, u64, &'static str) {
    match *edit {
        Edit::Insert(at, mark) if at <= marks.len() => {
            marks.insert(at, mark);
            (0, 0, "done")
        }
        Edit::Remove(at) if at < marks.len() => (0, marks.remove(at) as u64, "done"),
        _ => (1, 0, "no such frame"),
    }
}

/// The figure, or why there is none.
fn figure(value: Option<usize>) -> String {
    value.map_or("(not so many strikes)".to_string(), |value| value.to_string())
}

fn tell(what: &str, marks: &[bool], lost: usize) {
    let strikes: Vec<usize> = (0..marks.len()).filter(|&frame| marks[frame]).collect();
    let quiet = strikes.windows(2).map(|pair| pair[1] - pair[0] - 1).max().unwrap_or(0);
    println!(
        "{what}: {} frames, strikes {}; the first in frame {}, the 10th in frame {}; longest quiet {quiet}; lost {lost}",
        marks.len(),
        strikes.len(),
        figure(strikes.first().copied()),
        figure(strikes.get(9).copied())
    );
}

fn main() {
    let strikes_in = |frame| STORMS.iter().any(|(storm, each)| storm.contains(&frame) && frame % each == 0);
    let mut marks: Vec<bool> = (0..FRAMES).map(strikes_in).collect();
    tell("as recorded", &marks, 0);

    let edits = [
        Edit::Insert(4005, true),
        Edit::Insert(9050, true),
        Edit::Insert(12000, false),
        Edit::Remove(4000),
        Edit::Remove(20000),
    ];
    for (number, each) in edits.iter().enumerate() {
        let (code, value, words) = edit(&mut marks, each);
        println!("edit {number}: {code} {value}, {words}");
    }
    tell("after the edits", &marks, 0);

    let (mut small, mut withdrawn, mut lost, frames) = (Vec::new(), 0, 0, 200);
    for frame in 0..frames {
        if small.len() < LEAF_MOST {
            small.push(frame % 2 == 1);
        } else {
            lost += 1;
        }
        if frame % 20 == 19 {
            small.remove(3);
            withdrawn += 1;
        }
    }
    tell("a busy storm", &small, lost);
    println!("frames taken {frames} = held {} + withdrawn {withdrawn} + lost {lost}", small.len());
}
