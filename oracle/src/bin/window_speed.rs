//! What the calls and the orders cost, ours by libspelunzone.a and the published Rust beside it, on the same marks and the same orders in one run.
//! Beside the check, which the Rust has not, stands one in C. Each turn draws its places anew, so that nothing can learn them; what is printed is
//! the middle of the turns, in nanoseconds for a call or an order. That the answers agree is asserted, and no speed is. The growth is drawn too,
//! into the file that is named.

#[path = "window_speed/in_c.rs"]
mod in_c;
#[path = "window_speed/measure.rs"]
mod measure;
#[path = "window_speed/plot.rs"]
mod plot;
#[path = "window_speed/windows.rs"]
mod windows;

use in_c::{Verdicts, check_in_c};
use measure::{Progress, Random, middle, timed, timed_again};
use oracle::Vector;
use plot::{Line, picture};
use spelunzone::{Order, build, check, run, value_words, values};
use std::hint::black_box;
use windows::{LISTS, MOST_BUILT, Times, Windows, blocks, quiet_by_the_rust};

/// The window that is looked at closely, and those by which the growth is seen.
const LENGTH: usize = 15_000;
const LENGTHS: [usize; 6] = [100, 1_000, 5_000, 15_000, 30_000, 60_000];
const TURNS: usize = 200;

/// Ours and what stands beside it: the Rust's, or for the check the one in C.
type Pair = [f64; 2];

type Drawn = fn(&Windows, &mut Random) -> Vec<Order>;

// An insert and a remove are measured in the same turns, so that the window keeps its length.
fn closely(marks: &[u64], random: &mut Random, progress: &mut Progress) -> [(&'static str, Times); 6] {
    let kinds: [(&str, Drawn); 5] = [
        ("access", Windows::accesses),
        ("rank", Windows::ranks),
        ("select", Windows::selects),
        ("insert", Windows::inserts),
        ("remove", Windows::removes),
    ];
    let mut windows = Windows::new(marks, LENGTH, false, random);
    let mut turns = [const { Vec::new() }; 6];
    for turn in 0..TURNS {
        for (kind, (_, drawn)) in kinds.iter().enumerate() {
            let orders = drawn(&windows, random);
            turns[kind].push(windows.serve(&orders));
        }
        // a thousand of these are asked in each twentieth turn only, since every one looks at all marks
        if turn % 20 == 0 {
            turns[5].push(windows.serve(&[Order::LongestQuiet; windows::ORDERS]));
        }
        progress.tell(&format!("{LENGTH} marks, every list"), turn, TURNS);
    }
    let mut turns = turns.into_iter().map(middle);
    let names = kinds.map(|(name, _)| name).into_iter().chain(["quiet"]);
    names.zip(&mut turns).collect::<Vec<_>>().try_into().unwrap()
}

// What a flight task does every 2 ms: an insert and a rank, in one call.
fn frames(marks: &[u64], random: &mut Random, progress: &mut Progress) -> Pair {
    let mut windows = Windows::new(marks, LENGTH, false, random);
    let mut turns = Vec::new();
    for turn in 0..TURNS {
        turns.push(windows.serve_frames(random));
        progress.tell(&format!("{LENGTH} marks, frames"), turn, TURNS);
    }
    middle(turns)
}

struct Growth {
    orders: [Pair; 4],
    /// with one mark in two a strike
    quiet: Pair,
    /// with one in 64
    sparse: Pair,
    build: Pair,
    values: Pair,
    check: Pair,
}

// Orders in lists of a thousand; above what can be built, every turn starts from the same window.
fn orders(start: &Windows, random: &mut Random, progress: &mut Progress) -> [Pair; 4] {
    let kinds: [Drawn; 4] = [Windows::accesses, Windows::ranks, Windows::selects, Windows::edits];
    let mut windows = start.clone();
    let mut turns = [const { Vec::new() }; 4];
    for turn in 0..TURNS / 4 {
        for (kind, drawn) in kinds.iter().enumerate() {
            let times = windows.serve(&drawn(&windows, random));
            turns[kind].push([times[LISTS.len() - 1], times[LISTS.len()]]);
        }
        if start.length > MOST_BUILT {
            windows = start.clone();
        }
        progress.tell(&format!("{} marks, orders", start.length), turn, TURNS / 4);
    }
    turns.map(middle)
}

// The calls, and the longest quiet by itself, each once on a window that was just built of new marks, since what they do depends on the marks. A
// build by the Rust lets the vector go that it replaces. The values and the longest quiet have tested the pool before the check is timed, so both
// checks are made twice before.
fn calls(length: usize, sparse: bool, random: &mut Random, progress: &mut Progress) -> [f64; 8] {
    let (mut out, mut answer) = (vec![0; value_words(length)], [0; 2]);
    let mut windows = Windows::built(&vec![0; value_words(length)], length.min(MOST_BUILT));
    let mut turns = Vec::new();
    for turn in 0..TURNS {
        let marks = random.marks(length, sparse);
        let (built, blocks) = (windows.length, blocks(&marks, windows.length));
        let (mut pool, mut vector) = (&mut windows.pools[0], &mut windows.vector);
        let build = timed(|| build(black_box(pool), &marks, built as u64));
        let build_rust = timed(|| *vector = Vector::new(black_box(blocks), built));
        let mut longer = (length > built).then(|| Windows::new(&marks, length, sparse, random));
        if let Some(longer) = &mut longer {
            (pool, vector) = (&mut longer.pools[0], &mut longer.vector);
        }
        let values_rust = timed(|| vector.values());
        let values = timed(|| values(black_box(pool), &mut out));
        let quiet_rust = timed(|| quiet_by_the_rust(black_box(vector)));
        let quiet = timed(|| run(black_box(pool), &Order::LongestQuiet.words(), &mut answer));
        let check = timed_again(|| check(black_box(&*pool)));
        let check_c = timed_again(|| check_in_c(black_box(&*pool)));
        assert_eq!(answer, [0, quiet_by_the_rust(vector)]);
        turns.push([quiet, quiet_rust, build, build_rust, values, values_rust, check, check_c]);
        progress.tell(&format!("{length} marks, calls"), turn, TURNS);
    }
    middle(turns)
}

fn growth(marks: &[u64], length: usize, random: &mut Random, progress: &mut Progress) -> Growth {
    let orders = orders(&Windows::new(marks, length, false, random), random, progress);
    let [quiet, quiet_rust, build, build_rust, values, values_rust, check, check_c] =
        calls(length, false, random, progress);
    let [sparse, sparse_rust, ..] = calls(length, true, random, progress);
    Growth {
        orders,
        quiet: [quiet, quiet_rust],
        sparse: [sparse, sparse_rust],
        build: [build, build_rust],
        values: [values, values_rust],
        check: [check, check_c],
    }
}

fn print_closely(rows: [(&str, Times); 6], frame: Pair, calls: &Growth) {
    println!("Nanoseconds at {LENGTH} marks, and how many times the Rust's.\n");
    println!("{:>16}{:>18}{:>18}{:>18}{:>12}", "", "lists of 1", "lists of 16", "lists of 1,000", "the Rust");
    for (name, times) in rows {
        let rust = times[LISTS.len()];
        let ours: String =
            times[..LISTS.len()].iter().map(|time| format!("{time:>10.1} {:>6.2}x", time / rust)).collect();
        println!("{name:>16}{ours}{rust:>12.1}");
    }
    for (name, [ours, rust]) in [("one call a frame", frame), ("build", calls.build), ("values", calls.values)] {
        println!("{name:>16}{ours:>10.1} {:>6.2}x{:>48.1}", ours / rust, rust);
    }
    let [check, in_c] = calls.check;
    println!("{:>16}{check:>10.1}\n{:>16}{in_c:>10.1}\n", "check", "check in C");
}

/// A row of the growth: its name in the table and in the picture, its colour there, and what it tells.
struct Row {
    short: &'static str,
    name: &'static str,
    colour: &'static str,
    pair: fn(&Growth) -> Pair,
}

const fn row(short: &'static str, name: &'static str, colour: &'static str, pair: fn(&Growth) -> Pair) -> Row {
    Row { short, name, colour, pair }
}

const ORDERS: [Row; 4] = [
    row("access", "access", "#1b5fa8", |growth| growth.orders[0]),
    row("rank", "rank", "#b3440f", |growth| growth.orders[1]),
    row("select", "select", "#2e7d32", |growth| growth.orders[2]),
    row("edit", "edit", "#8e24aa", |growth| growth.orders[3]),
];
const CALLS: [Row; 4] = [
    row("quiet", "longest quiet", "#1b5fa8", |growth| growth.quiet),
    row("sparse", "quiet, sparse", "#00796b", |growth| growth.sparse),
    row("build", "build", "#b3440f", |growth| growth.build),
    row("values", "values", "#2e7d32", |growth| growth.values),
];
const CHECK: Row = row("check", "check", "#8e24aa", |growth| growth.check);

fn print_row(row: &Row, beside: &str, all: &[Growth]) {
    let line = |cell: fn(Pair) -> String| all.iter().map(|growth| cell((row.pair)(growth))).collect::<String>();
    println!("{:>8}{:>8}{}", row.short, "ours", line(|[ours, _]| format!("{ours:>12.1}")));
    println!("{beside:>16}{}", line(|[_, other]| format!("{other:>12.1}")));
    println!("{:>16}{}", "", line(|[ours, other]| format!("{:>11.2}x", ours / other)));
}

fn print_growth(all: &[Growth]) {
    println!(
        "How they grow, orders in lists of 1,000: ours, the Rust's, and how many times that; the check beside that in C.\n"
    );
    println!("{:>16}{}", "marks", LENGTHS.map(|length| format!("{length:>12}")).concat());
    ORDERS.iter().chain(&CALLS).for_each(|row| print_row(row, "Rust", all));
    print_row(&CHECK, "in C", all);
    println!();
}

fn lines(row: &Row, beside: &str, all: &[Growth]) -> [Line; 2] {
    [(row.name.to_string(), 0), (format!("{}{beside}", row.name), 1)].map(|(name, which)| Line {
        name,
        colour: row.colour,
        dashed: which == 1,
        times: all.iter().map(|growth| (row.pair)(growth)[which]).collect(),
    })
}

fn draw_growth(all: &[Growth]) -> String {
    let by_the_rust = |rows: &[Row]| rows.iter().flat_map(|row| lines(row, ", Rust", all)).collect::<Vec<_>>();
    let title = |what: &str| format!("{what}: nanoseconds by marks, on {}", std::env::consts::ARCH);
    let orders = title("An order, in lists of 1,000") + " (dashed: the Rust)";
    let calls = title("A call") + " (dashed: the Rust, and the check in C)";
    let of_calls = by_the_rust(&CALLS).into_iter().chain(lines(&CHECK, " in C", all)).collect();
    picture(&LENGTHS, &[(orders, by_the_rust(&ORDERS)), (calls, of_calls)])
}

const NOTES: &str = "\
A pool of 1,023 nodes; the middle of 200 turns, of 50 for the orders that grow. A list's pool is tested once, which is counted in, and so is the
test that values makes; the Rust has none. It has no longest quiet either: beside it stands values and a scan. Marks are strikes one in two, in the
row 'sparse', which is the longest quiet too, one in 64. The first table asks it a thousand times of the same marks, which a processor learns in
part, the second once of new ones. An edit is an insert or a remove, in turn. A frame is an insert and a rank, by ours in one list of two; a turn is
a thousand frames without a pause, so that the pool stays in the cache, and after it the marks are taken out again. At 60,000 marks the build is
that of 32,768, the most that a build puts into the pool, and the rest was put in evenly. Both checks are timed the third time on the same pool.";

fn main() {
    let (mut random, mut progress) = (Random(88172645463325252), Progress::new());
    println!("{}\n", Verdicts::compared(&mut random));
    let marks = random.marks(60_000, false);
    let close = closely(&marks, &mut random, &mut progress);
    let frame = frames(&marks, &mut random, &mut progress);
    let all: Vec<Growth> = LENGTHS.iter().map(|&length| growth(&marks, length, &mut random, &mut progress)).collect();
    progress.end();
    print_closely(close, frame, &all[3]);
    print_growth(&all);
    println!("{NOTES}");
    if let Some(file) = std::env::args().nth(1) {
        std::fs::write(&file, draw_growth(&all)).expect("the picture is written");
    }
}
