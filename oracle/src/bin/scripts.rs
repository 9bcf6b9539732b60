//! Random scripts for the order program, beside an independent reading of them:
//!
//!     scripts PROGRAM COUNT [SEED]
//!     scripts PROGRAM file SCRIPT...
//!
//! The second form takes scripts that are there. Each script is played by the program, a process of its own, and what it prints is held to the reading, byte for byte. The reading is written
//! from docs/OPERATORS.md: a line is split and read here by the standard library, the marks are a plain list, and whether there is room is told by the
//! published Rust's tree.

#[path = "scripts/makes.rs"]
mod makes;
#[path = "scripts/reading.rs"]
mod reading;

use std::io::Write;
use std::process::{Command, Stdio, exit};

/// What the program prints for a script.
fn printed(program: &str, script: &[u8]) -> Vec<u8> {
    let mut child = Command::new(program)
        .stdin(Stdio::piped())
        .stdout(Stdio::piped())
        .spawn()
        .unwrap_or_else(|error| panic!("{program}: {error}"));
    let mut input = child.stdin.take().expect("it was piped");
    let script = script.to_vec();
    // a program that has read enough may be gone before all is written
    let writer = std::thread::spawn(move || drop(input.write_all(&script)));
    let output = child.wait_with_output().expect("it can be waited for");
    writer.join().expect("the writer ends");
    assert!(output.status.success(), "{program} ended with {}", output.status);
    output.stdout
}

/// Drops lines as long as the two still differ.
fn shortest(program: &str, script: &[u8]) -> Vec<u8> {
    let mut lines: Vec<&[u8]> = script.split_inclusive(|byte| *byte == b'\n').collect();
    let differs = |lines: &[&[u8]]| {
        let script = lines.concat();
        printed(program, &script) != reading::prints(&script)
    };
    let mut i = 0;
    while i < lines.len() {
        let mut fewer = lines.clone();
        fewer.remove(i);
        if differs(&fewer) {
            lines = fewer;
        } else {
            i += 1;
        }
    }
    lines.concat()
}

/// Holds what a script prints to the reading, and ends where they differ.
fn compare(program: &str, name: &str, script: &[u8]) -> Vec<u8> {
    let wanted = reading::prints(script);
    if printed(program, script) != wanted {
        let short = shortest(program, script);
        eprintln!("\nscripts: {name} prints something else; in short:\n{}", String::from_utf8_lossy(&short));
        eprintln!("is to print:\n{}", String::from_utf8_lossy(&reading::prints(&short)));
        eprintln!("and prints:\n{}", String::from_utf8_lossy(&printed(program, &short)));
        exit(1);
    }
    wanted
}

fn random_scripts(program: &str, count: usize, seed: u64) {
    let mut random = makes::Random::new(seed);
    let mut codes = [0u64; 13];
    for i in 0..count {
        if i % 500 == 0 {
            eprint!("\rscripts: {i} of {count}");
        }
        let told = compare(program, &format!("script {i} of seed {seed}"), &makes::script(&mut random, i));
        for line in told.split(|byte| *byte == b'\n').filter(|line| !line.is_empty()) {
            let code = String::from_utf8_lossy(line.split(|byte| *byte == b' ').next().expect("a code"));
            codes[code.parse::<usize>().expect("a number")] += 1;
        }
    }
    eprintln!("\rscripts: {count} of {count}");
    // every answer that a script can have was given
    for code in [0, 1, 2, 3, 4, 5, 6, 10, 12] {
        assert!(codes[code] > 0, "no line was answered {code}");
    }
    let by_code = codes.iter().enumerate().filter(|(_, n)| **n > 0).map(|(code, n)| format!("{n} of {code}"));
    let lines: u64 = codes.iter().sum();
    println!(
        "scripts: {count} scripts, {lines} lines, every byte agreed; by code: {}",
        by_code.collect::<Vec<_>>().join(", ")
    );
}

fn main() {
    let words: Vec<String> = std::env::args().skip(1).collect();
    match words.iter().map(String::as_str).collect::<Vec<_>>()[..] {
        [program, "file", ref scripts @ ..] if !scripts.is_empty() => {
            for name in scripts {
                compare(program, name, &std::fs::read(name).expect("it can be read"));
            }
            println!("scripts: {} scripts, every byte agreed", scripts.len());
        }
        [program, count] => random_scripts(program, count.parse().expect("a number"), 1),
        [program, count, seed] => {
            random_scripts(program, count.parse().expect("a number"), seed.parse().expect("a number"))
        }
        _ => panic!("scripts PROGRAM COUNT [SEED], or scripts PROGRAM file SCRIPT..."),
    }
}
