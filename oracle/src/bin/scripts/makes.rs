//! Random scripts: sound lines, and lines that are wrong in every way that a line can be.

pub struct Random(u64);

impl Random {
    pub fn new(seed: u64) -> Self {
        Random(seed.wrapping_mul(0x9e37_79b9_7f4a_7c15) | 1)
    }

    fn word(&mut self) -> u64 {
        self.0 ^= self.0 << 13;
        self.0 ^= self.0 >> 7;
        self.0 ^= self.0 << 17;
        self.0
    }

    pub fn below(&mut self, n: usize) -> usize {
        (self.word() >> 11) as usize % n
    }

    fn one_in(&mut self, n: usize) -> bool {
        self.below(n) == 0
    }

    fn one_of<T: Copy>(&mut self, list: &[T]) -> T {
        list[self.below(list.len())]
    }
}

/// A number near what a window can have, or far from it, sometimes with zeros in front.
fn number(random: &mut Random, near: usize) -> String {
    let value = match random.below(20) {
        0 => random.word() % 1_000_000_000_000_000_000,
        1 => 999_999_999_999_999_999,
        2 => (1 << 32) + random.below(4) as u64,
        _ => random.below(near + 3) as u64,
    };
    let zeros = if random.one_in(10) { random.below(4) } else { 0 };
    let text = "0".repeat(zeros) + &value.to_string();
    if text.len() > 18 { value.to_string() } else { text }
}

fn words(random: &mut Random, count: usize) -> String {
    (0..count)
        .map(|_| match random.below(4) {
            0 => " 0000000000000000".to_string(),
            1 => " ffffffffffffffff".to_string(),
            _ => format!(" {:016x}", random.word()),
        })
        .collect()
}

fn bit(random: &mut Random) -> String {
    random.one_of(&["0", "1", "0", "1", "0", "1", "00", "01", "2", "10", "000000000000000001"]).to_string()
}

/// A sound line, or one that is sound but for its bit.
fn sound(random: &mut Random, near: usize) -> String {
    match random.below(24) {
        0 => format!(
            "pool {}",
            random.one_of(&["1", "2", "3", "4", "5", "9", "31", "1023", "0", "1024", "0001", "100000"])
        ),
        1 | 2 => {
            let count = random.below(near / 64 + 2);
            let text = words(random, count);
            format!("load {}{text}", number(random, 64 * count))
        }
        3..=9 => format!("ins {} {}", number(random, near), bit(random)),
        10..=13 => format!("rem {}", number(random, near)),
        14 | 15 => format!("get {}", number(random, near)),
        16 | 17 => format!("rank {} {}", bit(random), number(random, near)),
        18..=20 => format!("sel {} {}", bit(random), number(random, near)),
        21 => "gap".to_string(),
        _ => "dump".to_string(),
    }
}

/// A line that is wrong, or was sound and has been spoiled somewhere (and may be sound still).
fn spoiled(random: &mut Random, near: usize) -> Vec<u8> {
    let text = sound(random, near);
    match random.below(16) {
        0 => Vec::new(),
        1 => text.replacen(' ', "  ", 1).into_bytes(),
        2 => format!(" {text}").into_bytes(),
        3 => format!("{text} ").into_bytes(),
        4 => format!("{text}\r").into_bytes(),
        5 => text.replacen(' ', "\t", 1).into_bytes(),
        6 => text.to_uppercase().into_bytes(),
        7 => format!("{text} {}", number(random, near)).into_bytes(),
        8 => text.rsplit_once(' ').map_or("get", |(front, _)| front).as_bytes().to_vec(),
        9 => format!("get {:019}", random.below(near + 1)).into_bytes(),
        10 => format!("ins {} 2", random.below(near + 1)).into_bytes(),
        11 => format!("get {}{}", random.one_of(&["-", "+", "0x", "", " "]), random.below(near + 1)).into_bytes(),
        12 => {
            let hex = format!("{:016x}", random.word());
            let word = random
                .one_of(&[&hex[1..], &hex.to_uppercase(), &format!("{hex}0"), &hex.replace('a', "g"), ""])
                .to_string();
            format!("load 3 {word}").into_bytes()
        }
        13 => random
            .one_of(&[
                "poo 3", "pools 3", "pool", "load", "gap 1", "dump 0", "ins", "rank 1", "sel", "gapp", "du mp",
                "pool 3 4",
            ])
            .as_bytes()
            .to_vec(),
        14 => (0..random.below(12)).map(|_| random.below(256) as u8).filter(|byte| *byte != b'\n').collect(),
        _ => {
            let mut bytes = text.into_bytes();
            let at = random.below(bytes.len());
            bytes[at] = random.below(256) as u8;
            bytes.into_iter().filter(|byte| *byte != b'\n').collect()
        }
    }
}

pub fn script(random: &mut Random, i: usize) -> Vec<u8> {
    if i % 100 == 0 {
        // inputs at the limit, of one malformed line or of many lines
        let length = random.one_of(&[0, 1, 16383, 16384, 16385, 16386, 20000, 70000]);
        let line = random.one_of(&["x", "\n", "pool 1\n", "gap\n", "dump\n", "pool 1\ndump\n"]);
        return line.bytes().cycle().take(length).collect();
    }
    let near = random.one_of(&[1, 40, 64, 70, 127, 130, 200, 300, 1000]);
    let lines = random.below(60) + 1;
    let bad = random.one_of(&[2, 5, 20, 1000]);
    let mut script = Vec::new();
    if !random.one_in(10) {
        let nodes = random.one_of(&[1, 2, 3, 4, 5, 7, 20, 1023]);
        script.extend(format!("pool {nodes}\n").bytes());
    }
    if random.one_in(2) {
        // leaves filled to the brim, so that an insert splits or finds no room
        let count = random.below(near / 64 + 2);
        let text = words(random, count + 1);
        script.extend(format!("load {}{text}\n", 64 * count + random.below(65)).bytes());
        let at = random.below(near);
        for _ in 0..random.below(80) {
            script.extend(format!("ins {at} {}\n", random.below(2)).bytes());
        }
    }
    for _ in 0..lines {
        let line = if random.one_in(bad) { spoiled(random, near) } else { sound(random, near).into_bytes() };
        script.extend(line);
        script.push(b'\n');
    }
    if random.one_in(4) {
        script.pop();
    }
    script
}
