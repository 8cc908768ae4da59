// Times of the library beside its peers, in one run on one machine. `bench/run` builds and starts it.
mod characters;
mod gathered;
mod gathering;
mod library;
mod lists;
mod pages;
mod periods;
mod sessions;
mod soundness;
mod storing;
mod strikes;
mod text;
mod twin;
mod widest;

use std::process::Command;
use std::time::Instant;

// The partitions of n in decreasing lexicographic order.
fn partitions(n: u32, most: u32) -> Vec<Vec<u8>> {
    if n == 0 {
        return vec![vec![]];
    }
    let mut all = vec![];
    for part in (1..=most.min(n)).rev() {
        for rest in partitions(n - part, part) {
            let mut parts = vec![part as u8];
            parts.extend(rest);
            all.push(parts);
        }
    }
    all
}

fn class_word(parts: &[u8]) -> u32 {
    let mut left = 31;
    parts.iter().fold(0, |word, &part| {
        left -= part as u32;
        word + (1 << left)
    })
}

fn shape_word(rows: &[u8]) -> u32 {
    let mut left = 31;
    let mut word = 0;
    for (i, &row) in rows.iter().enumerate() {
        left -= 1;
        for _ in 0..row - rows.get(i + 1).copied().unwrap_or(0) {
            left -= 1;
            word += 1 << left;
        }
    }
    word
}

// The best time of some runs, in nanoseconds.
fn best(runs: u32, mut work: impl FnMut()) -> f64 {
    (0..runs).map(|_| {
        let begun = Instant::now();
        work();
        begun.elapsed().as_nanos() as f64
    }).fold(f64::INFINITY, f64::min)
}

// What a peer prints: lines of words, kept by the words in front of the numbers.
fn peer(command: &str, arguments: &[&str]) -> Vec<Vec<String>> {
    let out = Command::new(command).args(arguments).output().expect(command);
    let text = String::from_utf8_lossy(&out.stdout);
    text.lines().map(|line| line.split_whitespace().map(String::from).collect()).collect()
}

fn found(lines: &[Vec<String>], front: &[&str], at: usize) -> f64 {
    let line = lines.iter().find(|line| line.iter().zip(front).all(|(a, b)| a == b) && front.len() < line.len());
    line.expect("a peer's line")[front.len() + at].parse().expect("a number")
}

fn whole_tables(gap: &[Vec<String>], symmetrica: &[Vec<String>]) {
    println!("whole table        library        GAP (ratio)      Symmetrica (ratio)      Rust twin (ratio)");
    for degree in [10u32, 12, 14, 16] {
        let classes = partitions(degree, degree);
        let words: Vec<u32> = classes.iter().map(|parts| class_word(parts)).collect();
        let mut values = vec![0i64; 231];
        let mut sum = 0i64;
        let library = best(25, || for &word in &words {
            let count = library::column(word, &mut values);
            sum += values[count - 1];
        });
        let twin = best(25, || for parts in &classes {
            let count = twin::column(parts, &mut values);
            sum -= values[count - 1];
        });
        assert_eq!(sum, 0, "the twin and the library differ");
        let name = degree.to_string();
        let (gap, symmetrica) = (found(gap, &[&name], 0), found(symmetrica, &["table", &name], 0));
        println!(
            "degree {degree:>2}     {:>9.1} µs {:>12.0} µs ({:>5.1}) {:>12.0} µs ({:>5.1}) {:>12.1} µs ({:>4.2})",
            library / 1e3, gap / 1e3, gap / library, symmetrica / 1e3, symmetrica / library, twin / 1e3, library / twin
        );
    }
}

fn main() {
    let peers = std::env::args().nth(1).expect("the folder of the peers");
    let gap = peer("gap", &["-q", &format!("{peers}/table.g")]);
    let symmetrica = peer(&format!("{peers}/../target/symmetrica"), &[]);
    whole_tables(&gap, &symmetrica);
    characters::times(|runs, work| best(runs, work), &symmetrica);
    characters::degrees(|runs, work| best(runs, work), &symmetrica);
    let all: Vec<Vec<u8>> = (0..=16).flat_map(|n| partitions(n, n)).collect();
    let words: Vec<u32> = all.iter().map(|parts| class_word(parts)).collect();
    periods::times(|runs, work| best(runs, work), &words);
    lists::times(|runs, work| best(runs, work), &all);
    sessions::times(|runs, work| best(runs, work));
    gathered::times(|runs, work| best(runs, work));
    storing::times(|runs, work| best(runs, work));
    widest::table();
}
