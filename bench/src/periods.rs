// The period of a class: the library beside a plain Rust twin, which judges the word alike and goes by Euclid's
// algorithm.
use crate::library;
use std::hint::black_box;

const CALLS: usize = 256;

fn greatest_common(a: u64, b: u64) -> u64 {
    if b == 0 { a } else { greatest_common(b, a % b) }
}

// Takes the first one out of what is left of a class word, and gives its digit.
fn next(rest: &mut u32) -> u32 {
    let one = rest.leading_zeros();
    *rest -= 1 << (31 - one);
    one
}

fn is_good(word: u32) -> bool {
    let (mut rest, mut at, mut last) = (word, 0, 31);
    while rest != 0 {
        let one = next(&mut rest);
        if last < one - at {
            return false;
        }
        (last, at) = (one - at, one);
    }
    at <= 16
}

fn period(word: u32) -> i64 {
    if 1 << 31 <= word || !is_good(word) {
        return 0;
    }
    let (mut rest, mut at, mut period) = (word, 0, 1u64);
    while rest != 0 {
        let one = next(&mut rest);
        let part = (one - at) as u64;
        period = period / greatest_common(period, part) * part;
        at = one;
    }
    period as i64
}

// The mean and the worst time of a call over all classes.
fn taken(best: &impl Fn(u32, &mut dyn FnMut()) -> f64, classes: &[u32], call: impl Fn(u32) -> i64) -> (f64, f64) {
    let times: Vec<f64> = classes.iter().map(|&class| {
        best(25, &mut || for _ in 0..CALLS {
            black_box(call(black_box(class)));
        }) / CALLS as f64
    }).collect();
    (times.iter().sum::<f64>() / times.len() as f64, times.iter().copied().fold(0.0, f64::max))
}

pub fn times(best: impl Fn(u32, &mut dyn FnMut()) -> f64, classes: &[u32]) {
    assert!(classes.iter().all(|&class| library::class_period(class) == period(class)), "the periods differ");
    let (mean, worst) = taken(&best, classes, library::class_period);
    let (twin, twins_worst) = taken(&best, classes, period);
    println!("period of a class  average        worst          Rust twin average (ratio)  worst (ratio)");
    println!(
        "degrees 0 to 16 {:>9.1} ns {:>12.1} ns {:>12.1} ns ({:>5.2}) {:>14.1} ns ({:>5.2})",
        mean, worst, twin, mean / twin, twins_worst, worst / twins_worst
    );
}
