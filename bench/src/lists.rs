// Lists of shapes moved to the other form: the library beside a plain Rust twin, which goes the same way: it judges all
// words by their leading zeros, and then moves each.
use crate::library;
use crate::{class_word, shape_word};

const LIST_LIMIT: usize = 4096;

// How many lists there are.
const LISTS: usize = 32;

fn class_refusal(word: u32) -> u32 {
    if 1 << 31 <= word {
        return 3;
    }
    let (mut rest, mut at, mut last) = (word, 0, 31);
    while rest != 0 {
        let one = rest.leading_zeros();
        if last < one - at {
            return 3;
        }
        (last, at) = (one - at, one);
        rest -= 1 << (31 - one);
    }
    if 16 < at { 4 } else { 0 }
}

fn shape_refusal(word: u32) -> u32 {
    if 1 << 30 <= word {
        return 1;
    }
    let (mut rest, mut at, mut zeros, mut pairs) = (word, 0, 0, 0);
    while rest != 0 {
        let one = rest.leading_zeros();
        zeros += one - at - 1;
        pairs += zeros;
        at = one;
        rest -= 1 << (31 - one);
    }
    if 16 < pairs { 2 } else { 0 }
}

fn new_word(word: u32) -> u32 {
    if word == 0 {
        return 0;
    }
    let (mut rest, mut at, mut last, mut left, mut bits) = (word, 0, word.leading_zeros(), 31, 1 << 31);
    while rest != 0 {
        let one = rest.leading_zeros();
        left -= last - (one - at) + 1;
        bits -= 1 << left;
        (last, at) = (one - at, one);
        rest -= 1 << (31 - one);
    }
    bits - (1 << (left - last))
}

fn old_word(word: u32) -> u32 {
    if word == 0 {
        return 0;
    }
    let mut rest: u32 = (1 << 31) - (1 << word.trailing_zeros()) - word;
    let (mut at, mut length, mut left, mut bits) = (0, word.count_ones(), 31, 0);
    while rest != 0 {
        let one = rest.leading_zeros();
        length -= one - at - 1;
        left -= length;
        bits += 1 << left;
        at = one;
        rest -= 1 << (31 - one);
    }
    bits
}

// What refuses the list, and the index of the word.
fn moved(given: &[u32], lent: &mut [u32], refusal: impl Fn(u32) -> u32, other: impl Fn(u32) -> u32) -> (u32, u64) {
    if given.len() != lent.len() || LIST_LIMIT < given.len() {
        return (20, 0);
    }
    for (index, &word) in given.iter().enumerate() {
        let refused = refusal(word);
        if refused != 0 {
            return (refused, index as u64);
        }
    }
    for (to, &word) in lent.iter_mut().zip(given) {
        *to = other(word);
    }
    (0, 0)
}

pub fn from_old(old: &[u32], new: &mut [u32]) -> (u32, u64) {
    moved(old, new, class_refusal, new_word)
}

pub fn to_old(new: &[u32], old: &mut [u32]) -> (u32, u64) {
    moved(new, old, shape_refusal, old_word)
}

type Move = fn(&[u32], &mut [u32]) -> (u32, u64);

// The time of a move for each word, on the lists in turn: one list over and over would let the processor guess how each
// word goes on.
fn taken(best: &impl Fn(u32, &mut dyn FnMut()) -> f64, call: Move, given: &[Vec<u32>], expected: &[Vec<u32>]) -> f64 {
    let mut lent = vec![0; LIST_LIMIT];
    for (given, expected) in given.iter().zip(expected) {
        assert_eq!(call(given, &mut lent), (0, 0));
        assert!(&lent == expected, "a list is moved to another");
    }
    let time = best(25, &mut || given.iter().for_each(|given| assert_eq!(call(given, &mut lent), (0, 0))));
    time / (given.len() * LIST_LIMIT) as f64
}

// Lists of partitions drawn by a fixed generator from all of degrees 0 to 16, and from those of degree 16 alone.
pub fn times(best: impl Fn(u32, &mut dyn FnMut()) -> f64, partitions: &[Vec<u8>]) {
    let largest: Vec<Vec<u8>> = partitions.iter().filter(|parts| parts.iter().sum::<u8>() == 16).cloned().collect();
    println!("list of 4,096 shapes  library per word     Rust twin per word (ratio)");
    for (name, from) in [("degrees 0 to 16", partitions), ("degree 16", &largest)] {
        let mut state = 5u64;
        let mut drawn = || {
            state = state.wrapping_mul(6_364_136_223_846_793_005).wrapping_add(1_442_695_040_888_963_407);
            &from[(state >> 33) as usize % from.len()]
        };
        let lists: Vec<Vec<&Vec<u8>>> = (0..LISTS).map(|_| (0..LIST_LIMIT).map(|_| drawn()).collect()).collect();
        let packed = |pack: fn(&[u8]) -> u32| -> Vec<Vec<u32>> {
            lists.iter().map(|list| list.iter().map(|parts| pack(parts)).collect()).collect()
        };
        let (old, new) = (packed(class_word), packed(shape_word));
        let moves: [(&str, Move, Move, &[Vec<u32>], &[Vec<u32>]); 2] = [
            ("from old", library::shapes_from_old, from_old, &old, &new),
            ("to old", library::shapes_to_old, to_old, &new, &old),
        ];
        for (way, call, twin, given, expected) in moves {
            let (ours, twins) = (taken(&best, call, given, expected), taken(&best, twin, given, expected));
            let row = format!("{way}, {name}");
            println!("{row:<25} {ours:>5.1} ns {twins:>21.1} ns ({:.2})", ours / twins);
        }
    }
}
