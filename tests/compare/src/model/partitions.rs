//! Partitions as lists of parts: the listing, and what a shape or a class tells.

use super::Parts;
use std::collections::BTreeMap;

pub fn degree(parts: &[u8]) -> u32 {
    parts.iter().map(|&part| u32::from(part)).sum()
}

/// Neither a 0 nor a part above the one before it.
pub fn is_partition(parts: &[u8]) -> bool {
    !parts.contains(&0) && parts.windows(2).all(|two| two[0] >= two[1])
}

/// The partitions of n into parts of at most `most`, in decreasing lexicographic order.
pub fn bounded(n: u8, most: u8) -> Vec<Parts> {
    if n == 0 {
        return vec![vec![]];
    }
    let mut all = vec![];
    for first in (1..=n.min(most)).rev() {
        for rest in bounded(n - first, first) {
            all.push([vec![first], rest].concat());
        }
    }
    all
}

/// The partitions of n, in decreasing lexicographic order.
pub fn listing(n: u8) -> Vec<Parts> {
    bounded(n, n)
}

/// Rows and columns exchanged.
pub fn transposed(rows: &[u8]) -> Parts {
    let widest = rows.first().copied().unwrap_or(0);
    (1..=widest).map(|column| rows.iter().filter(|&&row| row >= column).count() as u8).collect()
}

pub fn factorial(n: u32) -> i128 {
    (1..=i128::from(n)).product()
}

/// How often each part length occurs.
fn occurrences(parts: &[u8]) -> BTreeMap<u8, u32> {
    let mut times = BTreeMap::new();
    for &part in parts {
        *times.entry(part).or_insert(0) += 1;
    }
    times
}

/// Plus when the number of even parts is even.
pub fn sign(class: &[u8]) -> i64 {
    if class.iter().filter(|&part| part % 2 == 0).count() % 2 == 0 {
        1
    } else {
        -1
    }
}

/// n! divided, over each part length p occurring t times, by p^t times t!.
pub fn size(class: &[u8]) -> i64 {
    let divisor: i128 = occurrences(class).iter().map(|(&p, &t)| i128::from(p).pow(t) * factorial(t)).product();
    i64::try_from(factorial(degree(class)) / divisor).unwrap()
}

/// After how many times a permutation of this class is first back at the start, found by repeating one.
pub fn period(class: &[u8]) -> i64 {
    let mut next = vec![];
    for part in class.iter().map(|&part| usize::from(part)) {
        let start = next.len();
        next.extend((0..part).map(|i| start + (i + 1) % part));
    }
    let mut now = next.clone();
    let mut times = 1;
    while now.iter().enumerate().any(|(element, &at)| at != element) {
        now.iter_mut().for_each(|at| *at = next[*at]);
        times += 1;
    }
    times
}

/// The class without one cycle of this length, if it has one.
pub fn without(class: &[u8], cycle: u64) -> Option<Parts> {
    let at = class.iter().position(|&part| u64::from(part) == cycle)?;
    let mut rest = class.to_vec();
    rest.remove(at);
    Some(rest)
}

/// What striking a cycle from each row counts, top row first: the sign and the rows left, where it does not count zero.
pub fn strikes(rows: &[u8], cycle: u8) -> Vec<(i64, Parts)> {
    let list: Vec<i64> = rows.iter().map(|&row| i64::from(row)).collect();
    let struck = (0..rows.len()).map(|at| {
        let mut list = list.clone();
        list[at] -= i64::from(cycle);
        counted(list)
    });
    struck.flatten().collect()
}

/// Rules 1, 2 and 3 of 1954; zero parts at the end are dropped.
fn counted(mut list: Vec<i64>) -> Option<(i64, Parts)> {
    let mut sign = 1;
    while let Some(at) = list.windows(2).position(|two| two[0] < two[1]) {
        let (a, b) = (list[at], list[at + 1]);
        if a + 1 == b {
            return None;
        }
        (list[at], list[at + 1]) = (b - 1, a + 1);
        sign = -sign;
    }
    if list.last().is_some_and(|&part| part < 0) {
        return None;
    }
    Some((sign, list.into_iter().filter(|&part| part > 0).map(|part| part as u8).collect()))
}
