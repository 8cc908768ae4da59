// Full pages and their slip.
use crate::library::Slip;
use crate::soundness::{GATHERED, PAGE_LIMIT, PLAIN};
use crate::{class_word, partitions, shape_word};
use std::cmp::Reverse;
use std::collections::HashSet;

// How many chains the library puts the lines of a full page on.
const CHAINS: usize = 4093;

pub fn slip() -> Slip {
    let (shape, class_word) = (shape_word(&[16]), class_word(&[16]));
    Slip { shape, class_word, settled: 0, lines: PAGE_LIMIT as u64, steps: 0, mode: PLAIN }
}

pub fn gathered_slip() -> Slip {
    Slip { mode: GATHERED, ..slip() }
}

// Every line is (4,3,1) on (5,2,1).
pub fn equal() -> Vec<u64> {
    vec![u64::from(shape_word(&[4, 3, 1])) << 32 | u64::from(class_word(&[5, 2, 1])); PAGE_LIMIT]
}

// Lines drawn by a fixed generator from all shapes and classes of degree 8: alike lines would let the processor guess
// how each goes on.
pub fn drawn(seed: u64) -> Vec<u64> {
    drawn_of(&[8], seed)
}

// The same of the degrees 1 to 12, each as often: they have many more different words.
pub fn mixed(seed: u64) -> Vec<u64> {
    drawn_of(&[1, 2, 3, 4, 5, 6, 7, 8, 9, 10, 11, 12], seed)
}

// Different lines of degree 12, with no sign: they have few different words.
pub fn different(seed: u64) -> Vec<u64> {
    all_different(&[12], seed)
}

// The same of the degrees 1 to 12.
pub fn different_mixed(seed: u64) -> Vec<u64> {
    all_different(&[1, 2, 3, 4, 5, 6, 7, 8, 9, 10, 11, 12], seed)
}

// As many pages are drawn as it takes to have a page of different lines.
fn all_different(degrees: &[u32], seed: u64) -> Vec<u64> {
    let mut known = HashSet::new();
    let drawn = (0..).flat_map(|more| drawn_of(degrees, seed + (more << 32))).map(|line| line % (1 << 63));
    drawn.filter(|&line| known.insert(line)).take(PAGE_LIMIT).collect()
}

// Different lines of degrees 12 and 13 that take the library longest to tell apart, in another order for each seed. It
// compares each line to those before it on its chain, and words with one remainder are on one chain: these are of the
// fullest chains.
pub fn chained(seed: u64) -> Vec<u64> {
    let mut chains = vec![vec![]; CHAINS];
    for listing in [12, 13].map(words) {
        for (shape, class) in listing.iter().flat_map(|one| listing.iter().map(|other| (one.0, other.1))) {
            let line = u64::from(shape) << 32 | u64::from(class);
            chains[line as usize % CHAINS].push(line);
        }
    }
    chains.sort_by_key(|chain| Reverse(chain.len()));
    let mut lines: Vec<u64> = chains.into_iter().flatten().take(PAGE_LIMIT).collect();
    lines.sort_by_key(|line| line.wrapping_mul((2 * seed + 1).wrapping_mul(0x9E37_79B9_7F4A_7C15)));
    lines
}

// Coefficients for a full page, from -3 to 3 without 0; for lines of degree 13, of which 16! has room for few, only
// signs. The last one of a class word stands at its degree.
pub fn coefficients(page: &[u64]) -> Vec<i64> {
    let degree = |line: u64| 31 - (line as u32).trailing_zeros();
    let all = page.iter().zip([1, -1, 2, -3, 3, -2, 1i64].into_iter().cycle());
    all.map(|(&line, number)| if degree(line) > 12 { number.signum() } else { number }).collect()
}

// The shape words and class words of a degree.
fn words(degree: u32) -> Vec<(u32, u32)> {
    partitions(degree, degree).into_iter().map(|parts| (shape_word(&parts), class_word(&parts))).collect()
}

fn drawn_of(degrees: &[u32], seed: u64) -> Vec<u64> {
    let listings: Vec<Vec<(u32, u32)>> = degrees.iter().map(|&degree| words(degree)).collect();
    let mut state = seed;
    let mut drawn = |below: usize| {
        state = state.wrapping_mul(6_364_136_223_846_793_005).wrapping_add(1_442_695_040_888_963_407);
        (state >> 33) as usize % below
    };
    let mut line = |_| {
        let (sign, listing) = (drawn(2) as u64, &listings[drawn(listings.len())]);
        let (shape, class) = (listing[drawn(listing.len())].0, listing[drawn(listing.len())].1);
        sign << 63 | u64::from(shape) << 32 | u64::from(class)
    };
    (0..PAGE_LIMIT).map(&mut line).collect()
}
