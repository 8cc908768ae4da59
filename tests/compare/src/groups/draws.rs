//! What the groups draw at random: partitions and words.

use crate::model::partitions::listing;
use crate::model::words::{pack_class, pack_shape};
use crate::model::Parts;
use crate::random::Random;
use std::collections::BTreeSet;

/// A partition of this degree: parts as they come, put in order.
pub fn random_parts(random: &mut Random, degree: u8) -> Parts {
    let most = 1 + random.below(degree.max(1).into()) as u8;
    let mut parts = vec![];
    let mut left = degree;
    while left > 0 {
        let part = 1 + random.below(left.min(most).into()) as u8;
        parts.push(part);
        left -= part;
    }
    parts.sort_by(|a, b| b.cmp(a));
    parts
}

/// A partition of those listed.
pub fn listed<'a>(random: &mut Random, listing: &'a [Parts]) -> &'a Parts {
    random.pick(listing)
}

/// A word that is near a good one in most cases: any word, any below 2^30, the first digits of these, or the word of a
/// partition of degree up to 20 with up to three digits changed.
pub fn random_word(random: &mut Random) -> u32 {
    let any = random.next() as u32;
    match random.below(8) {
        0 => any,
        1 => any % (1 << 30),
        2 => (any % (1 << 30)) & (u32::MAX << random.below(32)),
        3 => any & (u32::MAX << random.below(32)),
        _ => changed(random),
    }
}

fn changed(random: &mut Random) -> u32 {
    let degree = random.below(21) as u8;
    let parts = random_parts(random, degree);
    let mut word = if random.once_in(2) { pack_shape(&parts) } else { pack_class(&parts) };
    for _ in 0..random.below(4) {
        word ^= 1 << random.below(32);
    }
    word
}

/// How many ones there is room for in front of a shape word: its other digits then lose zeros at the end, and no one.
pub fn room_in_front(word: u32) -> u32 {
    word.trailing_zeros().min(31)
}

/// A shape word with so many ones put in front of its digits.
pub fn with_ones(word: u32, ones: u32) -> u32 {
    (1 << 31) - (1 << (31 - ones)) + (word >> ones)
}

/// A shape word with ones in front, from one to as many as there is room for.
pub fn random_ones(random: &mut Random, word: u32) -> u32 {
    with_ones(word, 1 + random.below(room_in_front(word) as usize) as u32)
}

/// Words at the borders: near powers of two and sums and differences of two of them, and the words of all partitions of
/// degree up to 18, each also with one digit changed and one more or less.
pub fn border_words() -> BTreeSet<u32> {
    let powers: Vec<u32> = (0..32).map(|k| 1 << k).collect();
    let sums = powers.iter().flat_map(|a| powers.iter().flat_map(move |b| [a.wrapping_add(*b), a.wrapping_sub(*b)]));
    let partitions = (0..=18).flat_map(listing).flat_map(|parts| [pack_shape(&parts), pack_class(&parts)]);
    let centres: BTreeSet<u32> = sums.flat_map(|word| [word, !word]).chain(partitions).collect();
    let near = |word: u32| [word, word.wrapping_add(1), word.wrapping_sub(1)];
    let flipped = |word: u32| (0..32).map(move |k| word ^ (1 << k));
    centres.into_iter().flat_map(|word| near(word).into_iter().chain(flipped(word))).collect()
}
