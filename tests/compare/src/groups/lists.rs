//! Words from part lists: a million lists, most of them near partitions of degrees about 16.

use super::draws::random_parts;
use super::{valued, Tally};
use crate::calls;
use crate::lent::leaves;
use crate::model::characters::Characters;
use crate::model::words::{class_word, shape_word};
use crate::model::Parts;
use crate::random::Random;
use crate::report::Group;

const LISTS: usize = 1_000_000;

pub fn run(characters: &Characters, group: &mut Group) {
    let mut tally = Tally::default();
    let mut random = Random(3);
    let known = characters.listings.iter().flatten().cloned();
    let drawn = (0..LISTS).map(|_| drawn(&mut random));
    for parts in known.chain(borders()).chain(drawn) {
        let shape = valued(shape_word(&parts).map(u64::from));
        let class = valued(class_word(&parts).map(u64::from));
        tally.count(shape.1);
        tally.count(class.1);
        group.same(calls::shape_word(&parts), leaves(shape, &parts), || format!("shape {parts:?}"));
        group.same(calls::class_word(&parts), leaves(class, &parts), || format!("class {parts:?}"));
    }
    group.same(tally.lacking(&[0, 2, 3, 4], 1000), vec![], || "refusals hardly met".to_string());
    group.note(tally.said());
}

/// Lists of which a degree of 8, 16 or 32 bits, or a count of 8 bits, would lose something.
fn borders() -> Vec<Parts> {
    let mut all: Vec<Parts> =
        vec![vec![0], vec![255], vec![17], vec![16, 1], vec![255, 17], vec![255, 1], vec![128, 128]];
    for count in [16, 17, 31, 32, 255, 256, 257, 272, 4096, 65_536, 65_552] {
        all.extend([1, 2, 255].map(|part| vec![part; count]));
        all.push([vec![1; count], vec![0]].concat());
        all.push([vec![1; count], vec![2]].concat());
    }
    all
}

/// A partition of degree 0 to 20, now and then with a part changed, put in or taken out.
fn drawn(random: &mut Random) -> Parts {
    let degree = random.below(21) as u8;
    let mut parts = random_parts(random, degree);
    for _ in 0..random.below(3) {
        let at = random.below(parts.len() + 1);
        let part = *random.pick(&[0, 1, 2, 3, 5, 16, 17, 255]);
        match random.below(3) {
            0 => parts.insert(at, part),
            1 if at < parts.len() => parts[at] = part,
            _ if at < parts.len() => drop(parts.remove(at)),
            _ => {}
        }
    }
    parts
}
