//! The calls on words: the words at the borders and a million others, all different, and a million pairs of words.

use super::columns::written;
use super::draws::{border_words, listed, random_word};
use super::{valued, Tally};
use crate::calls;
use crate::lent::{leaves, Left};
use crate::model::characters::Characters;
use crate::model::partitions::{degree, period, sign, size, transposed};
use crate::model::words::{good_shape, pack_class, pack_shape, read_class, read_pair, read_shape};
use crate::model::{Answer, Parts};
use crate::random::Random;
use crate::report::Group;
use std::collections::HashSet;

const WORDS: usize = 1_000_000;

pub fn run(characters: &Characters, group: &mut Group) {
    let mut tally = Tally::default();
    let mut random = Random(1);
    let borders = border_words();
    let mut asked: HashSet<u32> = borders.iter().copied().collect();
    let wanted = asked.len() + WORDS;
    for &word in &borders {
        compare_word(characters, word, &mut random, group, &mut tally);
    }
    while asked.len() < wanted {
        let word = random_word(&mut random);
        if asked.insert(word) {
            compare_word(characters, word, &mut random, group, &mut tally);
        }
    }
    group.same(tally.lacking(&[0, 1, 2, 3, 4, 14], 500), vec![], || "refusals hardly met".to_string());
    group.note(format!("{} words", asked.len()));
    group.note(tally.said());
}

/// The word as a shape and as a class, in every call that takes one word.
fn compare_word(characters: &Characters, word: u32, random: &mut Random, group: &mut Group, tally: &mut Tally) {
    let (rows, parts) = (read_shape(word), read_class(word));
    let what = |call: &'static str| move || format!("{call} of {word:#010x}");
    let of_rows = |tell: &dyn Fn(&Parts) -> i64| valued(rows.as_ref().map(tell).map_err(|&k| k));
    let of_parts = |tell: &dyn Fn(&Parts) -> i64| valued(parts.as_ref().map(tell).map_err(|&k| k));
    let conjugate = rows.as_ref().map(|rows| pack_shape(&transposed(rows))).map_err(|&k| k);
    group.same(calls::degree(word), of_rows(&|rows| degree(rows).into()), what("degree"));
    group.same(
        calls::character_degree(word),
        of_rows(&|rows| characters.character_degree(rows)),
        what("character degree"),
    );
    group.same(calls::conjugate(word), valued(conjugate), what("conjugate"));
    group.same(calls::good_shape(word), valued(good_shape(word)), what("good shape"));
    group.same(calls::class_sign(word), of_parts(&|parts| sign(parts)), what("sign"));
    group.same(calls::class_size(word), of_parts(&|parts| size(parts)), what("size"));
    group.same(calls::class_period(word), of_parts(&|parts| period(parts)), what("period"));
    let room = random.below(if parts.is_ok() { 260 } else { 3 });
    let values: Vec<i64> = (0..room).map(|_| random.next() as i64).collect();
    compare_run(&parts.clone().map(|parts| characters.column(&parts)), &values, tally, |model| {
        group.same(calls::column(word, &values), model, what("column"));
    });
    let column: Vec<u8> = (0..random.below(20)).map(|_| random.next() as u8).collect();
    compare_run(&rows, &column, tally, |model| group.same(calls::shape_parts(word, &column), model, what("rows")));
    compare_run(&parts, &column, tally, |model| group.same(calls::class_parts(word, &column), model, what("parts")));
}

/// What the model leaves in a run when it writes the list there.
fn compare_run<T: Clone>(
    list: &Answer<Vec<T>>,
    before: &[T],
    tally: &mut Tally,
    compare: impl FnOnce(Left<(u64, u32), T>),
) {
    let mut after = before.to_vec();
    let model = list.as_ref().map_err(|&k| k).and_then(|list| written(list, &mut after));
    tally.count(model.err().unwrap_or(0));
    compare(leaves(valued(model), &after));
}

/// The words at the borders, as a shape and as a class beside a good word, and a million pairs of words; in one case of
/// eight both are good, and every second time of one degree.
pub fn run_pairs(characters: &Characters, group: &mut Group) {
    let mut tally = Tally::default();
    let mut compare = |(shape, class): (u32, u32)| {
        let model = read_pair(shape, class).map(|(rows, parts)| characters.character(&rows, &parts));
        tally.count(model.err().unwrap_or(0));
        group.same(calls::character(shape, class), valued(model), || format!("{shape:#010x} on {class:#010x}"));
    };
    let mut random = Random(2);
    for word in border_words() {
        let listing = random.pick(&characters.listings);
        compare((word, pack_class(listed(&mut random, listing))));
        compare((pack_shape(listed(&mut random, listing)), word));
    }
    for _ in 0..WORDS {
        compare(drawn_pair(characters, &mut random));
    }
    group.same(tally.lacking(&[0, 1, 2, 3, 4, 5], 1000), vec![], || "refusals hardly met".to_string());
    group.note(tally.said());
}

fn drawn_pair(characters: &Characters, random: &mut Random) -> (u32, u32) {
    let mut pair = (random_word(random), random_word(random));
    let shapes = random.pick(&characters.listings);
    let classes = if random.once_in(2) { shapes } else { random.pick(&characters.listings) };
    match random.below(8) {
        0 => pair = (pack_shape(listed(random, shapes)), pack_class(listed(random, classes))),
        1 => pair.0 = pack_shape(listed(random, shapes)),
        2 => pair.1 = pack_class(listed(random, classes)),
        _ => {}
    }
    pair
}
