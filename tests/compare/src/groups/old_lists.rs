//! Lists of shapes in the old form and in the new: all partitions at once, every border word alone, lists of the
//! lengths at the borders, and drawn ones, most of them with damaged words. What is moved one way is moved back.

use super::draws::{border_words, random_word};
use super::Kinds;
use crate::calls::{self, Moved};
use crate::lent::leaves;
use crate::model::characters::Characters;
use crate::model::words::{moved, pack_class, pack_shape, read_class, read_good_shape};
use crate::model::{Answer, Parts, LIST_LIMIT};
use crate::random::Random;
use crate::report::Group;

const LISTS: usize = 40_000;

/// A move: its name, the library's call, how the words given are read, and how the parts are packed.
type Move = (&'static str, fn(&[u32], &[u32]) -> Moved, fn(u32) -> Answer<Parts>, fn(&[u8]) -> u32);

const MOVES: [Move; 2] = [
    ("from", calls::shapes_from_old, read_class, pack_shape),
    ("to", calls::shapes_to_old, read_good_shape, pack_class),
];

/// Compares a move of a list into a run with these words, and gives the list moved, if it was.
fn compare(which: Move, given: &[u32], lent: &[u32], group: &mut Group, kinds: &mut Kinds) -> Option<Vec<u32>> {
    let (name, call, read, pack) = which;
    let model = moved(given, lent.len(), read, pack);
    let (answer, after) = match &model {
        Ok(words) => ((0, 0), &words[..]),
        Err(refused) => (*refused, lent),
    };
    kinds.count(name, answer.0);
    let what = || format!("{name} old, {} words {:x?} to {}", given.len(), &given[..given.len().min(8)], lent.len());
    group.same(call(given, lent), leaves(leaves(answer, given), after), what);
    model.ok()
}

/// A list moved one way and, where it was, back again: it is the list.
fn there_and_back(way: usize, given: &[u32], lent: &[u32], group: &mut Group, kinds: &mut Kinds) {
    let Some(there) = compare(MOVES[way], given, lent, group, kinds) else { return };
    let back = compare(MOVES[1 - way], &there, lent, group, kinds);
    group.same(back, Some(given.to_vec()), || format!("{} words there and back", given.len()));
}

pub fn run(characters: &Characters, group: &mut Group) {
    let mut kinds = Kinds::default();
    let mut random = Random(11);
    let all: Vec<Parts> = characters.listings.iter().flatten().cloned().collect();
    let forms = MOVES.map(|(name, ..)| {
        let pack = if name == "from" { pack_class } else { pack_shape };
        all.iter().map(|parts| pack(parts)).collect::<Vec<u32>>()
    });
    for (way, words) in forms.iter().enumerate() {
        there_and_back(way, words, &lent(&mut random, words.len()), group, &mut kinds);
        for &word in words {
            there_and_back(way, &[word], &[0], group, &mut kinds);
        }
        for &word in &border_words() {
            there_and_back(way, &[word], &[0], group, &mut kinds);
        }
        lengths(way, words, &mut random, group, &mut kinds);
        for _ in 0..LISTS {
            let given = drawn(words, &forms[1 - way], &mut random);
            let room = if random.once_in(16) { random.below(given.len() + 3) } else { given.len() };
            there_and_back(way, &given, &lent(&mut random, room), group, &mut kinds);
        }
    }
    let wanted: [(&str, &[u32]); 2] = [("from", &[0, 3, 4, 20]), ("to", &[0, 1, 2, 20])];
    group.same(kinds.lacking(&wanted, 500), vec![], || "refusals hardly met".to_string());
    group.note(kinds.said());
}

/// What stands in a run before a call.
fn lent(random: &mut Random, length: usize) -> Vec<u32> {
    (0..length).map(|_| random.next() as u32).collect()
}

/// Lists of the lengths at the borders, lent as many words, more or fewer: of good words, of bad words, and with a bad
/// word at a place near an end or in the middle, and perhaps others behind it.
fn lengths(way: usize, words: &[u32], random: &mut Random, group: &mut Group, kinds: &mut Kinds) {
    let lengths = [0, 1, 2, LIST_LIMIT - 1, LIST_LIMIT, LIST_LIMIT + 1, 2 * LIST_LIMIT, 65_536, 65_537];
    for count in lengths {
        let good: Vec<u32> = (0..count).map(|_| *random.pick(words)).collect();
        for room in lengths.into_iter().chain([count + 1, count.saturating_sub(1)]) {
            there_and_back(way, &good, &lent(random, room), group, kinds);
            there_and_back(way, &vec![u32::MAX; count], &lent(random, room), group, kinds);
        }
        for place in [0, 1, 2, count / 2, count.saturating_sub(2), count.saturating_sub(1)] {
            if place < count {
                let mut bad = good.clone();
                bad[place..].iter_mut().for_each(|word| *word = if random.once_in(2) { *word } else { u32::MAX });
                bad[place] = *random.pick(&[0x4000_0001, 0x0000_0001, 0x3FFF_FFFF, 0x8000_0000]);
                there_and_back(way, &bad, &lent(random, count), group, kinds);
            }
        }
    }
}

/// A list of good words, of which in three cases of four some were damaged or are of the other form.
fn drawn(words: &[u32], others: &[u32], random: &mut Random) -> Vec<u32> {
    let most = if random.once_in(256) { LIST_LIMIT } else { 23 };
    let count = random.below(most + 1);
    let mut list: Vec<u32> = (0..count).map(|_| *random.pick(words)).collect();
    if count > 0 && !random.once_in(4) {
        for _ in 0..1 + random.below(3) {
            let at = random.below(count);
            list[at] = if random.once_in(3) { *random.pick(others) } else { random_word(random) };
        }
    }
    list
}
