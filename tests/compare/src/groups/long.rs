//! Long pages: many lines of the degrees 1 to 12, and the same with one line changed, also into one that has a word of
//! another line, a word a little off, or ones in front of its shape. A watch, a preview and a commit have to judge
//! alike whether they are sound.

use super::made::{damaged_line, ones_in_front, random_line};
use super::sessions::State;
use super::strips::{compare_commit, compare_preview, Named, STRIP};
use super::Tally;
use crate::calls;
use crate::lent::leaves;
use crate::model::characters::Characters;
use crate::model::sessions::{self, written, Line, Slip, PAGE_LIMIT};
use crate::model::words::{pack_class, pack_shape};
use crate::random::Random;
use crate::report::Group;

/// How many pages there are, how often a line of each is changed, and the greatest degree of a line.
const PAGES: usize = 300;
const CHANGES: usize = 12;
const GREATEST: usize = 12;

pub fn run(characters: &Characters, group: &mut Group) {
    let (mut random, mut judged) = (Random(10), Tally::default());
    for at in 0..PAGES {
        let count = if at % 30 == 0 { PAGE_LIMIT } else { 50 + random.below(100) };
        let (slip, page) = page_of(characters, &mut random, count);
        judged.count(compare(group, &mut random, &(slip, page.clone())));
        for _ in 0..CHANGES {
            let mut page = page.clone();
            let line = random.below(count);
            page[line] = changed(characters, &mut random, &page[..count], line);
            judged.count(compare(group, &mut random, &(slip, page)));
        }
    }
    group.same(judged.lacking(&[0, 7], 500), vec![], || "refusals hardly met".to_string());
    group.note(judged.said());
}

/// So many lines, and some words after them.
fn page_of(characters: &Characters, random: &mut Random, count: usize) -> State {
    let mut line = |_| {
        let degree = 1 + random.below(GREATEST);
        random_line(characters, random, degree)
    };
    let lines: Vec<Line> = (0..count).map(&mut line).collect();
    let words = (count + random.below(4)).min(PAGE_LIMIT);
    let (shape, class) = (pack_shape(&[16]), pack_class(&[16]));
    (Slip { shape, class, lines: count as u64, ..Slip::default() }, written(&lines, words).unwrap())
}

/// What stands in the place of a line.
fn changed(characters: &Characters, random: &mut Random, lines: &[u64], at: usize) -> u64 {
    let (line, other) = (lines[at], *random.pick(lines));
    let low = |word: u64| word % (1 << 32);
    let high = |word: u64| word >> 32 << 32;
    match random.below(7) {
        0 => line ^ 1 << random.below(64),
        1 => high(line) + low(other),
        2 => low(other) << 32 | low(line),
        3 => high(line) | other >> 32 & u64::from(u32::MAX >> 1),
        4 => line.wrapping_add((1 + random.next() % (1 << 20)) << *random.pick(&[0, 8, 32, 40])),
        5 => ones_in_front(random, line),
        _ => damaged_line(characters, random),
    }
}

/// Compares a watch, a preview and a commit; the model's refusal number of slip and page.
fn compare(group: &mut Group, random: &mut Random, state: &State) -> u32 {
    let (slip, page) = state;
    let lines = sessions::sound(slip, page);
    let refused = lines.as_ref().err().copied().unwrap_or(0);
    let watched = calls::watch_refusal(*slip, page, 3, 0);
    group.same(watched, leaves(refused, page), || format!("watch of {} lines", slip.lines));
    let line = random.below(slip.lines as usize);
    let cycle = lines.map_or(1, |lines| u64::from(*random.pick(&lines[line].class)));
    let named = Named { line: line as u64, cycle };
    let (_, strip) = compare_preview(group, state, named, &[7; STRIP]);
    compare_commit(group, state, named, &strip);
    refused
}
