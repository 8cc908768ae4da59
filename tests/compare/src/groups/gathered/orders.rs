//! The order of refusals: every call with every set of its refusals' causes at once. What is given is the first in the
//! call's order, as it stands here and as the model has it, and every lent run stays; so does a slip that was given,
//! whatever its mode.

use super::made::{session_of, WRONG_MODES};
use super::{compare_commit, compare_load, compare_open, compare_preview, compare_save, compare_watch, watched};
use crate::groups::strips::Named;
use crate::groups::Tally;
use crate::model::characters::Characters;
use crate::model::gathered::{hook_words, Session};
use crate::model::sessions::{Line, Slip, PAGE_LIMIT};
use crate::model::texts::gathered_text;
use crate::model::words::{pack_class, pack_shape};
use crate::report::Group;

const OPEN: [u32; 8] = [1, 3, 2, 4, 5, 6, 21, 10];
const PREVIEW: [u32; 6] = [6, 21, 7, 8, 9, 18];
const COMMIT: [u32; 7] = [6, 21, 7, 8, 9, 19, 10];
const WATCH: [u32; 5] = [6, 21, 7, 15, 8];
const SAVE: [u32; 4] = [6, 21, 7, 17];
const LOAD: [u32; 5] = [6, 21, 16, 10, 7];

/// Words to open with, and what is wrong with each. The last have two faults: bit 31 is set in a shape word and in a
/// class word of degree 17, and a class word of degree 18 has a rise, from 1 to 17; the first fault is given.
const SHAPES: [(u32, u32); 5] =
    [(0, 0x2C00_0000), (1, 0x8000_0000), (2, 0x3FFF_E000), (0, 0x5600_0000), (1, 0xBFFF_E000)];
const CLASSES: [(u32, u32); 7] = [
    (0, 0x1400_0000),
    (3, 0x5000_0000),
    (4, 0x0000_4000),
    (5, 0x3000_0000),
    (3, 0x8000_0000),
    (3, 0x8000_4000),
    (3, 0x4000_2000),
];

/// How many ways there are to make a session unsound: each of the wrong modes, and four others. Of the ways to make a
/// column of another length, a wrong number and the like there are fewer, which come again.
const WAYS: usize = WRONG_MODES.len() + 4;

/// Some of a call's refusals.
struct Causes<'a> {
    order: &'a [u32],
    set: usize,
}

impl Causes<'_> {
    fn has(&self, refused: u32) -> bool {
        self.order.iter().position(|&one| one == refused).is_some_and(|at| self.set >> at & 1 == 1)
    }

    /// The first of them in the order, 0 for none.
    fn first(&self) -> u32 {
        self.order.iter().copied().find(|&refused| self.has(refused)).unwrap_or(0)
    }
}

/// All sets of a call's refusals.
fn sets(order: &[u32]) -> impl Iterator<Item = Causes<'_>> {
    (0..1 << order.len()).map(move |set| Causes { order, set })
}

pub fn run(characters: &Characters, group: &mut Group) {
    let mut met = Tally::default();
    openings(group, &mut met);
    for way in 0..WAYS {
        sets(&PREVIEW).for_each(|causes| previews(group, &mut met, &causes, way));
        sets(&COMMIT).for_each(|causes| commits(group, &mut met, &causes, way));
        sets(&WATCH).for_each(|causes| watches(characters, group, &mut met, &causes, way));
        sets(&SAVE).for_each(|causes| saves(group, &mut met, &causes, way));
        sets(&LOAD).for_each(|causes| loads(group, &mut met, &causes, way));
    }
    let all = [0, 1, 2, 3, 4, 5, 6, 7, 8, 9, 10, 15, 16, 17, 18, 19, 21];
    group.same(met.lacking(&all, 5), vec![], || "refusals hardly met".to_string());
    group.note(met.said());
}

/// Counts what was given, and compares it with the first of the causes.
fn given(group: &mut Group, met: &mut Tally, refused: u32, causes: &Causes, what: &str) {
    met.count(refused);
    group.same(refused, causes.first(), || format!("{what}: the first of {:?} in set {:b}", causes.order, causes.set));
}

/// One of these.
fn one_of<T: Copy>(all: &[T], way: usize) -> T {
    all[way % all.len()]
}

/// A column's length that is not the page's.
fn another_length(words: usize, way: usize) -> usize {
    [words + 1, words.saturating_sub(1), 0, 2 * words, PAGE_LIMIT, PAGE_LIMIT + 1]
        .into_iter()
        .cycle()
        .skip(way)
        .find(|&count| count != words)
        .unwrap()
}

/// A page's length: just enough words, or as many as there may be, with which another length is one more or less.
fn roomy(enough: usize, way: usize) -> usize {
    if way < 2 {
        PAGE_LIMIT
    } else {
        enough
    }
}

/// (2,1) and (2,2,1), the second with two hooks of length 1 that make new lines, in a sound session on so many words.
fn session(words: usize) -> Session {
    let lines = [
        Line { sign: -2, shape: vec![2, 1], class: vec![2, 1] },
        Line { sign: 3, shape: vec![2, 2, 1], class: vec![2, 2, 1] },
    ];
    let slip = Slip { shape: pack_shape(&[4, 3]), class: pack_class(&[3, 2, 2]), settled: -5, ..Slip::default() };
    session_of(slip, &lines, words - lines.len())
}

/// The session with the causes of 6, 21 and 7 among these; it has so many words where the page is not too long.
fn troubled(causes: &Causes, words: usize, way: usize) -> Session {
    let mut session = session(if causes.has(6) { PAGE_LIMIT + 1 } else { words });
    if causes.has(7) {
        match WAYS - 1 - way {
            0 => session.column[1] = i64::MIN,
            1 => session.column[0] = 0,
            2 => session.page[0] ^= 1 << 63,
            3 => session.page[0] = session.page[1],
            _ => session.slip.mode = WRONG_MODES[way],
        }
    }
    if causes.has(21) {
        let count = another_length(session.page.len(), way);
        session.column.resize(count, 0);
    }
    session
}

fn openings(group: &mut Group, met: &mut Tally) {
    let pages = [(0, 1), (0, 3), (0, PAGE_LIMIT), (10, 0), (6, PAGE_LIMIT + 1)];
    for ((bad_shape, shape), (bad_class, class)) in SHAPES.into_iter().flat_map(|one| CLASSES.map(|two| (one, two))) {
        for ((bad_page, words), way) in pages.into_iter().flat_map(|page| (0..=WAYS).map(move |way| (page, way))) {
            let count = if way < WAYS { another_length(words, way) } else { words };
            let unequal = if count == words { 0 } else { 21 };
            let causes = [bad_shape, bad_class, bad_page, unequal];
            let first = OPEN.into_iter().find(|refused| causes.contains(refused)).unwrap_or(0);
            let (refused, _) = compare_open(group, shape, class, &vec![7; words], &vec![7; count]);
            met.count(refused);
            group.same(refused, first, || format!("opening: the first of {causes:?}"));
        }
    }
}

/// A line or a cycle that there is not.
fn wrong(way: usize, good: u64) -> u64 {
    one_of(&[7, 1 << 32, u64::MAX, (1 << 32) + good, 1 << 63, 31], way)
}

fn named(causes: &Causes, way: usize) -> Named {
    let line = if causes.has(8) { wrong(way, 1) } else { 1 };
    let cycle = if causes.has(9) { one_of(&[0, 3, 256, 1 << 32, (1 << 32) + 1, u64::MAX], way) } else { 1 };
    Named { line, cycle }
}

fn previews(group: &mut Group, met: &mut Tally, causes: &Causes, way: usize) {
    let session = troubled(causes, roomy(4, way), way);
    let strip = vec![7; if causes.has(18) { way % 2 } else { 2 + way }];
    let (refused, _) = compare_preview(group, &session, named(causes, way), &strip);
    given(group, met, refused, causes, "preview");
}

/// The two hooks of length 1 of the second line make new lines, and its own goes: three lines wait after it.
fn commits(group: &mut Group, met: &mut Tally, causes: &Causes, way: usize) {
    let session_here = troubled(causes, if causes.has(10) { 2 } else { roomy(3, way) }, way);
    let mut strip = hook_words(&session(3), 1, 1).unwrap();
    assert_eq!(strip.len(), 2);
    if causes.has(19) {
        match way % 6 {
            0 => strip.truncate(1),
            1 => strip.swap(0, 1),
            2 => strip.clear(),
            3 => strip[1] ^= 1 << 63,
            4 => strip[0] ^= 1,
            _ => strip.insert(0, 0),
        }
    }
    let (refused, _) = compare_commit(group, &session_here, named(causes, way), &strip);
    given(group, met, refused, causes, "commit");
}

fn watches(characters: &Characters, group: &mut Group, met: &mut Tally, causes: &Causes, way: usize) {
    let session = troubled(causes, roomy(3, way), way);
    let kind = match causes.has(15) {
        true => one_of(&[0, 6, 7, 1 << 32, (1 << 32) + 1, u64::MAX], way),
        false => 1 + way as u64 % 2,
    };
    let line = named(causes, way).line;
    let refused = compare_watch(group, &session, (kind, line), watched(characters, &session, kind, line));
    given(group, met, refused, causes, "watch");
}

fn saves(group: &mut Group, met: &mut Tally, causes: &Causes, way: usize) {
    let length = gathered_text(&session(3)).unwrap().len();
    let room = match causes.has(17) {
        true => one_of(&[0, 1, length / 2, length - 1, length - 1, length - 2], way),
        false => length + way,
    };
    let refused = compare_save(group, &troubled(causes, roomy(3, way), way), &vec![7; room]);
    given(group, met, refused, causes, "save");
}

/// A text with one of these changes.
fn changed(text: &str, changes: &[(&str, &str)], way: usize) -> String {
    let (old, new) = one_of(changes, way);
    text.replace(old, new)
}

fn loads(group: &mut Group, met: &mut Tally, causes: &Causes, way: usize) {
    let mut text = gathered_text(&session(3)).unwrap();
    if causes.has(16) {
        let changes = [
            ("mode=gathered\n", ""),
            ("mode=gathered", "mode=plain"),
            ("degree=7", "degree=8"),
            ("lines=2", "lines=3"),
            ("line=3", "line=+3"),
            ("line=-2", "line=-0"),
        ];
        text = changed(&text, &changes, way);
    }
    if causes.has(7) {
        let changes = [
            ("settled=-5", "settled=-9223372036854775808"),
            ("steps=0", "steps=9223372036854775807"),
            ("line=3;", "line=0;"),
            (";2,2,1;2,2,1", ";2,1;2,1"),
            ("class=3,2,2", "class=3,2"),
            (";2,2,1;", ";2,2;"),
        ];
        text = changed(&text, &changes, way);
    }
    let words = if causes.has(10) { way % 2 } else { 2 + way };
    let words = if causes.has(6) { PAGE_LIMIT + 1 } else { words };
    let count = if causes.has(21) { another_length(words, way) } else { words };
    let (refused, _) = compare_load(group, text.as_bytes(), &vec![7; words], &vec![-7; count]);
    given(group, met, refused, causes, "load");
}
