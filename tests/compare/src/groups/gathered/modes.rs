//! The two modes: a plain session that is struck at each of the lines that a gathered one has joined has, after every
//! step, the gathered lines' coefficients as sums of its signs, and at the end the same settled sum. A gathered preview
//! is the plain one of that line with a plus sign. And a call of one mode refuses the other's slips.

use super::{compare_commit, compare_preview, compare_save, compare_watch, watched};
use crate::calls;
use crate::calls::gathered as joined_calls;
use crate::groups::made::WRONG_MODES;
use crate::groups::sessions::{self, State};
use crate::groups::strips::{self, Named, STRIP};
use crate::groups::texts;
use crate::groups::Tally;
use crate::model::characters::Characters;
use crate::model::gathered::Session;
use crate::model::sessions::{sound, watch, Slip, GATHERED, PAGE_LIMIT, PLAIN};
use crate::model::words::{pack_class, pack_shape, read_class};
use crate::model::Parts;
use crate::random::Random;
use crate::report::Group;
use std::collections::BTreeMap;

/// Up to this degree every shape goes on every class.
const SMALL: usize = 8;

/// How often each session is played, each time with other lines and cycles.
const PASSES: usize = 4;

/// A session in either mode, of one shape and class.
struct Both {
    plain: State,
    gathered: Session,
}

pub fn run(characters: &Characters, group: &mut Group) {
    let (mut random, mut steps, mut cancelled) = (Random(23), 0, 0);
    let mut ended = |group: &mut Group, rows: &Parts, parts: &Parts| {
        let (struck, left) = compare_modes(&mut random, group, rows, parts);
        (steps, cancelled) = (steps + struck, cancelled + left);
    };
    for _ in 0..PASSES {
        for listing in &characters.listings[..=SMALL] {
            listing.iter().for_each(|rows| listing.iter().for_each(|parts| ended(group, rows, parts)));
        }
        for rows in &characters.listings[12] {
            ended(group, rows, &vec![2; 6]);
        }
    }
    let mut met = Tally::default();
    for mode in WRONG_MODES.into_iter().chain([PLAIN]) {
        other_modes(characters, group, mode, &mut met);
    }
    group.same(cancelled > 100, true, || "hardly anything cancels".to_string());
    group.same(met.lacking(&[0, 6, 7], 3), vec![], || "refusals hardly met".to_string());
    group.note(format!("{steps} gathered steps, {cancelled} lines left that cancel"));
}

/// Compares the modes in one session of a shape on a class; the gathered steps, and how many plain lines are left that
/// cancel when no gathered one waits.
fn compare_modes(random: &mut Random, group: &mut Group, rows: &Parts, parts: &Parts) -> (i64, usize) {
    let (shape, class) = (pack_shape(rows), pack_class(parts));
    let opened = calls::open(shape, class, &[7; PAGE_LIMIT]);
    let plain = (opened.answer.1, opened.run);
    let opened = joined_calls::open(shape, class, &[7; 600], &[7; 600]);
    let gathered = Session { slip: opened.answer.answer.1, page: opened.run, column: opened.answer.run };
    let mut both = Both { plain, gathered };
    let mut refused = 0;
    while both.gathered.slip.lines > 0 && refused == 0 {
        let line = random.below(both.gathered.slip.lines as usize);
        let word = both.gathered.page[line];
        let cycle = u64::from(*random.pick(&read_class(word as u32).unwrap()));
        group.same(both.hooks(line, cycle), both.plain_hooks(word, cycle), || format!("preview of {word:x}, {cycle}"));
        refused = both.strike_gathered(line, cycle) | both.strike_equal(word, cycle);
        group.same((both.sums(), refused), (both.coefficients(), 0), || {
            format!("signs of equal lines of {rows:?} on {parts:?} after {:?}", both.gathered.slip)
        });
    }
    let left = both.plain.0.lines as usize;
    while both.plain.0.lines > 0 && refused == 0 {
        let cycle = u64::from(read_class(both.plain.1[0] as u32).unwrap()[0]);
        refused = both.strike_plain(0, cycle);
    }
    let (plain, gathered) = (both.plain.0, both.gathered.slip);
    group.same((gathered.settled, refused), (plain.settled, 0), || format!("settled of {rows:?} on {parts:?}"));
    group.same(gathered.steps <= plain.steps, true, || format!("steps of {rows:?} on {parts:?}"));
    group.same((plain.mode, gathered.mode), (PLAIN, GATHERED), || format!("modes of {rows:?} on {parts:?}"));
    (gathered.steps, left)
}

impl Both {
    /// The strip of a gathered preview.
    fn hooks(&self, line: usize, cycle: u64) -> Vec<u64> {
        joined_calls::preview(&self.gathered, line as u64, cycle, &[7; STRIP]).answer.answer.run
    }

    /// That of a plain preview of a page with this line alone.
    fn plain_hooks(&self, word: u64, cycle: u64) -> Vec<u64> {
        let slip = Slip { settled: 0, lines: 1, steps: 0, ..self.plain.0 };
        calls::preview(slip, &[word], 0, cycle, &[7; STRIP]).run
    }

    fn strike_gathered(&mut self, line: usize, cycle: u64) -> u32 {
        let strip = self.hooks(line, cycle);
        let committed = joined_calls::commit(&self.gathered, line as u64, cycle, &strip);
        let (refused, slip) = committed.answer.answer.answer;
        self.gathered = Session { slip, page: committed.run, column: committed.answer.run };
        refused
    }

    fn strike_plain(&mut self, line: usize, cycle: u64) -> u32 {
        let (slip, page) = &self.plain;
        let strip = calls::preview(*slip, page, line as u64, cycle, &[7; STRIP]).run;
        let committed = calls::commit(*slip, page, line as u64, cycle, &strip);
        let (refused, slip) = committed.answer.answer;
        self.plain = (slip, committed.run);
        refused
    }

    /// Strikes the plain lines that are this one but for the sign, each of them.
    fn strike_equal(&mut self, word: u64, cycle: u64) -> u32 {
        let equal = |one: &u64| one % (1 << 63) == word;
        let mut refused = 0;
        while let (0, Some(line)) = (refused, self.plain.1.iter().position(equal)) {
            refused = self.strike_plain(line, cycle);
        }
        refused
    }

    /// The plain page gathered by hand: the sums of signs that are not 0.
    fn sums(&self) -> BTreeMap<u64, i64> {
        let mut sums = BTreeMap::new();
        for word in &self.plain.1[..self.plain.0.lines as usize] {
            *sums.entry(word % (1 << 63)).or_insert(0) += if word >> 63 == 1 { -1 } else { 1 };
        }
        sums.retain(|_, sum| *sum != 0);
        sums
    }

    fn coefficients(&self) -> BTreeMap<u64, i64> {
        let Session { slip, page, column } = &self.gathered;
        page.iter().copied().zip(column.iter().copied()).take(slip.lines as usize).collect()
    }
}

/// A page that is sound in both modes, with this mode in its slip: every call of another mode refuses it by 7, or by 6
/// where the page is too long, and a commit hands back the slip that it was given.
fn other_modes(characters: &Characters, group: &mut Group, mode: u32, met: &mut Tally) {
    let (shape, class) = (pack_shape(&[3, 2]), pack_class(&[3, 2]));
    let line = (u64::from(shape) << 32) + u64::from(class);
    for words in [1, 3, PAGE_LIMIT, PAGE_LIMIT + 1] {
        let (mut page, mut column) = (vec![0; words], vec![0; words]);
        (page[0], column[0]) = (line, 1);
        let slip = Slip { shape, class, lines: 1, mode, ..Slip::default() };
        let (state, named) = ((slip, page.clone()), Named { line: 0, cycle: 3 });
        let lines = sound(&slip, &page);
        met.count(lines.as_ref().err().copied().unwrap_or(0));
        let (_, strip) = strips::compare_preview(group, &state, named, &[7; STRIP]);
        let (_, after) = strips::compare_commit(group, &state, named, &strip);
        group.same(after.0.mode, mode, || format!("the mode after a plain commit of {slip:?}"));
        texts::compare_save(group, &mut Tally::default(), slip, &page, &[7; 100]);
        let session = Session { slip, page: page.clone(), column };
        let (_, strip) = compare_preview(group, &session, named, &[7; STRIP]);
        let (_, after) = compare_commit(group, &session, named, &strip);
        group.same(after.slip.mode, mode, || format!("the mode after a gathered commit of {slip:?}"));
        compare_save(group, &session, &[7; 100]);
        for kind in 0..=6 {
            let model = watch(characters, &slip, &lines, kind, 0);
            sessions::compare_watch(group, &state, (kind, 0), model);
            compare_watch(group, &session, (kind, 0), watched(characters, &session, kind, 0));
        }
    }
}
