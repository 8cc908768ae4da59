//! Characters by sessions: every shape on every class of at most six cycles, opened and struck in a random order, each
//! time by a preview and its commit, until no line waits. What is settled then is the character. Each call gets what
//! the library handed back before.

use super::strips::STRIP;
use crate::calls;
use crate::model::characters::Characters;
use crate::model::sessions::Slip;
use crate::model::words::{pack_class, pack_shape, read_class};
use crate::model::Parts;
use crate::random::Random;
use crate::report::Group;

/// The cycles that a class may have.
pub const CYCLES: usize = 6;

/// The words of a page, and more steps than a session takes: in these orders at most 97 lines wait at a time.
const WORDS: usize = 128;
const MOST_STEPS: i64 = 10_000;

pub fn run(characters: &Characters, group: &mut Group) {
    let mut random = Random(7);
    let mut steps = 0;
    for listing in &characters.listings {
        let classes = || listing.iter().filter(|parts| parts.len() <= CYCLES);
        for pair in listing.iter().flat_map(|rows| classes().map(move |parts| (rows, parts))) {
            steps += compare_end(characters, &mut random, group, pack_shape(pair.0), pair);
        }
    }
    group.note(format!("{steps} steps"));
}

/// Compares the end of a session that is opened with this word of the rows; how many steps it took.
pub fn compare_end(
    characters: &Characters,
    random: &mut Random,
    group: &mut Group,
    word: u32,
    (rows, parts): (&Parts, &Parts),
) -> i64 {
    let (slip, page, struck) = struck_out(random, word, pack_class(parts));
    let shown = |kind| calls::watch_whole(slip, &page, kind, 0).answer;
    let end = (slip.lines, shown(3), shown(5));
    let model = (0, characters.character(rows, parts), struck);
    group.same(end, model, || format!("lines, settled and steps at the end of {word:#010x}, {rows:?}, on {parts:?}"));
    struck
}

/// Opens a pair and strikes any line by any of its cycles until none waits or a call is refused. What the library
/// handed back last, and how many commits it accepted.
fn struck_out(random: &mut Random, shape: u32, class: u32) -> (Slip, Vec<u64>, i64) {
    let opened = calls::open(shape, class, &[7; WORDS]);
    let ((mut refused, mut slip), mut page) = (opened.answer, opened.run);
    let mut struck = 0;
    while slip.lines > 0 && refused == 0 && struck < MOST_STEPS {
        let line = random.below(slip.lines as usize);
        let cycles = read_class(page[line] as u32).unwrap();
        let (line, cycle) = (line as u64, (*random.pick(&cycles)).into());
        let strip = calls::preview(slip, &page, line, cycle, &[7; STRIP]).run;
        let committed = calls::commit(slip, &page, line, cycle, &strip);
        ((refused, slip), page) = (committed.answer.answer, committed.run);
        struck += i64::from(refused == 0);
    }
    (slip, page, struck)
}
