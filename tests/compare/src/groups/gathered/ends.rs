//! Characters by gathered sessions: every shape on every class of degree up to 8, and every shape on (2^8) and on a few
//! other classes of many cycles, opened and struck in a random order, each time by a preview and its commit, until no
//! line waits. What is settled then is the character. Each call gets what the library handed back before.

use crate::calls::gathered as calls;
use crate::groups::strips::STRIP;
use crate::model::characters::Characters;
use crate::model::gathered::Session;
use crate::model::partitions::degree;
use crate::model::sessions::{Slip, GATHERED};
use crate::model::words::{pack_class, pack_shape, read_class};
use crate::model::Parts;
use crate::random::Random;
use crate::report::Group;

/// Up to this degree every class is taken, and any line may be struck next.
const SMALL: usize = 8;

/// The words of a page, and more steps than a session takes.
const WORDS: usize = 2000;
const MOST_STEPS: i64 = 50_000;

pub fn run(characters: &Characters, group: &mut Group) {
    let (mut random, mut steps, mut most) = (Random(22), 0, 0);
    let mut ended = |rows: &Parts, parts: &Parts| {
        let (struck, lines) = compare_end(characters, &mut random, group, rows, parts);
        (steps, most) = (steps + struck, most.max(lines));
    };
    for listing in &characters.listings[..=SMALL] {
        listing.iter().for_each(|rows| listing.iter().for_each(|parts| ended(rows, parts)));
    }
    let wide: [Parts; 5] = [vec![2; 8], vec![4; 4], [vec![2; 5], vec![1; 2]].concat(), vec![3; 5], vec![1; 10]];
    for parts in &wide {
        let listing = &characters.listings[degree(parts) as usize];
        listing.iter().for_each(|rows| ended(rows, parts));
    }
    group.note(format!("{steps} steps, at most {most} lines"));
}

/// Compares the end of a session; how many steps it took, and how many lines waited at most.
fn compare_end(
    characters: &Characters,
    random: &mut Random,
    group: &mut Group,
    rows: &Parts,
    parts: &Parts,
) -> (i64, u64) {
    let (shape, class) = (pack_shape(rows), pack_class(parts));
    let (session, struck, most) = struck_out(random, shape, class, rows.iter().map(|&row| usize::from(row)).sum());
    let shown = |kind| calls::watch_whole(&session, kind, 0).answer.answer;
    let zeros = session.page.iter().all(|&word| word == 0) && session.column.iter().all(|&number| number == 0);
    let settled = characters.character(rows, parts);
    let slip = Slip { shape, class, settled, lines: 0, steps: struck, mode: GATHERED };
    let model = (slip, settled, struck, true);
    group.same((session.slip, shown(3), shown(5), zeros), model, || format!("the end of {rows:?} on {parts:?}"));
    (struck, most)
}

/// Opens a pair and strikes a line by any of its cycles until none waits or a call is refused: any line where the
/// degree is small, else one of the longest class, since what it leaves may meet the others. What the library handed
/// back last, how many commits it accepted, and the most lines.
fn struck_out(random: &mut Random, shape: u32, class: u32, degree: usize) -> (Session, i64, u64) {
    let opened = calls::open(shape, class, &[7; WORDS], &[7; WORDS]);
    let (mut refused, slip) = opened.answer.answer;
    let mut session = Session { slip, page: opened.run, column: opened.answer.run };
    let (mut struck, mut most) = (0, session.slip.lines);
    while session.slip.lines > 0 && refused == 0 && struck < MOST_STEPS {
        let lines = session.slip.lines as usize;
        let longest = |at: &usize| read_class(session.page[*at] as u32).unwrap().len();
        let line = if degree <= SMALL { random.below(lines) } else { (0..lines).max_by_key(longest).unwrap() };
        let cycle = (*random.pick(&read_class(session.page[line] as u32).unwrap())).into();
        let strip = calls::preview(&session, line as u64, cycle, &[7; STRIP]).answer.answer.run;
        let committed = calls::commit(&session, line as u64, cycle, &strip);
        let slip;
        (refused, slip) = committed.answer.answer.answer;
        session = Session { slip, page: committed.run, column: committed.answer.run };
        (struck, most) = (struck + i64::from(refused == 0), most.max(session.slip.lines));
    }
    (session, struck, most)
}
