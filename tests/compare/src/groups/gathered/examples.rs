//! Gathered sessions by their own numbers: (4,4) on (2,2,2,2), line 0 struck until none waits, in which lines are
//! joined from the third step on, and its text; and (2,2) on (2,1,1), in which two lines cancel.

use crate::calls::gathered as calls;
use crate::groups::strips::STRIP;
use crate::lent::leaves;
use crate::model::characters::Characters;
use crate::model::gathered::Session;
use crate::model::sessions::{Slip, GATHERED};
use crate::report::Group;

/// The words of a page, and of its column.
const WORDS: usize = 5;

/// A line's word and its coefficient.
type Line = (u64, i64);

/// What a strike names, the hooks that its preview shows, and what then is settled and waits.
type Strike<'a> = (u64, u64, &'a [u64], i64, &'a [Line]);

const TEXT: &str = "mode=gathered\ndegree=8\nshape=4,4\nclass=2,2,2,2\nsteps=3\nsettled=0\nlines=3\n\
    line=2;2,2;2,2\nline=-1;3,1;2,2\nline=1;4;2,2\n";

pub fn run(_: &Characters, group: &mut Group) {
    let joined: [Strike; 8] = [
        (
            0,
            2,
            &[0x9C00_0000_2A00_0000, 0x3600_0000_2A00_0000],
            0,
            &[(0x1C00_0000_2A00_0000, -1), (0x3600_0000_2A00_0000, 1)],
        ),
        (
            0,
            2,
            &[0x9800_0000_2800_0000, 0x3400_0000_2800_0000],
            0,
            &[(0x3600_0000_2A00_0000, 1), (0x1800_0000_2800_0000, 1), (0x3400_0000_2800_0000, -1)],
        ),
        (
            0,
            2,
            &[0x1800_0000_2800_0000, 0x3C00_0000_2800_0000],
            0,
            &[(0x1800_0000_2800_0000, 2), (0x3400_0000_2800_0000, -1), (0x3C00_0000_2800_0000, 1)],
        ),
        (
            0,
            2,
            &[0x9000_0000_2000_0000, 0x3000_0000_2000_0000],
            0,
            &[
                (0x3400_0000_2800_0000, -1),
                (0x3C00_0000_2800_0000, 1),
                (0x1000_0000_2000_0000, -2),
                (0x3000_0000_2000_0000, 2),
            ],
        ),
        (
            0,
            2,
            &[0x1000_0000_2000_0000],
            0,
            &[(0x3C00_0000_2800_0000, 1), (0x1000_0000_2000_0000, -3), (0x3000_0000_2000_0000, 2)],
        ),
        (0, 2, &[0x3000_0000_2000_0000], 0, &[(0x1000_0000_2000_0000, -3), (0x3000_0000_2000_0000, 3)]),
        (0, 2, &[], 3, &[(0x3000_0000_2000_0000, 3)]),
        (0, 2, &[], 6, &[]),
    ];
    let sessions = play(group, 0x1E00_0000_2A80_0000, &joined);
    text(group, &sessions[3]);
    let cancelled: [Strike; 3] = [
        (
            0,
            2,
            &[0x9000_0000_6000_0000, 0x3000_0000_6000_0000],
            0,
            &[(0x1000_0000_6000_0000, -1), (0x3000_0000_6000_0000, 1)],
        ),
        (1, 1, &[0x2000_0000_4000_0000], 0, &[(0x1000_0000_6000_0000, -1), (0x2000_0000_4000_0000, 1)]),
        (0, 1, &[0x2000_0000_4000_0000], 0, &[]),
    ];
    play(group, 0x1800_0000_3800_0000, &cancelled);
}

/// A session that settled so much in so many steps, with these lines.
fn session(begun: u64, settled: i64, steps: i64, lines: &[Line]) -> Session {
    let (shape, class) = ((begun >> 32) as u32, begun as u32);
    let (mut page, mut column) = (vec![0; WORDS], vec![0; WORDS]);
    for (at, &(word, coefficient)) in lines.iter().enumerate() {
        (page[at], column[at]) = (word, coefficient);
    }
    Session { slip: Slip { shape, class, settled, lines: lines.len() as u64, steps, mode: GATHERED }, page, column }
}

/// Opens a session with this line and makes the strikes, each a preview and its commit; the sessions that come.
fn play(group: &mut Group, begun: u64, strikes: &[Strike]) -> Vec<Session> {
    let mut sessions = vec![session(begun, 0, 0, &[(begun, 1)])];
    let opened = calls::open((begun >> 32) as u32, begun as u32, &[7; WORDS], &[7; WORDS]);
    let model = super::lent((0, sessions[0].slip), &sessions[0]);
    group.same(opened, model, || format!("gathered open of {begun:x}"));
    for (steps, &(line, cycle, hooks, settled, lines)) in (1..).zip(strikes) {
        let (before, after) = (sessions.last().unwrap(), session(begun, settled, steps, lines));
        let strip = [hooks, &[7; STRIP][hooks.len()..]].concat();
        let previewed = calls::preview(before, line, cycle, &[7; STRIP]);
        let model = super::lent(leaves((hooks.len() as u64, 0), &strip), before);
        group.same(previewed, model, || format!("preview {steps} of {begun:x}"));
        let committed = calls::commit(before, line, cycle, &strip);
        let model = super::lent(leaves((0, after.slip), &strip), &after);
        group.same(committed, model, || format!("strike {steps} of {begun:x}"));
        sessions.push(after);
    }
    sessions
}

/// The text of a session, and what a load makes of it.
fn text(group: &mut Group, session: &Session) {
    let saved = calls::save(session, &[7; 200]).answer.answer;
    let after = [TEXT.as_bytes(), &[7; 200][TEXT.len()..]].concat();
    group.same(saved, leaves((TEXT.len() as u64, 0), &after), || "the text of (4,4) on (2,2,2,2)".to_string());
    let loaded = calls::load(TEXT.as_bytes(), &[7; WORDS], &[7; WORDS]);
    let model = super::lent(leaves((0, 0, session.slip), TEXT.as_bytes()), session);
    group.same(loaded, model, || "the load of (4,4) on (2,2,2,2)".to_string());
}
