//! Previews and commits in random gathered sessions, each commit made on the run's twin too.

use super::runs::Desk;
use super::{compare_commit, compare_preview, left, lines_of};
use crate::calls::gathered as calls;
use crate::groups::made::{wrong_cycle, wrong_line};
use crate::groups::strips::{Named, STRIP};
use crate::groups::{Kinds, Tally, Wanted};
use crate::model::gathered::{hook_words, Session};
use crate::report::Group;

/// The strips that a commit is handed, and what each has to meet.
const COMMITTED: [Wanted; 8] = [
    ("of a damaged session", &[0, 6, 7, 21]),
    ("as previewed", &[0, 8, 9, 10]),
    ("other words behind", &[0, 8, 9, 10]),
    ("no word", &[0, 8, 9, 19]),
    ("a word short", &[19]),
    ("two words exchanged", &[19]),
    ("a bit changed", &[19]),
    ("the coefficient's sign too", &[0, 19]),
];

/// A session, and its twin, which is neither watched nor previewed.
pub struct Run {
    pub session: Session,
    pub twin: Session,
}

impl Run {
    pub fn of(session: Session) -> Run {
        Run { twin: session.clone(), session }
    }
}

#[derive(Default)]
pub struct Strikes {
    previewed: Tally,
    committed: Kinds,
    /// How many hooks joined a line, those that cancelled it counted twice.
    met: u64,
}

impl Strikes {
    /// Counts a commit of a damaged session.
    pub fn hurt(&mut self, refused: u32) {
        self.committed.count("of a damaged session", refused);
    }

    pub fn close(self, group: &mut Group) {
        let Strikes { previewed, committed, met } = self;
        group.same(previewed.lacking(&[0, 6, 7, 8, 9, 18, 21], 50), vec![], || "previews hardly met".to_string());
        group.same(committed.lacking(&COMMITTED, 20), vec![], || "commits hardly met".to_string());
        group.same(met > 1000, true, || "hardly any line is joined".to_string());
        group.note(format!("previews: {}", previewed.said()));
        group.note(format!("commits: {}, {met} lines fewer by gathering", committed.said()));
    }
}

impl Desk<'_> {
    /// A waiting line and one of its cycles; where none waits, any two numbers.
    pub fn drawn_step(&mut self, session: &Session) -> Named {
        let lines = lines_of(session);
        if lines.is_empty() {
            return Named { line: 0, cycle: 1 };
        }
        let line = self.random.below(lines.len());
        Named { line: line as u64, cycle: u64::from(*self.random.pick(&lines[line].class)) }
    }

    /// A step, now and then of a wrong line or cycle: a preview, in some cases a commit with a strip that may be wrong,
    /// and where that was not accepted, a commit with a right one.
    pub fn step(&mut self, run: &mut Run) {
        let mut named = self.drawn_step(&run.session);
        match self.random.below(10) {
            0 => named.line = wrong_line(&mut self.random, run.session.slip.lines, named.line),
            1 => named.cycle = wrong_cycle(&mut self.random, named.cycle),
            _ => {}
        }
        let strip = self.preview(&run.session, named);
        let hooks = hook_words(&run.session, named.line, named.cycle).unwrap_or_default();
        if self.random.once_in(3) {
            let (kind, doubtful) = self.doubtful(&run.session, named, &hooks);
            if self.commit(run, named, kind, &doubtful) {
                return;
            }
        }
        if strip.starts_with(&hooks) && self.random.once_in(2) {
            self.commit(run, named, "as previewed", &strip);
        } else {
            let more = self.random.below(4);
            let followed = [hooks, self.any_words(more)].concat();
            self.commit(run, named, "other words behind", &followed);
        }
    }

    /// Compares a preview onto a strip of some length; the strip as the library leaves it.
    pub fn preview(&mut self, session: &Session, named: Named) -> Vec<u64> {
        let length = *self.random.pick(&[0, 1, 2, 3, STRIP, STRIP, STRIP, STRIP + 9]);
        let before = self.any_words(length);
        let (refused, strip) = compare_preview(self.group, session, named, &before);
        self.strikes.previewed.count(refused);
        strip
    }

    /// Compares a commit, and makes it on the twin too; whether it was accepted.
    fn commit(&mut self, run: &mut Run, named: Named, kind: &'static str, strip: &[u64]) -> bool {
        let (refused, next) = compare_commit(self.group, &run.session, named, strip);
        self.strikes.committed.count(kind, refused);
        let again = calls::commit(&run.twin, named.line, named.cycle, strip);
        let answer = again.answer.answer.answer;
        self.group.same(answer, (refused, next.slip), || format!("commit of {named:?} on the twin"));
        if refused == 0 {
            let hooks = hook_words(&run.session, named.line, named.cycle).unwrap().len() as u64;
            self.strikes.met += (run.session.slip.lines - 1 + hooks).saturating_sub(next.slip.lines);
        }
        *run = Run { session: next, twin: left(&again, answer.1) };
        refused == 0
    }

    /// A strip that is hardly right where there are new lines.
    fn doubtful(&mut self, session: &Session, named: Named, hooks: &[u64]) -> (&'static str, Vec<u64>) {
        let (mut strip, last) = (hooks.to_vec(), hooks.len().saturating_sub(1));
        match self.random.below(5) {
            0 if last > 0 => ("a word short", strip[..last].to_vec()),
            1 if last > 0 => {
                strip.swap(0, last);
                ("two words exchanged", strip)
            }
            2 if !strip.is_empty() => {
                strip[self.random.below(hooks.len())] ^= 1 << self.random.below(64);
                ("a bit changed", strip)
            }
            3 => {
                let minus = session.column.get(named.line as usize).map_or(0, |number| (*number as u64) >> 63);
                ("the coefficient's sign too", strip.iter().map(|word| word ^ minus << 63).collect())
            }
            _ => ("no word", vec![]),
        }
    }
}
