//! Previews and commits in random sessions: a preview goes onto a strip of some length, and a commit is handed that
//! strip or another, which may be right or nearly so. The model says what each is.

use super::sessions::{Desk, State};
use super::strips::{compare_commit, compare_preview, Named, LONG_STRIP, STRIP};
use super::{Kinds, Tally, Wanted};
use crate::calls;
use crate::model::sessions::{self, Slip, PAGE_LIMIT};
use crate::model::Answer;
use crate::report::Group;

/// The strips that a preview goes onto, by their lengths, and what each has to meet.
const PREVIEWED: [Wanted; 7] = [
    ("no word", &[0, 6, 7, 8, 9, 18]),
    ("a word short", &[18]),
    ("no word spare", &[0]),
    ("16 words", &[0, 6, 7, 8, 9]),
    ("more words", &[0, 6, 7, 8, 9]),
    ("more than a page", &[0, 7, 8, 9]),
    ("100,000 words", &[0]),
];

/// The strips that a commit is handed, and what each has to meet.
const COMMITTED: [Wanted; 16] = [
    ("as previewed", &[0, 6, 7, 8, 9, 10]),
    ("not previewed", &[0, 10]),
    ("no word spare", &[0, 10]),
    ("other words behind", &[0, 10]),
    ("no word", &[0, 6, 7, 8, 9, 19]),
    ("any words", &[0, 6, 7, 8, 9, 19]),
    ("a bit changed", &[19]),
    ("a word short", &[19]),
    ("two words exchanged", &[19]),
    ("the class with the cycle", &[19]),
    ("an empty shape in front", &[0, 19]),
    ("a settled sign's line", &[0]),
    ("another preview", &[0, 19]),
    ("left by a refused preview", &[19]),
    ("previewed before a step", &[0, 8, 9, 19]),
    ("100,000 words", &[0, 19]),
];

/// How often each kind has to meet what it has to, and each bit has to be changed.
const TIMES: u64 = 20;

/// A commit that was made, and what it answered.
struct Made {
    named: Named,
    strip: Vec<u64>,
    answer: (u32, Slip),
}

#[derive(Default)]
pub struct Strikes {
    previewed: Kinds,
    committed: Kinds,
    /// How often each bit was changed.
    bits: Tally,
    /// How often 19 was given where the page has no room either.
    full: u64,
    /// What was previewed before the last step and not committed, and its strip.
    stale: Option<(Named, Vec<u64>)>,
    /// The commits since the run began.
    made: Vec<Made>,
}

impl Strikes {
    pub fn close(self, group: &mut Group) {
        let Strikes { previewed, committed, bits, full, .. } = self;
        group.same(previewed.lacking(&PREVIEWED, TIMES), vec![], || "previews hardly met".to_string());
        group.same(committed.lacking(&COMMITTED, TIMES), vec![], || "commits hardly met".to_string());
        let all: Vec<u32> = (0..64).collect();
        group.same(bits.lacking(&all, TIMES), vec![], || "bits hardly changed".to_string());
        group.same(full >= 100, true, || "19 before 10 hardly met".to_string());
        group.note(format!("previews: {}", previewed.said()));
        group.note(format!("commits: {}", committed.said()));
        group.note(format!("19 before 10: {full}"));
    }
}

impl Desk<'_> {
    /// A step: a preview in most cases, in some a commit with a strip that may be wrong, and where that was not
    /// accepted, a commit with a right one. What comes of the state, where a commit is accepted.
    pub fn strike(&mut self, state: &State, named: Named) -> Option<State> {
        let new = new_words(state, named);
        let previewed = (!self.random.once_in(8)).then(|| self.preview(state, named, new.len()));
        if self.random.once_in(2) {
            let (kind, strip) = self.doubtful(state, named, &new, previewed.as_ref());
            match self.commit(state, named, kind, &strip) {
                Ok(next) => return Some(next),
                Err(19) if state.1.len() + 1 < state.0.lines as usize + new.len() => self.strikes.full += 1,
                Err(_) => {}
            }
        }
        let (kind, strip) = self.right(&new, previewed);
        self.commit(state, named, kind, &strip).ok()
    }

    /// A step on a sound state, now and then with another preview before it, which is kept; and before both, a commit
    /// of what was kept at an earlier one.
    pub fn strike_sound(&mut self, state: &State, named: Named) -> Option<State> {
        if let Some((named, strip)) = self.strikes.stale.take() {
            if let Ok(next) = self.commit(state, named, "previewed before a step", &strip) {
                return Some(next);
            }
        }
        let other = self.random.once_in(4).then(|| self.drawn_step(state));
        let stale = other.map(|other| (other, self.preview(state, other, new_words(state, other).len()).1));
        let next = self.strike(state, named);
        self.strikes.stale = stale.filter(|_| next.is_some());
        next
    }

    /// Compares a preview onto a strip of some length, filled with any words: the model's refusal number, and the strip
    /// as the library leaves it.
    fn preview(&mut self, state: &State, named: Named, count: usize) -> (u32, Vec<u64>) {
        let (kind, length) = match self.random.below(2000) {
            0 => ("100,000 words", LONG_STRIP),
            1..=9 => ("more than a page", PAGE_LIMIT + 1 + self.random.below(3)),
            10..=499 => ("more words", STRIP + 1 + self.random.below(40)),
            500..=999 => ("16 words", STRIP),
            1000..=1199 => ("no word", 0),
            1200..=1499 if count > 1 => ("a word short", count - 1),
            _ if count > 0 => ("no word spare", count),
            _ => ("no word", 0),
        };
        let before = self.any_words(length);
        let (refused, strip) = compare_preview(self.group, state, named, &before);
        self.strikes.previewed.count(kind, refused);
        (refused, strip)
    }

    /// Compares a commit; what the library makes of the state, or the model's refusal number.
    fn commit(&mut self, state: &State, named: Named, kind: &'static str, strip: &[u64]) -> Answer<State> {
        let (refused, next) = compare_commit(self.group, state, named, strip);
        self.called.count(refused);
        self.strikes.committed.count(kind, refused);
        self.strikes.made.push(Made { named, strip: strip.to_vec(), answer: (refused, next.0) });
        if refused == 0 {
            Ok(next)
        } else {
            Err(refused)
        }
    }

    fn any_words(&mut self, length: usize) -> Vec<u64> {
        (0..length).map(|_| self.random.next()).collect()
    }

    /// A strip with the new lines at its front: the previewed one in half of the cases, where there is one.
    fn right(&mut self, new: &[u64], previewed: Option<(u32, Vec<u64>)>) -> (&'static str, Vec<u64>) {
        let more = 1 + self.random.below(20);
        let behind = self.any_words(more);
        match (self.random.below(4), previewed.filter(|(refused, _)| *refused != 18)) {
            (0, _) if new.is_empty() => ("no word", vec![]),
            (0, _) => ("no word spare", new.to_vec()),
            (1, _) => ("other words behind", [new, &behind].concat()),
            (_, Some((_, strip))) => ("as previewed", strip),
            (_, None) => ("not previewed", [new, &behind].concat()),
        }
    }

    /// A strip that is hardly right where there are new lines, and mostly where there are none.
    fn doubtful(
        &mut self,
        state: &State,
        named: Named,
        new: &[u64],
        previewed: Option<&(u32, Vec<u64>)>,
    ) -> (&'static str, Vec<u64>) {
        let last = new.len().saturating_sub(1);
        match self.random.below(16) {
            0 => ("no word", vec![]),
            1 if last > 0 => ("a word short", new[..last].to_vec()),
            2 | 3 if last > 0 => {
                let at = self.random.below(last);
                let mut strip = new.to_vec();
                strip.swap(at, at + 1 + self.random.below(last - at));
                ("two words exchanged", strip)
            }
            4 if !new.is_empty() => {
                let class = state.1[named.line as usize] % (1 << 32);
                ("the class with the cycle", new.iter().map(|word| (word >> 32 << 32) + class).collect())
            }
            5 | 6 => self.empty_shape(state, named, new),
            7 | 8 if sessions::sound(&state.0, &state.1).is_ok() => {
                let other = self.drawn_step(state);
                ("another preview", self.preview(state, other, new_words(state, other).len()).1)
            }
            9 if self.random.once_in(20) => {
                let mut strip = self.any_words(LONG_STRIP);
                strip[..new.len()].copy_from_slice(new);
                strip[last] ^= self.random.next() % 2;
                ("100,000 words", strip)
            }
            10..=13 if !new.is_empty() => {
                let (at, bit) = (self.random.below(new.len()), self.random.below(64));
                self.strikes.bits.count(bit as u32);
                let more = self.random.below(3);
                let mut strip = [new, &self.any_words(more)].concat();
                strip[at] ^= 1 << bit;
                ("a bit changed", strip)
            }
            _ => match previewed {
                Some((18, strip)) => ("left by a refused preview", strip.clone()),
                _ => ("any words", self.any_words(STRIP)),
            },
        }
    }

    /// The new lines behind a line with an empty shape: that of the sign that is settled, where one is.
    fn empty_shape(&mut self, state: &State, named: Named, new: &[u64]) -> (&'static str, Vec<u64>) {
        let (slip, page) = state;
        let committed = sessions::commit(slip, page, named.line, named.cycle, new);
        match committed.map_or(0, |(next, _)| next.settled - slip.settled) {
            1 => ("a settled sign's line", vec![0]),
            -1 => ("a settled sign's line", vec![1 << 63]),
            _ => {
                let class = new.first().map_or(0, |word| word % (1 << 32));
                let front = *self.random.pick(&[0, 1 << 63, class]);
                ("an empty shape in front", [&[front], new].concat())
            }
        }
    }

    /// Makes the commits of a run once more, each with its strip, the watches and previews struck: they answer the
    /// same, and leave the same at the end.
    pub fn make_again(&mut self, begun: &State, end: &State) {
        let (mut slip, mut page) = begun.clone();
        for Made { named, strip, answer } in std::mem::take(&mut self.strikes.made) {
            let again = calls::commit(slip, &page, named.line, named.cycle, &strip);
            self.group.same(again.answer.answer, answer, || format!("commit of {named:?} of {slip:?}, made again"));
            (slip, page) = (again.answer.answer.1, again.run);
        }
        self.group.same(&(slip, page), end, || format!("the end of a run from {:?}, made again", begun.0));
    }

    /// Leaves out of the run what is done on another state than the run's.
    pub fn aside<R>(&mut self, call: impl FnOnce(&mut Self) -> R) {
        let made = std::mem::take(&mut self.strikes.made);
        call(self);
        self.strikes.made = made;
    }
}

/// The model's new lines of what is named, none where it refuses.
fn new_words((slip, page): &State, Named { line, cycle }: Named) -> Vec<u64> {
    sessions::new_words(slip, page, line, cycle).unwrap_or_default()
}
