//! Pages by the number of their lines: every count up to twice that at which the library goes on in another way, and
//! some up to the longest page. A page is judged as it is and with one line's word in another's place, struck, saved,
//! and loaded onto a word less, as many words and one more; so is its text with one line in another's place.

use super::crowds::{Crowds, Struck};
use super::made::{coefficient, equal, session_of};
use super::{compare_load, compare_save, compare_watch, watched};
use crate::groups::strips::Named;
use crate::model::gathered::{word, Session};
use crate::model::sessions::{Line, PAGE_LIMIT};
use crate::model::texts::gathered_text;
use std::collections::HashSet;

/// Every count up to this one, and the others.
const EVERY: usize = 130;
const OTHERS: [usize; 6] = [255, 256, 1000, PAGE_LIMIT - 2, PAGE_LIMIT - 1, PAGE_LIMIT];

/// How many lines of a text stand before the waiting ones.
const HEAD: usize = 7;

/// The place of a line, and that of another which is made equal to it.
type Copied = (usize, usize);

impl Crowds<'_> {
    /// Pages of all these counts, with no word behind their lines and with one.
    pub fn counts(&mut self) {
        for count in (0..=EVERY).chain(OTHERS) {
            let (lines, named) = self.different(count);
            let copies = self.copies(count);
            for words in (count..=count + 1).filter(|&words| words <= PAGE_LIMIT) {
                let session = session_of(self.slip(), &lines, words - count);
                self.judge_copies(&session, &copies);
                self.strike(&session, named);
            }
            let session = session_of(self.slip(), &lines, 0);
            self.store(&session, &copies);
        }
    }

    /// So many different lines: one to be struck, what some of its hooks leave, as far as there is room, and others.
    fn different(&mut self, count: usize) -> (Vec<Line>, Named) {
        let Struck { line, cycle, hooks } = self.struck();
        let mut lines = vec![line.clone()];
        for hook in hooks {
            if self.random.once_in(2) {
                lines.push(Line { sign: coefficient(&mut self.random, 2), ..hook });
            }
        }
        lines.truncate(count);
        let mut known: HashSet<u64> = lines.iter().map(word).collect();
        self.fill(&mut lines, &mut known, count);
        self.shuffle(&mut lines);
        let at = lines.iter().position(|other| equal(&line, other)).unwrap_or(0);
        (lines, Named { line: at as u64, cycle })
    }

    /// The first and the last line, neighbours, and two that are drawn, where there are two.
    fn copies(&mut self, count: usize) -> Vec<Copied> {
        let last = count.saturating_sub(1);
        let drawn = (self.random.below(last.max(1)), last - self.random.below(last.max(1)));
        let all = [(0, last), (last.saturating_sub(1), last), (0, 1), (62, 63), (63, 64), drawn];
        all.into_iter().filter(|(from, to)| from != to && *from.max(to) < count).collect()
    }

    /// A watch of the session, and of it with each of these copies, with which it is not sound.
    fn judge_copies(&mut self, session: &Session, copies: &[Copied]) {
        self.watch(session);
        for &(from, to) in copies {
            let mut other = session.clone();
            other.page[to] = session.page[from];
            self.watch(&other);
        }
    }

    fn watch(&mut self, session: &Session) {
        let refused = compare_watch(self.group, session, (5, 0), watched(self.characters, session, 5, 0));
        self.judged.count(refused);
    }

    /// Saves with just enough room, less and much more, and loads of the text and of each copy.
    fn store(&mut self, session: &Session, copies: &[Copied]) {
        let text = gathered_text(session).unwrap();
        for room in [text.len() - 1, text.len(), 3 * text.len()] {
            compare_save(self.group, session, &vec![7; room]);
        }
        let count = session.page.len();
        for words in [count.saturating_sub(1), count, count + 1] {
            self.load(&text, words);
        }
        for &copy in copies {
            self.load(&copied(&text, copy), count);
        }
    }

    fn load(&mut self, text: &str, words: usize) {
        let (refused, _) = compare_load(self.group, text.as_bytes(), &vec![7; words], &vec![-7; words]);
        self.loaded.count(refused);
    }
}

/// A text with one of its waiting lines in another's place.
fn copied(text: &str, (from, to): Copied) -> String {
    let mut lines: Vec<&str> = text.split_inclusive('\n').collect();
    lines[HEAD + to] = lines[HEAD + from];
    lines.concat()
}
