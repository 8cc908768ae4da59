//! Saves and loads in random gathered sessions: texts of this session and of earlier ones, some of them changed, are
//! loaded onto pages of other lengths, where the session goes on.

use super::runs::{Desk, LENGTHS};
use super::striking::Run;
use super::{compare_load, compare_save};
use crate::groups::Tally;
use crate::model::gathered::Session;
use crate::model::texts::gathered_text;
use crate::report::Group;

/// How many texts are kept to be loaded.
const KEPT: usize = 8;

#[derive(Default)]
pub struct Store {
    kept: Vec<Vec<u8>>,
    saved: Tally,
    loaded: Tally,
}

impl Store {
    pub fn close(self, group: &mut Group) {
        let Store { saved, loaded, .. } = self;
        group.same(saved.lacking(&[0, 6, 7, 17, 21], 20), vec![], || "save refusals hardly met".to_string());
        group.same(loaded.lacking(&[0, 6, 7, 10, 16, 21], 20), vec![], || "load refusals hardly met".to_string());
        group.note(format!("saves: {}", saved.said()));
        group.note(format!("loads: {}", loaded.said()));
    }
}

impl Desk<'_> {
    /// A save, which keeps its text where it is not refused.
    pub fn save(&mut self, session: &Session) {
        let text = gathered_text(session);
        let length = text.as_ref().map_or(40, String::len);
        let room = length + [0, 0, 1, 300][self.random.below(4)] - usize::from(self.random.once_in(4));
        let before: Vec<u8> = (0..room).map(|_| self.random.next() as u8).collect();
        let refused = compare_save(self.group, session, &before);
        self.store.saved.count(refused);
        if let (Ok(text), 0) = (text, refused) {
            let at = self.random.below(KEPT);
            self.store.kept.truncate(KEPT - 1);
            self.store.kept.insert(at.min(self.store.kept.len()), text.into_bytes());
        }
    }

    /// A load of a kept text, one in three with a byte changed, onto a page of any length; the run that begins with it,
    /// its twin loaded onto other words.
    pub fn load(&mut self) -> Option<Run> {
        if self.store.kept.is_empty() {
            return None;
        }
        let mut text = self.random.pick(&self.store.kept).clone();
        if self.random.once_in(3) {
            let at = self.random.below(text.len());
            text[at] = *self.random.pick(b"0123456789,;-+\n");
        }
        let words = *self.random.pick(&LENGTHS);
        let count = if self.random.once_in(8) { *self.random.pick(&LENGTHS) } else { words };
        let (page, column) = self.any_runs(words, count);
        let (refused, session) = compare_load(self.group, &text, &page, &column);
        self.store.loaded.count(refused);
        let (_, twin) = compare_load(self.group, &text, &vec![5; words], &vec![-5; count]);
        session.zip(twin).map(|(session, twin)| Run { session, twin })
    }
}
