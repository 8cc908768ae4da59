//! Saves and loads in random sessions: a text goes into bytes of some length, and texts of this session and of earlier
//! ones, some of them damaged, are loaded onto pages of other lengths, where the session goes on.

use super::made::damaged;
use super::sessions::{Desk, State, LENGTHS};
use super::texts::{compare_load, compare_save};
use super::Tally;
use crate::model::texts;
use crate::report::Group;

/// How many texts are kept to be loaded.
const KEPT: usize = 8;

/// Texts that were saved, each with what is settled and waits there.
#[derive(Default)]
pub struct Store {
    kept: Vec<(Vec<u8>, i64)>,
    saved: Tally,
    loaded: Tally,
}

impl Store {
    pub fn close(self, group: &mut Group) {
        let Store { saved, loaded, .. } = self;
        group.same(saved.lacking(&[0, 6, 7, 17], 100), vec![], || "save refusals hardly met".to_string());
        group.same(loaded.lacking(&[0, 6, 7, 10, 16], 100), vec![], || "load refusals hardly met".to_string());
        group.note(format!("saves: {}", saved.said()));
        group.note(format!("loads: {}", loaded.said()));
    }
}

impl Desk<'_> {
    /// A save of the state, which stays, or of a damaged one. Where it is not refused, the text is kept.
    pub fn save(&mut self, state: &State, total: i64) {
        let hurt = self.random.once_in(3).then(|| damaged(self.characters, &mut self.random, state));
        let (slip, page) = hurt.as_ref().unwrap_or(state);
        let length = texts::text(slip, page).map_or(40, |text| text.len());
        let room = length + [0, 0, 0, 1, 2, 300][self.random.below(6)] - usize::from(self.random.once_in(4));
        let before: Vec<u8> = (0..room).map(|_| self.random.next() as u8).collect();
        let text = compare_save(self.group, &mut self.store.saved, *slip, page, &before);
        if let (Some(text), None) = (text, hurt) {
            let at = self.random.below(KEPT);
            self.store.kept.truncate(KEPT - 1);
            self.store.kept.insert(at.min(self.store.kept.len()), (text, total));
        }
    }

    /// A load of a kept text, one in four with a byte changed, onto a page of any length. What it gives, where it is not
    /// refused, and what is settled and waits there.
    pub fn load(&mut self) -> Option<(State, i64)> {
        if self.store.kept.is_empty() {
            return None;
        }
        let (mut text, total) = self.random.pick(&self.store.kept).clone();
        let changed = self.random.once_in(4);
        if changed {
            let at = self.random.below(text.len());
            text[at] = *self.random.pick(b"0123456789,;-+\n");
        }
        let words = *self.random.pick(&LENGTHS);
        let before: Vec<u64> = (0..words).map(|_| self.random.next()).collect();
        let state = compare_load(self.group, &mut self.store.loaded, &text, &before)?;
        let total = if changed { self.total(&state) } else { total };
        Some((state, total))
    }
}
