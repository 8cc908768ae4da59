//! The groups of comparisons, and what they share.

pub mod columns;
mod draws;
pub mod ends;
pub mod examples;
pub mod formulas;
pub mod gathered;
pub mod handmade;
pub mod in_front;
pub mod kept;
pub mod lists;
pub mod long;
mod made;
pub mod old_lists;
pub mod pairs;
pub mod sessions;
pub mod sizes;
mod storing;
mod striking;
pub mod strips;
pub mod texts;
pub mod words;
mod work;

use crate::calls::Valued;
use crate::model::Answer;
use std::collections::BTreeMap;

/// The model's answer as the library gives it: the value, 0 when refused, and the refusal number, 0 for none.
pub fn valued<T: Default>(answer: Answer<T>) -> Valued<T> {
    match answer {
        Ok(value) => (value, 0),
        Err(refused) => (T::default(), refused),
    }
}

/// How often each refusal number was given, 0 for none: a group says so, and wants to have met all that it can.
#[derive(Default)]
pub struct Tally(BTreeMap<u32, u64>);

impl Tally {
    pub fn count(&mut self, refused: u32) {
        *self.0.entry(refused).or_insert(0) += 1;
    }

    /// The wanted numbers that were given less than `times` times.
    pub fn lacking(&self, wanted: &[u32], times: u64) -> Vec<u32> {
        wanted.iter().copied().filter(|refused| self.0.get(refused).copied().unwrap_or(0) < times).collect()
    }

    pub fn said(&self) -> String {
        format!("refusals {}", self.counts())
    }

    fn counts(&self) -> String {
        let counts: Vec<String> = self.0.iter().map(|(refused, times)| format!("{refused}: {times}")).collect();
        counts.join(" ")
    }
}

/// How often each refusal number was given, by kinds of cases.
#[derive(Default)]
pub struct Kinds(BTreeMap<&'static str, Tally>);

/// The name of a kind of cases, and the refusal numbers that it has to meet, 0 for none.
pub type Wanted = (&'static str, &'static [u32]);

impl Kinds {
    pub fn count(&mut self, kind: &'static str, refused: u32) {
        self.0.entry(kind).or_default().count(refused);
    }

    /// The kinds that met a wanted number less than `times` times, with these numbers.
    pub fn lacking(&self, wanted: &[Wanted], times: u64) -> Vec<(&'static str, Vec<u32>)> {
        let none = Tally::default();
        let each = wanted.iter().map(|(kind, met)| (*kind, self.0.get(kind).unwrap_or(&none).lacking(met, times)));
        each.filter(|(_, lacking)| !lacking.is_empty()).collect()
    }

    pub fn said(&self) -> String {
        let kinds: Vec<String> = self.0.iter().map(|(kind, tally)| format!("{kind} ({})", tally.counts())).collect();
        kinds.join(" ")
    }
}
