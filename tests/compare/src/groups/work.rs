//! How much a watch costs the library, which finds each character anew: the dearest are only watched now and then.

use crate::model::partitions::{strikes, without};
use crate::model::sessions::Line;
use crate::model::{Answer, Parts};
use crate::random::Random;
use std::collections::HashMap;

/// The number of lines that a character comes from, up to which it is always watched.
const CHEAP: u64 = 200;

/// The number of lines that come of each shape and class, itself included.
#[derive(Default)]
pub struct Work(HashMap<(Parts, Parts), u64>);

impl Work {
    fn of(&mut self, shape: &[u8], class: &[u8]) -> u64 {
        let pair = (shape.to_vec(), class.to_vec());
        if let Some(&known) = self.0.get(&pair) {
            return known;
        }
        let mut lines = 1;
        if let Some(&cycle) = class.first() {
            let rest = without(class, cycle.into()).unwrap();
            lines += strikes(shape, cycle).iter().map(|(_, left)| self.of(left, &rest)).sum::<u64>();
        }
        self.0.insert(pair, lines);
        lines
    }

    /// Whether a watch is cheap, or it is its turn.
    pub fn affordable(&mut self, random: &mut Random, lines: &Answer<Vec<Line>>, kind: u64, line: u64) -> bool {
        let Ok(lines) = lines else { return true };
        let chosen = || lines.get(line as usize);
        let work = match kind {
            1 => chosen().map_or(0, |line| self.of(&line.shape, &line.class)),
            2 => chosen().map_or(0, |line| {
                let ones = vec![1; line.shape.iter().map(|&row| usize::from(row)).sum()];
                self.of(&line.shape, &line.class) + self.of(&line.shape, &ones)
            }),
            4 => lines.iter().map(|line| self.of(&line.shape, &line.class)).sum(),
            _ => 0,
        };
        work <= CHEAP || random.once_in(work / CHEAP)
    }
}
