//! Slips, pages and columns that are not sound: sound sessions with each field, each word and each coefficient changed,
//! one at a time, and pairs of coefficients of any size. Every call has to judge alike, and none may overflow.

use super::made::{made_up, session_of, Room, WRONG_MODES};
use super::{compare_commit, compare_preview, compare_save, compare_watch, watched};
use crate::groups::made::damaged_line;
use crate::groups::strips::{Named, STRIP};
use crate::groups::Tally;
use crate::model::characters::Characters;
use crate::model::gathered::Session;
use crate::model::partitions::{degree, factorial};
use crate::model::sessions::{Line, Slip};
use crate::model::words::{pack_class, pack_shape, read_class, read_shape};
use crate::random::Random;
use crate::report::Group;

/// How many drawn sessions are changed.
const DRAWN: usize = 60;

/// Everything that these comparisons need at hand.
struct Judge<'a> {
    characters: &'a Characters,
    random: Random,
    group: &'a mut Group,
    judged: Tally,
}

pub fn run(characters: &Characters, group: &mut Group) {
    let mut judge = Judge { characters, random: Random(24), group, judged: Tally::default() };
    for _ in 0..DRAWN {
        let session = made_up(characters, &mut judge.random);
        judge.same(&session);
        judge.slips(&session);
        judge.pages(&session);
        judge.columns(&session);
    }
    judge.sizes();
    judge.pairs();
    let Judge { group, judged, .. } = judge;
    group.same(judged.lacking(&[0, 7, 21], 100), vec![], || "refusals hardly met".to_string());
    group.note(judged.said());
}

/// Numbers near powers of two, either sign, and the least and the greatest.
fn borders() -> Vec<i64> {
    let near = |power: i64| [power, power.wrapping_add(1), power.wrapping_sub(1)];
    let powers = (0..64).map(|k| 1i64 << k).flat_map(near);
    let mut all: Vec<i64> = powers.flat_map(|number| [number, number.wrapping_neg()]).collect();
    all.extend([i64::MIN, i64::MIN + 1, i64::MAX]);
    all.sort_unstable();
    all.dedup();
    all
}

impl Judge<'_> {
    /// Compares a watch, a preview, a commit and a save.
    fn same(&mut self, session: &Session) {
        let refused = compare_watch(self.group, session, (3, 0), watched(self.characters, session, 3, 0));
        self.judged.count(refused);
        let lines = session.slip.lines.clamp(1, 100) as usize;
        let line = self.random.below(lines);
        let class = session.page.get(line).and_then(|&word| read_class(word as u32).ok()).unwrap_or_default();
        let cycle = class.first().map_or(1, |&cycle| cycle.into());
        let named = Named { line: line as u64, cycle };
        let (_, strip) = compare_preview(self.group, session, named, &[7; STRIP]);
        compare_commit(self.group, session, named, &strip);
        compare_save(self.group, session, &[7; 60]);
    }

    fn slips(&mut self, session: &Session) {
        let Session { slip, page, .. } = session;
        let (room, words) = (Room::of(session), page.len() as u64);
        let (settled, steps) = (room.settled as i64, room.steps as i64);
        let mut all = vec![];
        let bits = |word: u32| (0..32).map(move |bit| word ^ 1 << bit);
        all.extend(bits(slip.shape).map(|shape| Slip { shape, ..*slip }));
        all.extend(bits(slip.class).map(|class| Slip { class, ..*slip }));
        all.extend(bits(slip.mode).chain(WRONG_MODES).map(|mode| Slip { mode, ..*slip }));
        let counts = [0, 1, slip.lines + 1, slip.lines.wrapping_sub(1), words, words + 1, 1 << 32, u64::MAX];
        all.extend(counts.map(|lines| Slip { lines, ..*slip }));
        let sums = [settled, settled + 1, -settled, -settled - 1].into_iter().chain(borders());
        all.extend(sums.map(|settled| Slip { settled, ..*slip }));
        let counts = [steps, steps + 1, -1].into_iter().chain(borders());
        all.extend(counts.map(|steps| Slip { steps, ..*slip }));
        for slip in all {
            self.same(&Session { slip, ..session.clone() });
        }
    }

    /// Each word changed in each digit, to nothing, to any other line, and to each of the other words.
    fn pages(&mut self, session: &Session) {
        for at in 0..session.page.len() {
            let word = session.page[at];
            let mut words: Vec<u64> = (0..64).map(|bit| word ^ 1 << bit).collect();
            words.extend((0..4).map(|_| damaged_line(self.characters, &mut self.random)));
            words.extend(&session.page);
            words.extend([0, 1, u64::MAX, 1 << 63]);
            for word in words {
                let mut other = session.clone();
                other.page[at] = word;
                self.same(&other);
            }
        }
    }

    /// Each coefficient changed: to 0, to all that there is room for and one more, to the borders; and the column made
    /// longer and shorter, with numbers there or zeros.
    fn columns(&mut self, session: &Session) {
        let lines = session.slip.lines as usize;
        for at in 0..session.column.len() {
            let number = session.column[at];
            let mut numbers = vec![0, -number, number + 1, number - 1];
            if at < lines {
                let rows = read_shape((session.page[at] >> 32) as u32).unwrap();
                let free = Room::of(session).settled - i128::from(session.slip.settled).abs();
                let most = number.abs() + (free / factorial(degree(&rows))) as i64;
                numbers.extend([most, -most, most + 1, -most - 1]);
            }
            numbers.extend(borders());
            for number in numbers {
                let mut other = session.clone();
                other.column[at] = number;
                self.same(&other);
            }
        }
        let count = session.column.len();
        for (length, filled) in [0, lines, count.saturating_sub(1), count + 1, 4096, 4097].map(|n| (n, n as i64 % 2)) {
            let mut other = session.clone();
            other.column.resize(length, filled);
            self.same(&other);
        }
    }

    /// A line of each degree with coefficients of all sizes: d! times these wraps in 64 bits, in many cases to little.
    fn sizes(&mut self) {
        let slip = Slip { shape: pack_shape(&[16]), class: pack_class(&[16]), ..Slip::default() };
        for d in 1..=16u8 {
            let most = (factorial(16) / factorial(d.into())) as i64;
            for sign in borders().into_iter().chain([most, -most, most + 1, -most - 1]).filter(|&sign| sign != 0) {
                let line = Line { sign, shape: vec![d], class: vec![d] };
                self.same(&session_of(slip, &[line], 1));
            }
        }
    }

    /// Two lines whose sizes together wrap, and together with settled.
    fn pairs(&mut self) {
        let borders: Vec<i64> = borders().into_iter().filter(|number| number.unsigned_abs() >= 1 << 40).collect();
        for _ in 0..6000 {
            let (d, e) = (1 + self.random.below(16) as u8, 1 + self.random.below(16) as u8);
            let line = |sign: i64, d: u8, rows: Vec<u8>| Line { sign, shape: rows, class: vec![d] };
            let (one, other) = (*self.random.pick(&borders), *self.random.pick(&borders));
            let lines = [line(one, d, vec![d]), line(other, e, vec![1; e.into()])];
            let settled = *self.random.pick(&[0, 1, -1, other, i64::MIN]);
            let slip = Slip { shape: pack_shape(&[16]), class: pack_class(&[16]), settled, ..Slip::default() };
            self.same(&session_of(slip, &lines, 0));
        }
    }
}
