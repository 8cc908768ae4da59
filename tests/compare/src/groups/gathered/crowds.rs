//! Crowded pages: a line is struck whose hooks meet lines that are there already, some with just the coefficient that
//! cancels, among up to 4,095 others and in any order, on pages that are just long enough for what is left, and on
//! pages with a word less. Then the same with one line made equal to another, or nearly. Pages of lines that are alike
//! in one half of their words; and pages of many counts of lines.

use super::made::{coefficient, equal, session_of};
use super::{compare_commit, compare_preview, compare_save, compare_watch, watched};
use crate::groups::made::random_line;
use crate::groups::strips::{Named, STRIP};
use crate::groups::Tally;
use crate::model::characters::Characters;
use crate::model::gathered::{hook_words, word, Session};
use crate::model::partitions::{strikes, without};
use crate::model::sessions::{Line, Slip, PAGE_LIMIT};
use crate::model::words::{pack_class, pack_shape};
use crate::model::Parts;
use crate::random::Random;
use crate::report::Group;
use std::collections::HashSet;

/// How many pages there are, how many of them are full, and the greatest degree of a line.
const PAGES: usize = 1500;
const FULL_ONCE_IN: usize = 75;
const GREATEST: usize = 12;

/// A line, a cycle of its class, and the hooks that make lines, with their own signs.
pub struct Struck {
    pub line: Line,
    pub cycle: u64,
    pub hooks: Vec<Line>,
}

/// Everything that these comparisons need at hand.
pub struct Crowds<'a> {
    pub characters: &'a Characters,
    pub random: Random,
    pub group: &'a mut Group,
    committed: Tally,
    pub judged: Tally,
    pub loaded: Tally,
    joined: usize,
    cancelled: usize,
    /// How often a page took a commit that has no room before its lines are gathered.
    spared: usize,
}

pub fn run(characters: &Characters, group: &mut Group) {
    let mut crowds = Crowds {
        characters,
        random: Random(21),
        group,
        committed: Tally::default(),
        judged: Tally::default(),
        loaded: Tally::default(),
        joined: 0,
        cancelled: 0,
        spared: 0,
    };
    for at in 0..PAGES {
        let most = if at % FULL_ONCE_IN == 0 { PAGE_LIMIT } else { 2 + at % 60 };
        crowds.page(most);
    }
    for listing in characters.listings[1..=GREATEST].iter().cycle().take(5 * GREATEST) {
        crowds.alike(listing);
    }
    crowds.counts();
    let Crowds { group, committed, judged, loaded, joined, cancelled, spared, .. } = crowds;
    group.same(committed.lacking(&[0, 10], 100), vec![], || "commit refusals hardly met".to_string());
    group.same(judged.lacking(&[0, 7], 500), vec![], || "pages hardly judged".to_string());
    group.same(loaded.lacking(&[0, 7, 10], 100), vec![], || "load refusals hardly met".to_string());
    group.same([joined, cancelled, spared].iter().all(|&times| times > 200), true, || "hardly crowded".to_string());
    group.note(format!("{joined} joined, {cancelled} cancelled, {spared} with room only after gathering"));
    group.note(format!("commits: {}", committed.said()));
    group.note(format!("judged: {}", judged.said()));
    group.note(format!("loads: {}", loaded.said()));
}

impl Crowds<'_> {
    /// A page of so many lines, or of those that the hooks meet, where these are more.
    fn page(&mut self, most: usize) {
        let Struck { line, cycle, hooks } = self.struck();
        let mut known: HashSet<u64> = hooks.iter().chain([&line]).map(word).collect();
        let (mut lines, mut new, mut cancelled) = (vec![line.clone()], 0, 0);
        for hook in hooks {
            let brought = line.sign * hook.sign;
            match self.random.below(4) {
                0 => new += 1,
                1 => {
                    cancelled += 1;
                    lines.push(Line { sign: -brought, ..hook });
                }
                _ => lines.push(Line { sign: self.other_than(-brought), ..hook }),
            }
        }
        self.joined += lines.len() - 1 - cancelled;
        self.cancelled += cancelled;
        self.fill(&mut lines, &mut known, most);
        self.shuffle(&mut lines);
        let named = Named { line: lines.iter().position(|other| equal(&line, other)).unwrap() as u64, cycle };
        let after = lines.len() - 1 - cancelled + new;
        for words in [after.saturating_sub(1), after, after + 1, lines.len()] {
            if (lines.len()..=PAGE_LIMIT).contains(&words) {
                let session = session_of(self.slip(), &lines, words - lines.len());
                self.strike(&session, named);
            }
        }
        let free = self.random.below(3).min(PAGE_LIMIT - lines.len());
        let session = session_of(self.slip(), &lines, free);
        self.judge(&session, named);
    }

    /// A coefficient that is not this one.
    fn other_than(&mut self, number: i64) -> i64 {
        loop {
            let drawn = coefficient(&mut self.random, 4);
            if drawn != number {
                return drawn;
            }
        }
    }

    /// One shape on all classes of a degree, and all shapes on one class: half of each line's word is that of all.
    fn alike(&mut self, listing: &[Parts]) {
        let one = self.random.pick(listing).clone();
        let on = |shape: &Parts, class: &Parts| Line { sign: -1, shape: shape.clone(), class: class.clone() };
        let shapes = listing.iter().map(|other| on(other, &one)).collect();
        let classes = listing.iter().map(|other| on(&one, other)).collect();
        let both: [Vec<Line>; 2] = [shapes, classes];
        for mut lines in both {
            self.shuffle(&mut lines);
            let line = self.random.below(lines.len());
            let named = Named { line: line as u64, cycle: lines[line].class[0].into() };
            let session = session_of(self.slip(), &lines, 16);
            self.strike(&session, named);
            self.judge(&session, named);
        }
    }

    /// The slip of a session of degree 16; settled may have any sign.
    pub fn slip(&mut self) -> Slip {
        let settled = self.random.below(2_000_001) as i64 - 1_000_000;
        Slip { shape: pack_shape(&[16]), class: pack_class(&[16]), settled, ..Slip::default() }
    }

    /// A line that is struck, with one hook that makes a line at least.
    pub fn struck(&mut self) -> Struck {
        loop {
            let degree = 2 + self.random.below(GREATEST - 1);
            let line = random_line(self.characters, &mut self.random, degree);
            let cycle = *self.random.pick(&line.class);
            let class = without(&line.class, cycle.into()).unwrap();
            let all = strikes(&line.shape, cycle).into_iter();
            let hooks = all.map(|(sign, shape)| Line { sign, shape, class: class.clone() });
            let hooks: Vec<Line> = hooks.filter(|hook| !hook.shape.is_empty()).collect();
            if !hooks.is_empty() {
                let line = Line { sign: coefficient(&mut self.random, 3), ..line };
                return Struck { line, cycle: cycle.into(), hooks };
            }
        }
    }

    /// Other lines, up to so many in all, which the strike does not meet.
    pub fn fill(&mut self, lines: &mut Vec<Line>, known: &mut HashSet<u64>, most: usize) {
        while lines.len() < most {
            let degree = 1 + self.random.below(GREATEST);
            let line = random_line(self.characters, &mut self.random, degree);
            if known.insert(word(&line)) {
                lines.push(Line { sign: coefficient(&mut self.random, 5), ..line });
            }
        }
    }

    pub fn shuffle(&mut self, lines: &mut [Line]) {
        for at in (1..lines.len()).rev() {
            lines.swap(at, self.random.below(at + 1));
        }
    }

    /// A preview, its commit, and commits with no strip and with another.
    pub fn strike(&mut self, session: &Session, named: Named) {
        let (_, strip) = compare_preview(self.group, session, named, &[7; STRIP]);
        let (refused, next) = compare_commit(self.group, session, named, &strip);
        let hooks = hook_words(session, named.line, named.cycle).unwrap_or_default().len();
        if refused == 0 && session.slip.lines as usize - 1 + hooks > session.page.len() {
            self.spared += 1;
        }
        self.committed.count(refused);
        compare_commit(self.group, session, named, &[]);
        compare_commit(self.group, session, named, &other_signs(&strip));
        if refused == 0 && self.random.once_in(3) {
            let model = watched(self.characters, &next, 3, 0);
            compare_watch(self.group, &next, (3, 0), model);
        }
    }

    /// The same with one line in another's place, or changed a little: it is sound only where no line is there twice.
    fn judge(&mut self, session: &Session, named: Named) {
        let lines = session.slip.lines as usize;
        for _ in 0..6 {
            let mut other = session.clone();
            let (at, from) = (self.random.below(lines), self.random.below(lines));
            let (high, low) = (|word: u64| word >> 32 << 32, |word: u64| word % (1 << 32));
            other.page[at] = match self.random.below(6) {
                0 | 1 => session.page[from],
                2 => high(session.page[at]) + low(session.page[from]),
                3 => high(session.page[from]) + low(session.page[at]),
                4 => session.page[at] ^ 1 << self.random.below(64),
                _ => session.page[at],
            };
            let model = watched(self.characters, &other, 5, 0);
            let refused = compare_watch(self.group, &other, (5, 0), model);
            self.judged.count(refused);
            let (_, strip) = compare_preview(self.group, &other, named, &[7; STRIP]);
            compare_commit(self.group, &other, named, &strip);
        }
        compare_save(self.group, session, &[7; 100]);
    }
}

/// A strip with other signs.
fn other_signs(strip: &[u64]) -> Vec<u64> {
    strip.iter().map(|word| word ^ 1 << 63).collect()
}
