//! Random gathered sessions: openings, steps, each a preview and its commit, saves and loads, with wrong lines, cycles,
//! strips, slips, pages, columns and texts among them. After each call everything is compared; after each that is
//! accepted, what the library shows as settled (3) and as waiting (4), added up, with what the session began with.
//! Every run has a twin, another page and column on which the same commits and loads are made, with no watch and no
//! preview between them: all answers are alike, and so is what is left at the end.

use super::made::{damaged, made_up};
use super::storing::Store;
use super::striking::{Run, Strikes};
use super::{compare_commit, compare_open, compare_watch, total};
use crate::calls::gathered as calls;
use crate::groups::draws::{listed, random_ones, random_parts, random_word};
use crate::groups::made::wrong_line;
use crate::groups::work::Work;
use crate::groups::Tally;
use crate::model::characters::Characters;
use crate::model::gathered::{self, Session};
use crate::model::words::{pack_class, pack_shape};
use crate::random::Random;
use crate::report::Group;

const CALLS: usize = 100_000;

/// Page lengths; what an opening or a load finds there is arbitrary.
pub const LENGTHS: [usize; 15] = [0, 1, 1, 2, 3, 4, 5, 6, 8, 12, 20, 60, 300, 4096, 4097];

/// Everything that a random session needs at hand.
pub struct Desk<'a> {
    pub characters: &'a Characters,
    pub random: Random,
    pub group: &'a mut Group,
    pub store: Store,
    work: Work,
    calls: usize,
    opened: Tally,
    watched: Tally,
    pub strikes: Strikes,
}

pub fn run(characters: &Characters, group: &mut Group) {
    let mut desk = Desk {
        characters,
        random: Random(25),
        group,
        store: Store::default(),
        work: Work::default(),
        calls: 0,
        opened: Tally::default(),
        watched: Tally::default(),
        strikes: Strikes::default(),
    };
    while desk.calls < CALLS {
        desk.session();
    }
    let Desk { group, store, opened, watched, strikes, .. } = desk;
    group.same(opened.lacking(&[0, 1, 2, 3, 4, 5, 6, 10, 21], 50), vec![], || "openings hardly met".to_string());
    group.same(watched.lacking(&[0, 6, 7, 8, 15, 21], 100), vec![], || "watches hardly met".to_string());
    group.note(format!("{CALLS} openings and steps"));
    group.note(format!("openings: {}", opened.said()));
    group.note(format!("watches: {}", watched.said()));
    strikes.close(group);
    store.close(group);
}

impl Desk<'_> {
    /// One session, from an opening, from a kept text or from a sound page that no opening made, to its end or until it
    /// is laid aside; and its twin.
    fn session(&mut self) {
        let begun = match self.random.below(5) {
            0 => Some(Run::of(made_up(self.characters, &mut self.random))),
            1 => self.load(),
            _ => self.open().map(Run::of),
        };
        let Some(mut run) = begun else { return };
        let mut sum = total(self.characters, &run.session);
        for _ in 0..1 + self.random.below(60) {
            self.conserve(&run.session, sum);
            self.watch(&run.session);
            if self.calls >= CALLS || run.session.slip.lines == 0 && !self.random.once_in(4) {
                break;
            }
            match self.random.below(12) {
                0 => self.save(&run.session),
                1 => {
                    if let Some(loaded) = self.load() {
                        sum = total(self.characters, &loaded.session);
                        run = loaded;
                    }
                }
                2 => self.damage(&run.session),
                _ => {
                    self.calls += 1;
                    self.step(&mut run);
                }
            }
        }
        self.group.same(&run.twin, &run.session, || "a run without its watches and previews".to_string());
    }

    /// An opening, in some cases on words that need not be good, or with a column of another length. Classes with equal
    /// cycles are drawn more often.
    fn open(&mut self) -> Option<Session> {
        self.calls += 1;
        let random = &mut self.random;
        let n = random.below(17);
        let listing = &self.characters.listings[n];
        let equal = 1 + random.below(3);
        let parts = match n % equal {
            0 if random.once_in(2) => vec![equal as u8; n / equal],
            _ => listed(random, listing).clone(),
        };
        let (mut shape, mut class) = (pack_shape(listed(random, listing)), pack_class(&parts));
        match random.below(8) {
            0 => shape = random_word(random),
            1 => class = random_word(random),
            2 => shape = random_ones(random, shape),
            3 => {
                let degree = *random.pick(&[0, 1, 16, 17, 18, 31]);
                class = pack_class(&random_parts(random, degree));
            }
            _ => {}
        }
        let words = *random.pick(&LENGTHS);
        let count = if random.once_in(8) { *random.pick(&LENGTHS) } else { words };
        let (page, column) = self.any_runs(words, count);
        let (refused, session) = compare_open(self.group, shape, class, &page, &column);
        self.opened.count(refused);
        Some(session).filter(|_| refused == 0)
    }

    /// Any words and any numbers.
    pub fn any_runs(&mut self, words: usize, count: usize) -> (Vec<u64>, Vec<i64>) {
        let page = (0..words).map(|_| self.random.next()).collect();
        (page, (0..count).map(|_| self.random.next() as i64).collect())
    }

    pub fn any_words(&mut self, length: usize) -> Vec<u64> {
        self.any_runs(length, 0).0
    }

    /// Watches, a preview and a commit of a damaged session, which is laid aside.
    fn damage(&mut self, session: &Session) {
        let named = self.drawn_step(session);
        let hurt = damaged(self.characters, &mut self.random, session);
        self.watch(&hurt);
        let strip = self.preview(&hurt, named);
        self.strikes.hurt(compare_commit(self.group, &hurt, named, &strip).0);
        self.save(&hurt);
    }

    /// What the library shows as settled and as waiting is, added up, what the session began with.
    fn conserve(&mut self, session: &Session, sum: i64) {
        let shown = |kind| calls::watch_whole(session, kind, 0).answer.answer;
        let lines = session.slip.lines;
        if lines < 40 || self.random.once_in(lines / 10) {
            let what = || format!("settled plus waiting of {:?}", session.slip);
            self.group.same(shown(3).wrapping_add(shown(4)), sum, what);
        }
    }

    /// Compares the watches of every kind, and of kinds that there are not.
    fn watch(&mut self, session: &Session) {
        let lines = gathered::sound(session);
        let wrong = *self.random.pick(&[0, 6, 255, 1 << 32, (1 << 32) + 1, u64::MAX]);
        for kind in [1, 2, 3, 4, 5, wrong] {
            let count = session.slip.lines;
            let line = self.random.below(count.clamp(1, 5000) as usize) as u64;
            let line = if self.random.once_in(5) { wrong_line(&mut self.random, count, line) } else { line };
            if self.work.affordable(&mut self.random, &lines, kind, line) {
                let model = gathered::watch(self.characters, &session.slip, &lines, kind, line);
                self.watched.count(compare_watch(self.group, session, (kind, line), model));
            }
        }
    }
}
