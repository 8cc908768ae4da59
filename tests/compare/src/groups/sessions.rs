//! Random sessions: 200,000 openings and steps, each step a preview and its commit, with saves and loads between them,
//! over shapes of all degrees and pages of many lengths, with wrong lines, cycles, strips, slips, pages and texts among
//! them. After each, slip, page and watches are compared; after each that is accepted, what the library shows as
//! settled (3) and as waiting (4), added up, with the character that the session began with. At the end the commits of
//! a run are made once more, its watches and previews struck.

use super::draws::{listed, random_ones, random_parts, random_word};
use super::made::{damaged, made_up, wrong_cycle, wrong_line};
use super::storing::Store;
use super::striking::Strikes;
use super::strips::Named;
use super::work::Work;
use super::Tally;
use crate::calls;
use crate::lent::leaves;
use crate::model::characters::Characters;
use crate::model::sessions::{self, Shown, Slip};
use crate::model::words::{pack_class, pack_shape, read_pair};
use crate::model::Answer;
use crate::random::Random;
use crate::report::Group;

const CALLS: usize = 200_000;

/// Page lengths; what an opening or a load finds there is arbitrary.
pub const LENGTHS: [usize; 16] = [0, 1, 1, 2, 2, 3, 4, 5, 6, 8, 12, 20, 60, 300, 4096, 4097];

/// A slip and its page.
pub type State = (Slip, Vec<u64>);

/// Compares an opening on this page: the model's refusal number, and the slip and page that the library leaves.
pub fn compare_open(group: &mut Group, shape: u32, class: u32, page: &[u64]) -> (u32, State) {
    let (refused, (slip, after)) = match sessions::open(shape, class, page.len()) {
        Ok(opened) => (0, opened),
        Err(refused) => (refused, (Slip::default(), page.to_vec())),
    };
    let answer = calls::open(shape, class, page);
    let left = (answer.answer.1, answer.run.clone());
    group.same(answer, leaves((refused, slip), &after), || format!("open {shape:x} on {class:x}"));
    (refused, left)
}

/// Compares the three calls of a watch with what the model shows; its refusal number.
pub fn compare_watch(group: &mut Group, state: &State, (kind, line): (u64, u64), model: Answer<Shown>) -> u32 {
    let (slip, page) = state;
    let refused = model.err().unwrap_or(0);
    let whole = if let Ok(Shown::Whole(whole)) = model { whole } else { 0 };
    let ratio = if let Ok(Shown::Ratio(ratio)) = model { ratio } else { 0.0 };
    let what = || format!("watch {kind} of line {line} on {slip:?}");
    group.same(calls::watch_whole(*slip, page, kind, line), leaves(whole, page), what);
    let answer = calls::watch_ratio(*slip, page, kind, line);
    group.same(answer.answer.to_bits(), ratio.to_bits(), what);
    group.same(answer, leaves(ratio, page), what);
    group.same(calls::watch_refusal(*slip, page, kind, line), leaves(refused, page), what);
    refused
}

/// Everything that a random session needs at hand.
pub struct Desk<'a> {
    pub characters: &'a Characters,
    pub random: Random,
    pub group: &'a mut Group,
    work: Work,
    calls: usize,
    pub called: Tally,
    watched: Tally,
    pub strikes: Strikes,
    pub store: Store,
}

pub fn run(characters: &Characters, group: &mut Group) {
    let mut desk = Desk {
        characters,
        random: Random(6),
        group,
        work: Work::default(),
        calls: 0,
        called: Tally::default(),
        watched: Tally::default(),
        strikes: Strikes::default(),
        store: Store::default(),
    };
    while desk.calls < CALLS {
        desk.session();
    }
    let Desk { group, calls, called, watched, strikes, store, .. } = desk;
    let wanted = [0, 1, 2, 3, 4, 5, 6, 7, 8, 9, 10, 19];
    group.same(called.lacking(&wanted, 100), vec![], || "refusals hardly met".to_string());
    group.same(watched.lacking(&[0, 6, 7, 8, 15], 1000), vec![], || "watch refusals hardly met".to_string());
    group.note(format!("{calls} openings and steps"));
    group.note(called.said());
    group.note(format!("watches: {}", watched.said()));
    strikes.close(group);
    store.close(group);
}

impl Desk<'_> {
    /// One session, from an opening or from a sound page that no opening made, to its end or until it is laid aside.
    fn session(&mut self) {
        let begun = if self.random.once_in(4) { Some(self.made_up()) } else { self.open() };
        let Some((mut state, mut total)) = begun else { return };
        let mut run = state.clone();
        let mut left = 1 + self.random.below(40);
        self.conserve(&state, total);
        while self.watch(&state) && left > 0 {
            if self.calls == CALLS || state.0.lines == 0 && !self.random.once_in(4) {
                break;
            }
            match self.random.below(6) {
                0 => self.save(&state, total),
                1 => {
                    if let Some(loaded) = self.load() {
                        self.make_again(&run, &state);
                        (state, total) = loaded;
                        run = state.clone();
                        self.conserve(&state, total);
                    }
                }
                _ => {
                    if let Some(next) = self.call(&state) {
                        state = next;
                        self.conserve(&state, total);
                    }
                }
            }
            left -= 1;
        }
        self.make_again(&run, &state);
    }

    /// A sound slip and page that no opening made, and what the model says that is settled and waits there.
    fn made_up(&mut self) -> (State, i64) {
        let state = made_up(self.characters, &mut self.random);
        let total = self.total(&state);
        (state, total)
    }

    /// What the model says that is settled and waits.
    pub fn total(&self, (slip, page): &State) -> i64 {
        let lines = sessions::sound(slip, page).unwrap();
        slip.settled + lines.iter().map(|line| line.character(self.characters)).sum::<i64>()
    }

    /// An opening, in three cases of eight on words that need not be good, in two on a shape word with ones in front;
    /// where it is not refused, the state and the model's character of the two words.
    fn open(&mut self) -> Option<(State, i64)> {
        let random = &mut self.random;
        let listing = random.pick(&self.characters.listings);
        let (mut shape, mut class) = (pack_shape(listed(random, listing)), pack_class(listed(random, listing)));
        match random.below(8) {
            0 => shape = random_word(random),
            1 => class = random_word(random),
            2 => {
                let degree = *random.pick(&[0, 1, 16, 17, 18, 31]);
                class = pack_class(&random_parts(random, degree));
            }
            3 | 4 => shape = random_ones(random, shape),
            _ => {}
        }
        let words = *random.pick(&LENGTHS);
        let before: Vec<u64> = (0..words).map(|_| random.next()).collect();
        let (refused, state) = compare_open(self.group, shape, class, &before);
        self.calls += 1;
        self.called.count(refused);
        let (rows, parts) = read_pair(shape, class).ok().filter(|_| refused == 0)?;
        Some((state, self.characters.character(&rows, &parts)))
    }

    /// A step on the state: a good one, one with a wrong line or cycle, or one on a damaged slip or page. What comes of
    /// the state, where it is not refused.
    fn call(&mut self, state: &State) -> Option<State> {
        self.calls += 1;
        let Named { line, cycle } = self.drawn_step(state);
        match self.random.below(8) {
            0 => {
                let line = wrong_line(&mut self.random, state.0.lines, line);
                self.strike(state, Named { line, cycle })
            }
            1 => {
                let cycle = wrong_cycle(&mut self.random, cycle);
                self.strike(state, Named { line, cycle })
            }
            2 | 3 => {
                let state = damaged(self.characters, &mut self.random, state);
                self.watch(&state);
                self.aside(|desk| desk.strike(&state, Named { line, cycle }));
                None
            }
            _ => self.strike_sound(state, Named { line, cycle }),
        }
    }

    /// A waiting line and one of its cycles; where none waits, any two numbers.
    pub fn drawn_step(&mut self, state: &State) -> Named {
        let lines = sessions::sound(&state.0, &state.1).unwrap();
        if lines.is_empty() {
            return Named { line: 0, cycle: 1 };
        }
        let line = self.random.below(lines.len());
        Named { line: line as u64, cycle: u64::from(*self.random.pick(&lines[line].class)) }
    }

    /// What the library shows as settled and as waiting is, added up, what the session began with.
    fn conserve(&mut self, state: &State, total: i64) {
        let (slip, page) = state;
        let shown = |kind| calls::watch_whole(*slip, page, kind, 0).answer;
        self.group.same(shown(3).wrapping_add(shown(4)), total, || format!("settled plus waiting of {slip:?}"));
    }

    /// Compares the watches of every kind, and of kinds that there are not; whether the model finds the state sound.
    fn watch(&mut self, state: &State) -> bool {
        let (slip, page) = state;
        let lines = sessions::sound(slip, page);
        let wrong = *self.random.pick(&[0, 6, 7, 255, 257, 1 << 32, (1 << 32) + 1, u64::MAX]);
        for kind in [1, 2, 3, 4, 5, wrong] {
            let line = self.random.below(slip.lines.clamp(1, 5000) as usize) as u64;
            let line = if self.random.once_in(5) { wrong_line(&mut self.random, slip.lines, line) } else { line };
            if self.work.affordable(&mut self.random, &lines, kind, line) {
                let model = sessions::watch(self.characters, slip, &lines, kind, line);
                self.watched.count(compare_watch(self.group, state, (kind, line), model));
            }
        }
        lines.is_ok()
    }
}
