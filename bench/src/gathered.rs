// Judging and commits on full pages of different lines, in both modes on the same words: the gathered mode beside the
// plain one, and beside a plain Rust twin of the gathered.
use crate::library::{self, Slip};
use crate::sessions::{in_turn, Best, DRAWN, RUNS};
use crate::{gathering, pages, strikes};
use std::collections::HashSet;

// The gathered mode may take so many times as long as the plain one.
const LIMIT: f64 = 4.0;

// A session of either mode, a plain one with an empty column, and the strikes that are made in it.
#[derive(Clone)]
struct Session {
    slip: Slip,
    page: Vec<u64>,
    column: Vec<i64>,
    strikes: Vec<Strike>,
}

// A strike with one hook, which makes a line.
#[derive(Clone)]
struct Strike {
    line: usize,
    cycle: u64,
    hook: u64,
}

// Whether the hooks of the strikes leave lines that wait, so that these are joined.
#[derive(Clone, Copy, PartialEq)]
enum Hooks {
    New,
    Joined,
}

impl Session {
    fn plain(page: &[u64]) -> Session {
        Session { slip: pages::slip(), page: page.to_vec(), column: vec![], strikes: vec![] }
    }

    fn gathered(page: &[u64]) -> Session {
        let column = pages::coefficients(page);
        Session { slip: pages::gathered_slip(), page: page.to_vec(), column, strikes: vec![] }
    }

    // The next strike whose hook is new on the page, or is there.
    fn drawn(&self, hooks: Hooks) -> Strike {
        let waiting: HashSet<u64> = self.page.iter().map(|line| line % (1 << 63)).collect();
        let named = (0..self.slip.lines as usize).flat_map(|line| (1..=16).map(move |cycle| (line, cycle)));
        let mut all = named.filter_map(|(line, cycle)| match *strikes::strike(self.page[line], cycle)?.new() {
            [hook] => Some(Strike { line, cycle, hook }),
            _ => None,
        });
        let wanted = |strike: &Strike| waiting.contains(&(strike.hook % (1 << 63))) == (hooks == Hooks::Joined);
        all.find(wanted).expect("a strike")
    }

    // Its strikes, each drawn from what the ones before it leave, the last first.
    fn with_strikes(mut self, hooks: Hooks, count: usize) -> Session {
        let begun = self.clone();
        let mut all = vec![];
        for _ in 0..count {
            let strike = self.drawn(hooks);
            self.strike_twin(&strike);
            all.push(strike);
        }
        all.reverse();
        Session { strikes: all, ..begun }
    }

    fn strike_twin(&mut self, strike: &Strike) {
        let Strike { line, cycle, hook } = *strike;
        let next = match self.column.is_empty() {
            true => strikes::commit(&self.slip, &mut self.page, line, cycle, &[hook]),
            false => gathering::commit(&self.slip, &mut self.page, &mut self.column, line, cycle, &[hook]),
        };
        self.slip = next.expect("the twin's commit");
    }

    fn strike_library(&mut self, strike: &Strike) {
        let Strike { line, cycle, hook } = *strike;
        let (refused, next) = match self.column.is_empty() {
            true => library::commit(self.slip, &mut self.page, line as u64, cycle, &[hook]),
            false => library::gathered_commit(self.slip, &mut self.page, &mut self.column, line as u64, cycle, &[hook]),
        };
        assert_eq!(refused, 0, "the library's commit");
        self.slip = next;
    }

    fn judge_library(&mut self) {
        let shown = match self.column.is_empty() {
            true => library::watch_whole(self.slip, &self.page, 5, 0),
            false => library::gathered_watch_whole(self.slip, &self.page, &self.column, 5, 0),
        };
        // A session that is refused shows 0.
        assert_eq!(shown, 1, "the library's watch");
    }
}

fn row(name: &str, plain: f64, gathered: f64, twin: f64) {
    let over = if gathered > LIMIT * plain { ", above 4" } else { "" };
    let ratio = format!("({:.2}{over})", gathered / plain);
    println!(
        "{name:<24}{plain:>7.1} ns {gathered:>11.1} ns {ratio:<16}{twin:>7.1} ns ({:.2})",
        gathered / twin
    );
}

// A watch of the steps, of which there is one, after the whole session is judged.
fn judging(best: Best, name: &str, pages: &[Vec<u64>]) {
    let watched = |mut session: Session| {
        session.slip.steps = 1;
        session
    };
    let mut plain: Vec<Session> = pages.iter().map(|page| watched(Session::plain(page))).collect();
    let mut gathered: Vec<Session> = pages.iter().map(|page| watched(Session::gathered(page))).collect();
    let plain = in_turn(best, &mut plain, &Session::judge_library);
    let time = in_turn(best, &mut gathered, &Session::judge_library);
    let twin = in_turn(best, &mut gathered, &|one| {
        assert!(gathering::sound(&one.slip, &one.page, &one.column), "the twin's judge");
    });
    row(name, plain, time, twin);
}

fn commits(best: Best, name: &str, pages: &[Vec<u64>], hooks: Hooks) {
    let count = RUNS.div_ceil(pages.len());
    let next = |one: &mut Session| one.strikes.pop().expect("a strike");
    let drawn = |begun: fn(&[u64]) -> Session| -> Vec<Session> {
        pages.iter().map(|page| begun(page).with_strikes(hooks, count)).collect()
    };
    let (mut plain, mut gathered) = (drawn(Session::plain), drawn(Session::gathered));
    let mut twins = gathered.clone();
    let strike = |one: &mut Session| {
        let strike = next(one);
        one.strike_library(&strike);
    };
    let plain = in_turn(best, &mut plain, &strike);
    let time = in_turn(best, &mut gathered, &strike);
    let twin = in_turn(best, &mut twins, &|one| {
        let strike = next(one);
        one.strike_twin(&strike);
    });
    let same = |(one, other): (&Session, &Session)| {
        one.slip == other.slip && one.page == other.page && one.column == other.column
    };
    assert!(gathered.iter().zip(&twins).all(same), "{name}: the sessions differ");
    row(name, plain, time, twin);
}

pub fn times(best: impl Fn(u32, &mut dyn FnMut()) -> f64) {
    let drawn = |page: fn(u64) -> Vec<u64>| -> Vec<Vec<u64>> { (1..=DRAWN).map(page).collect() };
    println!("4,096 different lines   plain per line  gathered (by plain)    Rust twin of gathered (ratio)");
    let pages = drawn(pages::different);
    judging(&best, "judging, degree 12", &pages);
    commits(&best, "commit, degree 12", &pages, Hooks::New);
    let pages = drawn(pages::different_mixed);
    judging(&best, "judging, mixed", &pages);
    commits(&best, "commit, mixed", &pages, Hooks::New);
    commits(&best, "commit that joins, mixed", &pages, Hooks::Joined);
    judging(&best, "judging, full chains", &drawn(pages::chained));
}
