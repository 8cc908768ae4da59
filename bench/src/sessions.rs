// Watches, previews and commits on full pages: the library beside a plain Rust twin of the same passes.
use crate::library::{self, Slip};
use crate::pages;
use crate::soundness::{sound, PAGE_LIMIT};
use crate::strikes::{self, MOST};
use std::slice::Iter;

pub const RUNS: usize = 320;

// So many drawn pages take turns: one or two of them the processor soon knows by heart.
pub const DRAWN: u64 = 32;

// The best time of some runs.
pub type Best<'a> = &'a dyn Fn(u32, &mut dyn FnMut()) -> f64;

// A strike that leaves one new line, so that a full page stays full.
struct Strike {
    line: usize,
    cycle: u64,
    new: u64,
}

// A session, and the strikes that are made in it.
#[derive(Clone)]
struct Session<'a> {
    slip: Slip,
    page: Vec<u64>,
    strikes: Iter<'a, Strike>,
}

// So many strikes from a page on, each the first that the page has then.
fn strikes_from(mut page: Vec<u64>, count: usize) -> Vec<Strike> {
    let mut slip = pages::slip();
    let mut strike = |_| {
        let named = (0..page.len()).flat_map(|line| (1..=16).map(move |cycle| (line, cycle)));
        let mut all = named.filter_map(|(line, cycle)| match *strikes::strike(page[line], cycle)?.new() {
            [new] => Some(Strike { line, cycle, new }),
            _ => None,
        });
        let strike = all.next().expect("a strike");
        slip = strikes::commit(&slip, &mut page, strike.line, strike.cycle, &[strike.new]).expect("a commit");
        strike
    };
    (0..count).map(&mut strike).collect()
}

// Kinds 3 and 5, after the check.
fn watch(slip: &Slip, page: &[u64], kind: u64) -> Option<i64> {
    sound(slip, page).then(|| if kind == 3 { slip.settled } else { slip.steps })
}

fn library_preview(session: &Session, strike: &Strike, strip: &mut [u64]) {
    let previewed = library::preview(session.slip, &session.page, strike.line as u64, strike.cycle, strip);
    assert!(previewed == (0, 1) && strip[0] == strike.new, "the library's preview");
}

fn library_commit(session: &mut Session, strike: &Strike, strip: &[u64]) {
    let (refused, next) = library::commit(session.slip, &mut session.page, strike.line as u64, strike.cycle, strip);
    assert_eq!(refused, 0, "the library's commit");
    session.slip = next;
}

fn twin_preview(session: &Session, strike: &Strike, strip: &mut [u64]) {
    let previewed = strikes::preview(&session.slip, &session.page, strike.line, strike.cycle, strip);
    assert!(previewed == Some(1) && strip[0] == strike.new, "the twin's preview");
}

fn twin_commit(session: &mut Session, strike: &Strike, strip: &[u64]) {
    let next = strikes::commit(&session.slip, &mut session.page, strike.line, strike.cycle, strip);
    session.slip = next.expect("the twin's commit");
}

// The best time of a call on sessions that take turns, per line.
pub fn in_turn<S>(best: Best, sessions: &mut [S], call: &dyn Fn(&mut S)) -> f64 {
    let (mut turn, count) = (0, sessions.len());
    let time = best(RUNS as u32, &mut || {
        call(&mut sessions[turn % count]);
        turn += 1;
    });
    time / PAGE_LIMIT as f64
}

// The library's call and the twin's, each on the same sessions, which are the same at the end.
fn row(best: Best, name: &str, begun: &[Session], ours: &dyn Fn(&mut Session), theirs: &dyn Fn(&mut Session)) {
    let (mut mine, mut twins) = (begun.to_vec(), begun.to_vec());
    let (library, twin) = (in_turn(best, &mut mine, ours), in_turn(best, &mut twins, theirs));
    let same = |(one, other): (&Session, &Session)| one.slip == other.slip && one.page == other.page;
    assert!(mine.iter().zip(&twins).all(same), "{name}: the sessions differ");
    println!("{name:<20}{library:>10.1} ns {twin:>20.1} ns ({:.2})", library / twin);
}

fn rows(best: Best, name: &str, pages: Vec<Vec<u64>>) {
    println!("4,096 {name} lines     library per line     Rust twin per line (ratio)");
    let count = RUNS.div_ceil(pages.len());
    let strikes: Vec<Vec<Strike>> = pages.iter().map(|page| strikes_from(page.clone(), count)).collect();
    let strikes = strikes.iter().map(|strikes| strikes.iter());
    let sessions = pages.into_iter().zip(strikes).map(|(page, strikes)| Session { slip: pages::slip(), page, strikes });
    let begun: Vec<Session> = sessions.collect();
    let row = |name: &str, ours: &dyn Fn(&mut Session), theirs: &dyn Fn(&mut Session)| {
        row(best, name, &begun, ours, theirs);
    };
    for kind in [3, 5] {
        row(
            &format!("watch of kind {kind}"),
            &|one| assert_eq!(library::watch_whole(one.slip, &one.page, kind, 0), 0, "the library's watch"),
            &|one| assert_eq!(watch(&one.slip, &one.page, kind), Some(0), "the twin's watch"),
        );
    }
    row(
        "preview",
        &|one| library_preview(one, &one.strikes.as_slice()[0], &mut [0; MOST]),
        &|one| twin_preview(one, &one.strikes.as_slice()[0], &mut [0; MOST]),
    );
    row(
        "commit",
        &|one| {
            let strike = one.strikes.next().unwrap();
            library_commit(one, strike, &[strike.new]);
        },
        &|one| {
            let strike = one.strikes.next().unwrap();
            twin_commit(one, strike, &[strike.new]);
        },
    );
    row(
        "preview and commit",
        &|one| {
            let (strike, mut strip) = (one.strikes.next().unwrap(), [0; MOST]);
            library_preview(one, strike, &mut strip);
            library_commit(one, strike, &strip);
        },
        &|one| {
            let (strike, mut strip) = (one.strikes.next().unwrap(), [0; MOST]);
            twin_preview(one, strike, &mut strip);
            twin_commit(one, strike, &strip);
        },
    );
}

pub fn times(best: impl Fn(u32, &mut dyn FnMut()) -> f64) {
    rows(&best, "equal", vec![pages::equal()]);
    rows(&best, "drawn", (1..=DRAWN).map(pages::drawn).collect());
    rows(&best, "mixed", (1..=DRAWN).map(pages::mixed).collect());
}
