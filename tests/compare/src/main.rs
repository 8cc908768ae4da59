//! compare: holds the library against a model that shares nothing with it. One line to a group; the exit status is 0
//! only where nothing differs. Every run compares the same; an argument names a group to be compared alone.

mod calls;
mod groups;
mod lent;
mod model;
mod random;
mod report;

use model::characters::Characters;
use report::Group;
use std::process::ExitCode;

/// The comparisons of a group.
type Run = fn(&Characters, &mut Group);

const GROUPS: [(&str, Run); 26] = [
    ("examples", groups::examples::run),
    ("every shape on every class", groups::pairs::run),
    ("sessions to their ends", groups::ends::run),
    ("columns", groups::columns::run),
    ("formulas (6) and (10)", groups::formulas::run),
    ("part lists", groups::lists::run),
    ("words", groups::words::run),
    ("pairs of words", groups::words::run_pairs),
    ("words with ones in front", groups::in_front::run),
    ("good words kept", groups::kept::run),
    ("old shape lists", groups::old_lists::run),
    ("strips", groups::strips::run),
    ("long pages", groups::long::run),
    ("sessions", groups::sessions::run),
    ("texts that were changed", groups::texts::run),
    ("texts by hand", groups::handmade::run),
    ("texts and pages of all sizes", groups::sizes::run),
    ("gathered examples", groups::gathered::examples::run),
    ("gathered sessions", groups::gathered::runs::run),
    ("gathered sessions to their ends", groups::gathered::ends::run),
    ("crowded pages", groups::gathered::crowds::run),
    ("plain and gathered", groups::gathered::modes::run),
    ("gathered sessions not sound", groups::gathered::judged::run),
    ("gathered refusals in order", groups::gathered::orders::run),
    ("gathered texts that were changed", groups::gathered::texts::run),
    ("gathered texts by hand", groups::gathered::handmade::run),
];

/// Compares the chosen groups side by side, and gives whether nothing differed in any.
fn compare(chosen: &[(&'static str, Run)]) -> bool {
    let characters = &Characters::new();
    std::thread::scope(|scope| {
        let start = |&(name, run): &(&'static str, Run)| {
            scope.spawn(move || Group::compared(name, |group| run(characters, group)))
        };
        let started: Vec<_> = chosen.iter().map(|one| (one.0, start(one))).collect();
        let mut agreed = true;
        for (name, group) in started {
            agreed &= group.join().map_or_else(|_| report::stopped(name), Group::close);
        }
        agreed
    })
}

fn main() -> ExitCode {
    let named = std::env::args().nth(1);
    let chosen = GROUPS.into_iter().filter(|(name, _)| named.as_deref().map_or(true, |one| one == *name));
    let chosen: Vec<(&str, Run)> = chosen.collect();
    if !chosen.is_empty() && compare(&chosen) {
        ExitCode::SUCCESS
    } else {
        ExitCode::FAILURE
    }
}
