// Saving and loading a full page: the library beside its twin in plain Rust.
use crate::library::{self, Loaded, Slip};
use crate::pages;
use crate::soundness::PAGE_LIMIT;
use crate::text;

// Enough for every session's text (ZEMBRUSHA_TEXT_ROOM).
const TEXT_ROOM: usize = 295_168;

const RUNS: u32 = 100;

fn row(name: &str, library: f64, twin: f64) {
    let lines = PAGE_LIMIT as f64;
    println!("{name:<20}{:>10.1} ns {:>20.1} ns ({:.2})", library / lines, twin / lines, library / twin);
}

// A save into a run of so many bytes; the text.
fn save_into(
    best: &dyn Fn(u32, &mut dyn FnMut()) -> f64,
    name: &str,
    slip: Slip,
    page: &[u64],
    room: usize,
) -> Vec<u8> {
    let (mut ours, mut theirs) = (vec![0; room], vec![0; room]);
    let (mut length, mut twins) = (0, 0);
    let library = best(RUNS, &mut || length = library::save(slip, page, &mut ours).1);
    let twin = best(RUNS, &mut || twins = text::save(&slip, page, &mut theirs).expect("a text"));
    assert!(length == twins && ours == theirs, "the texts differ");
    row(name, library, twin);
    ours.truncate(length);
    ours
}

pub fn times(best: impl Fn(u32, &mut dyn FnMut()) -> f64) {
    let (slip, page) = (pages::slip(), pages::drawn(1));
    println!("text of 4,096 lines   library per line     Rust twin per line (ratio)");
    let saved = save_into(&best, "save", slip, &page, TEXT_ROOM);
    save_into(&best, "save, no byte spare", slip, &page, saved.len());
    let (mut ours, mut theirs) = (vec![7; PAGE_LIMIT], vec![7; PAGE_LIMIT]);
    let library = best(RUNS, &mut || {
        let Loaded { refused, slip: loaded, .. } = library::load(&saved, &mut ours);
        assert!(refused == 0 && loaded == slip, "the library's load");
    });
    let twin = best(RUNS, &mut || assert!(text::load(&saved, &mut theirs) == Ok(slip), "the twin's load"));
    assert!(ours == page && theirs == page, "the pages differ");
    row("load", library, twin);
}
