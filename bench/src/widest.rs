// The shapes whose sessions on (2^8) have most lines at once, worked to their ends in both modes, line 0 always struck.
use crate::library::{self, Slip};
use crate::soundness::PAGE_LIMIT;
use crate::strikes::MOST;
use crate::{class_word, partitions, shape_word};

// How many shapes are shown.
const SHOWN: usize = 6;

// What a session took: the most lines at once, its steps, and what is settled at its end.
struct Taken {
    lines: u64,
    steps: i64,
    settled: i64,
}

// Strikes 2 from line 0 until no line waits.
fn worked(begun: (u32, Slip), mut strike: impl FnMut(Slip) -> (u32, Slip)) -> Taken {
    let (mut refused, mut slip) = begun;
    let mut lines = slip.lines;
    while refused == 0 && slip.lines > 0 {
        (refused, slip) = strike(slip);
        lines = lines.max(slip.lines);
    }
    assert_eq!(refused, 0, "a session on (2^8)");
    Taken { lines, steps: slip.steps, settled: slip.settled }
}

fn plain(shape: u32, class: u32) -> Taken {
    let mut page = vec![0; PAGE_LIMIT];
    let begun = library::open(shape, class, &mut page);
    worked(begun, |slip| {
        let mut strip = [0; MOST];
        let (_, count) = library::preview(slip, &page, 0, 2, &mut strip);
        library::commit(slip, &mut page, 0, 2, &strip[..count])
    })
}

fn gathered(shape: u32, class: u32) -> Taken {
    let (mut page, mut column) = (vec![0; PAGE_LIMIT], vec![0; PAGE_LIMIT]);
    let begun = library::gathered_open(shape, class, &mut page, &mut column);
    worked(begun, |slip| {
        let mut strip = [0; MOST];
        let (_, count) = library::gathered_preview(slip, &page, &column, 0, 2, &mut strip);
        library::gathered_commit(slip, &mut page, &mut column, 0, 2, &strip[..count])
    })
}

pub fn table() {
    println!("shape on (2^8)        plain: most lines   steps   gathered: most lines   steps   character");
    let class = class_word(&[2; 8]);
    let both = |rows: Vec<u8>| {
        let shape = shape_word(&rows);
        (plain(shape, class), gathered(shape, class), rows)
    };
    let mut all: Vec<(Taken, Taken, Vec<u8>)> = partitions(16, 16).into_iter().map(both).collect();
    for (plain, gathered, rows) in &all {
        let character = library::character(shape_word(rows), class);
        assert_eq!([plain.settled, gathered.settled], [character; 2], "the character of {rows:?} on (2^8)");
    }
    all.sort_by_key(|(plain, _, _)| std::cmp::Reverse(plain.lines));
    for (plain, gathered, rows) in all.iter().take(SHOWN) {
        let parts: Vec<String> = rows.iter().map(u8::to_string).collect();
        let name = format!("({})", parts.join(","));
        println!(
            "{name:<22}{:>17} {:>7} {:>22} {:>7} {:>11}",
            plain.lines, plain.steps, gathered.lines, gathered.steps, plain.settled
        );
    }
}
