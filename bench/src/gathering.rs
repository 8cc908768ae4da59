// A gathered session judged and struck in plain Rust: the twin of the library's. Equal lines are found by chains of
// those whose words have one hash. What is refused writes nothing.
use crate::library::Slip;
use crate::soundness::{Budget, Met, GATHERED, PAGE_LIMIT};
use crate::strikes::{strike, Struck, MOST};

// The chains, and the place behind the last line of each.
const CHAINS: usize = 4096;
const END: u16 = u16::MAX;

// The last line of each chain, and for each line the one before it.
pub struct Chains {
    last: [u16; CHAINS],
    before: [u16; PAGE_LIMIT],
}

fn chain(line: u64) -> usize {
    (line.wrapping_mul(0x9E37_79B9_7F4A_7C15) >> 52) as usize
}

impl Chains {
    fn new() -> Chains {
        Chains { last: [END; CHAINS], before: [END; PAGE_LIMIT] }
    }

    // The place of the line that is equal to this one.
    fn find(&self, page: &[u64], line: u64) -> Option<usize> {
        let mut at = self.last[chain(line)];
        while at != END && page[usize::from(at)] != line {
            at = self.before[usize::from(at)];
        }
        (at != END).then_some(usize::from(at))
    }

    fn put(&mut self, line: u64, at: usize) {
        let last = &mut self.last[chain(line)];
        self.before[at] = *last;
        *last = at as u16;
    }
}

// The chains of a sound session's lines.
fn judged(slip: &Slip, page: &[u64], column: &[i64]) -> Option<Chains> {
    let (mut budget, lines) = (Budget::of(slip)?, slip.lines as usize);
    if slip.mode != GATHERED || PAGE_LIMIT < page.len() || page.len() != column.len() || page.len() < lines {
        return None;
    }
    let (mut met, mut chains) = (Met::new(), Chains::new());
    for (at, (&line, &coefficient)) in page.iter().zip(column).take(lines).enumerate() {
        if line >> 63 == 1 || coefficient == 0 || chains.find(page, line).is_some() {
            return None;
        }
        let (shape, class) = met.degrees(line);
        budget.spend_times(shape, class, coefficient.unsigned_abs())?;
        chains.put(line, at);
    }
    let zeros = page[lines..].iter().all(|&word| word == 0) && column[lines..].iter().all(|&number| number == 0);
    zeros.then_some(chains)
}

pub fn sound(slip: &Slip, page: &[u64], column: &[i64]) -> bool {
    judged(slip, page, column).is_some()
}

// What a strike brings to lines that wait, by their places, and the new lines.
struct Brought {
    joined: [(usize, i64); MOST],
    joins: usize,
    new: [(u64, i64); MOST],
    news: usize,
}

fn brought(chains: &Chains, page: &[u64], struck: &Struck, coefficient: i64) -> Brought {
    let mut brought = Brought { joined: [(0, 0); MOST], joins: 0, new: [(0, 0); MOST], news: 0 };
    for &hook in struck.new() {
        let (line, number) = (hook % (1 << 63), if hook >> 63 == 1 { -coefficient } else { coefficient });
        if let Some(at) = chains.find(page, line) {
            brought.joined[brought.joins] = (at, number);
            brought.joins += 1;
        } else {
            brought.new[brought.news] = (line, number);
            brought.news += 1;
        }
    }
    brought
}

// Takes the lines whose coefficient is 0 out; how many stay.
fn compact(page: &mut [u64], column: &mut [i64], lines: usize) -> usize {
    let mut staying = 0;
    for at in 0..lines {
        if column[at] != 0 {
            (page[staying], column[staying]) = (page[at], column[at]);
            staying += 1;
        }
    }
    page[staying..lines].fill(0);
    column[staying..lines].fill(0);
    staying
}

pub fn commit(
    slip: &Slip,
    page: &mut [u64],
    column: &mut [i64],
    line: usize,
    cycle: u64,
    strip: &[u64],
) -> Option<Slip> {
    let chains = judged(slip, page, column)?;
    let lines = slip.lines as usize;
    if lines <= line {
        return None;
    }
    let (struck, coefficient) = (strike(page[line], cycle)?, column[line]);
    if !strip.starts_with(struck.new()) {
        return None;
    }
    let brought = brought(&chains, page, &struck, coefficient);
    let (joined, new) = (&brought.joined[..brought.joins], &brought.new[..brought.news]);
    let cancelled = joined.iter().filter(|&&(at, number)| column[at] + number == 0).count();
    let after = lines - 1 - cancelled + new.len();
    if page.len() < after {
        return None;
    }
    joined.iter().for_each(|&(at, number)| column[at] += number);
    column[line] = 0;
    let staying = compact(page, column, lines);
    for (at, &(line, number)) in (staying..).zip(new) {
        (page[at], column[at]) = (line, number);
    }
    let settled = slip.settled + coefficient * struck.settled;
    Some(Slip { settled, lines: after as u64, steps: slip.steps + 1, ..*slip })
}
