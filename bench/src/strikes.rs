// A preview and a commit in plain Rust: the twins of the library's, by the same passes. What is refused writes nothing.
use crate::library::Slip;
use crate::soundness::{sound, PAGE_LIMIT};

// As many new lines as there can be.
pub const MOST: usize = 16;

// The new lines of a strike, and the sum of the signs of the others.
pub struct Struck {
    new: [u64; MOST],
    count: usize,
    pub settled: i64,
}

impl Struck {
    pub fn new(&self) -> &[u64] {
        &self.new[..self.count]
    }
}

// A class without one cycle of this length.
fn without(class: u32, cycle: u64) -> Option<u32> {
    let (mut rest, mut at) = (class, 0);
    while rest != 0 {
        let one = rest.leading_zeros();
        let part = one - at;
        let behind = rest - (1 << (31 - one));
        if u64::from(part) == cycle {
            return Some(class - rest + (behind << part));
        }
        (at, rest) = (one, behind);
    }
    None
}

// A line struck by a cycle of its class.
pub fn strike(line: u64, cycle: u64) -> Option<Struck> {
    let class = without(line as u32, cycle)?;
    let (shape, length) = ((line >> 32) as u32 % (1 << 31), cycle as u32);
    let mut struck = Struck { new: [0; MOST], count: 0, settled: 0 };
    let mut marks = (!shape & (shape << length)) % (1 << 31);
    while marks != 0 {
        let at = 31 - marks.leading_zeros();
        let exchanged = shape + (1 << at) - (1 << (at - length));
        let left = (exchanged << (!(exchanged << 1)).leading_zeros()) % (1 << 31);
        let below = (shape >> (at - length)) % (1 << length);
        let minus = line >> 63 ^ u64::from((length + below.count_ones()) % 2);
        if left == 0 {
            struck.settled += 1 - 2 * minus as i64;
        } else {
            struck.new[struck.count] = minus << 63 | u64::from(left) << 32 | u64::from(class);
            struck.count += 1;
        }
        marks -= 1 << at;
    }
    Some(struck)
}

// A named line of a sound page, struck.
fn named(slip: &Slip, page: &[u64], line: usize, cycle: u64) -> Option<Struck> {
    if PAGE_LIMIT < page.len() || !sound(slip, page) || slip.lines <= line as u64 {
        return None;
    }
    strike(page[line], cycle)
}

pub fn preview(slip: &Slip, page: &[u64], line: usize, cycle: u64, strip: &mut [u64]) -> Option<usize> {
    let struck = named(slip, page, line, cycle)?;
    strip.get_mut(..struck.count)?.copy_from_slice(struck.new());
    Some(struck.count)
}

pub fn commit(slip: &Slip, page: &mut [u64], line: usize, cycle: u64, strip: &[u64]) -> Option<Slip> {
    let struck = named(slip, page, line, cycle)?;
    let others = slip.lines as usize - 1;
    let lines = others + struck.count;
    if !strip.starts_with(struck.new()) || page.len() < lines {
        return None;
    }
    page.copy_within(line + 1..=others, line);
    page[others] = 0;
    page[others..lines].copy_from_slice(struck.new());
    Some(Slip { settled: slip.settled + struck.settled, lines: lines as u64, steps: slip.steps + 1, ..*slip })
}
