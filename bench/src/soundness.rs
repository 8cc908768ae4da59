// Whether a slip and a page are sound, in plain Rust: the judge of the plain twins, and what it shares with that of the
// gathered ones.
use crate::library::Slip;

pub const PAGE_LIMIT: usize = 4096;

// The modes that a slip says.
pub const PLAIN: u32 = 0;
pub const GATHERED: u32 = 1;

const LIMIT: usize = 16;

// The places in which words are remembered, and the number of lines from which on they are.
const PLACES: usize = 257;
const MANY: usize = 64;

// d! and S(d) for the degrees 0 to 16.
const FACTORIALS: [u64; LIMIT + 1] = table(false);
const SPANS: [u64; LIMIT + 1] = table(true);

const fn table(spans: bool) -> [u64; LIMIT + 1] {
    let mut all = [spans as u64 ^ 1; LIMIT + 1];
    let mut d = 1;
    while d <= LIMIT {
        all[d] = spans as u64 + d as u64 * all[d - 1];
        d += 1;
    }
    all
}

fn shape_degree(word: u32) -> Option<u32> {
    if word >= 1 << 30 {
        return None;
    }
    let (mut rest, mut at, mut zeros, mut pairs) = (word, 0, 0, 0);
    while rest != 0 {
        let one = rest.leading_zeros();
        zeros += one - at - 1;
        pairs += zeros;
        at = one;
        rest -= 1 << (31 - one);
    }
    Some(pairs).filter(|&degree| degree <= LIMIT as u32)
}

fn class_degree(word: u32) -> Option<u32> {
    if word >= 1 << 31 {
        return None;
    }
    let (mut rest, mut at, mut last) = (word, 0, 31);
    while rest != 0 {
        let one = rest.leading_zeros();
        if last < one - at {
            return None;
        }
        last = one - at;
        at = one;
        rest -= 1 << (31 - one);
    }
    Some(at).filter(|&degree| degree <= LIMIT as u32)
}

// What n! and S(n) leave to the lines: each takes its d! from the one and its S(d) from the other.
#[derive(Clone, Copy)]
pub struct Budget {
    degree: u32,
    value: u64,
    span: u64,
}

impl Budget {
    pub fn of(slip: &Slip) -> Option<Budget> {
        let (degree, other) = (shape_degree(slip.shape)?, class_degree(slip.class_word)?);
        if degree != other || slip.steps < 0 {
            return None;
        }
        let value = FACTORIALS[degree as usize].checked_sub(slip.settled.unsigned_abs())?;
        let span = SPANS[degree as usize].checked_sub(slip.steps as u64)?;
        Some(Budget { degree, value, span })
    }

    // What is left after a line of a shape and a class of these degrees.
    pub fn spend(&mut self, shape: u32, class: u32) -> Option<()> {
        self.spend_times(shape, class, 1)
    }

    // The same of a line whose d! counts so many times.
    pub fn spend_times(&mut self, shape: u32, class: u32, times: u64) -> Option<()> {
        if shape != class || shape == 0 || shape > self.degree {
            return None;
        }
        self.value = self.value.checked_sub(FACTORIALS[shape as usize].checked_mul(times)?)?;
        self.span = self.span.checked_sub(SPANS[shape as usize])?;
        Some(())
    }
}

// The words that were met last, with their degrees.
pub struct Met {
    shapes: [u64; PLACES],
    classes: [u64; PLACES],
}

impl Met {
    pub fn new() -> Met {
        Met { shapes: [0; PLACES], classes: [0; PLACES] }
    }

    // The degrees of a line's words, its sign left out.
    pub fn degrees(&mut self, line: u64) -> (u32, u32) {
        let shape = (line >> 32) as u32 % (1 << 31);
        (known(shape, &mut self.shapes, shape_degree), known(line as u32, &mut self.classes, class_degree))
    }
}

// A word's degree, 0 where it is refused: it is read only where its place does not have it.
fn known(word: u32, places: &mut [u64; PLACES], read: fn(u32) -> Option<u32>) -> u32 {
    let place = &mut places[word as usize % PLACES];
    if *place / 32 != u64::from(word) {
        *place = u64::from(word) * 32 + u64::from(read(word).unwrap_or(0));
    }
    (*place % 32) as u32
}

// Whether a budget has enough for the lines.
fn enough(mut budget: Budget, lines: &[u64]) -> bool {
    if lines.len() < MANY {
        let shape = |line: u64| (line >> 32) as u32 % (1 << 31);
        let degrees = |line: u64| shape_degree(shape(line)).zip(class_degree(line as u32));
        return lines.iter().all(|&line| degrees(line).and_then(|(a, b)| budget.spend(a, b)).is_some());
    }
    let mut met = Met::new();
    lines.iter().all(|&line| {
        let (shape, class) = met.degrees(line);
        budget.spend(shape, class).is_some()
    })
}

pub fn sound(slip: &Slip, page: &[u64]) -> bool {
    let Some(budget) = Budget::of(slip) else { return false };
    let lines = slip.lines as usize;
    let fits = slip.mode == PLAIN && lines <= page.len();
    fits && enough(budget, &page[..lines]) && page[lines..].iter().all(|&word| word == 0)
}
