//! States that no opening and commit made: sound ones, damaged ones, and numbers that name no line and no cycle.

use super::draws::{random_ones, random_word};
use crate::model::characters::Characters;
use crate::model::partitions::{degree, factorial};
use crate::model::sessions::{most_steps, sound, written, Line, Slip, PAGE_LIMIT, PLAIN};
use crate::model::words::{pack_class, pack_shape, read_shape};
use crate::random::Random;

/// What soundness leaves to settled and to steps beside some lines.
struct Room {
    settled: i128,
    steps: i128,
}

impl Room {
    fn beside(n: u32, lines: &[Line]) -> Room {
        let degrees = || lines.iter().map(|line| degree(&line.shape));
        let settled = factorial(n) - degrees().map(factorial).sum::<i128>();
        Room { settled, steps: most_steps(n) - degrees().map(most_steps).sum::<i128>() }
    }

    fn is_there(&self) -> bool {
        self.settled >= 0 && self.steps >= 0
    }
}

pub fn random_line(characters: &Characters, random: &mut Random, degree: usize) -> Line {
    let listing = &characters.listings[degree];
    let sign = if random.once_in(2) { 1 } else { -1 };
    Line { sign, shape: random.pick(listing).clone(), class: random.pick(listing).clone() }
}

/// A number from 0 to `most`, in one case of four `most` itself.
pub fn up_to(random: &mut Random, most: i128) -> i64 {
    if random.once_in(4) {
        most as i64
    } else {
        (i128::from(random.next()) % (most + 1)) as i64
    }
}

/// Some lines that have room beside each other at degree n.
fn some_lines(characters: &Characters, random: &mut Random, n: usize) -> Vec<Line> {
    let mut lines = vec![];
    for _ in 0..random.below(10) {
        let degree = 1 + random.below(n);
        lines.push(random_line(characters, random, degree));
        if !Room::beside(n as u32, &lines).is_there() {
            lines.pop();
        }
    }
    lines
}

/// A sound slip and page: some lines of a degree, or once in a while as many small ones as the longest page holds;
/// settled and steps in what they leave.
pub fn made_up(characters: &Characters, random: &mut Random) -> (Slip, Vec<u64>) {
    let full = random.once_in(2000);
    let n = if full { 16 } else { 1 + random.below(16) };
    let lines = match full {
        true => (0..PAGE_LIMIT).map(|at| random_line(characters, random, 1 + at % 6)).collect(),
        false => some_lines(characters, random, n),
    };
    let room = Room::beside(n as u32, &lines);
    let settled = up_to(random, room.settled) * if random.once_in(2) { 1 } else { -1 };
    let free = if full { 0 } else { random.below(6) };
    let page = written(&lines, lines.len() + free).unwrap();
    let asked = random_line(characters, random, n);
    let (shape, class) = (pack_shape(&asked.shape), pack_class(&asked.class));
    let (lines, steps) = (lines.len() as u64, up_to(random, room.steps));
    (Slip { shape, class, settled, lines, steps, mode: PLAIN }, page)
}

/// Modes that a plain slip does not have.
pub const WRONG_MODES: [u32; 6] = [1, 2, 3, 256, 1 << 31, u32::MAX];

/// A sound state with something changed in its slip or on its page. Now and then it is sound all the same.
pub fn damaged(characters: &Characters, random: &mut Random, state: &(Slip, Vec<u64>)) -> (Slip, Vec<u64>) {
    let (mut slip, mut page) = state.clone();
    let any = random_word(random);
    match random.below(9) {
        8 => slip.mode = *random.pick(&WRONG_MODES),
        0 => slip.lines = *random.pick(&[slip.lines + 1, slip.lines.wrapping_sub(1), page.len() as u64, u64::MAX]),
        1 => slip.steps = damaged_steps(random, state),
        2 => slip.settled = damaged_settled(random, state),
        3 => {
            let ones = random_ones(random, slip.shape);
            slip.shape = *random.pick(&[any, slip.class, slip.shape ^ (1 << 30), slip.shape ^ (1 << 31), ones]);
        }
        4 => slip.class = *random.pick(&[any, slip.shape, slip.class ^ (1 << 31)]),
        5 => page.resize(*random.pick(&[PAGE_LIMIT, PAGE_LIMIT + 1, slip.lines.saturating_sub(1) as usize]), 0),
        _ if page.is_empty() => slip.lines = 1,
        6 => {
            let at = random.below(page.len().min(slip.lines as usize + 2));
            page[at] ^= 1 << random.below(64);
        }
        _ => {
            let at = random.below(page.len().min(slip.lines as usize + 1));
            page[at] = damaged_line(characters, random);
        }
    }
    (slip, page)
}

fn room_of((slip, page): &(Slip, Vec<u64>)) -> Room {
    Room::beside(degree(&read_shape(slip.shape).unwrap()), &sound(slip, page).unwrap())
}

/// The most steps that are sound, one more, and numbers far off.
fn damaged_steps(random: &mut Random, state: &(Slip, Vec<u64>)) -> i64 {
    let most = room_of(state).steps as i64;
    *random.pick(&[most, most + 1, -1, i64::MIN, i64::MAX])
}

/// The largest and the smallest settled sums that are sound, those beyond them, and numbers far off.
fn damaged_settled(random: &mut Random, state: &(Slip, Vec<u64>)) -> i64 {
    let most = room_of(state).settled as i64;
    *random.pick(&[most, most + 1, -most, -most - 1, i64::MIN, i64::MAX])
}

/// A line of any degree, of two degrees, of degree 0, with ones in front of its shape, or of any two words.
pub fn damaged_line(characters: &Characters, random: &mut Random) -> u64 {
    let degrees = [random.below(17), random.below(17)];
    let line = random_line(characters, random, degrees[0]);
    let other = random_line(characters, random, degrees[1]);
    match random.below(5) {
        0 => line.word(),
        1 => Line { class: other.class, ..line }.word(),
        2 => *random.pick(&[0, 1 << 63]),
        3 => ones_in_front(random, line.word()),
        _ => (u64::from(random_word(random)) << 32) + u64::from(random_word(random)),
    }
}

/// A line's word with ones in front of its shape, and its sign.
pub fn ones_in_front(random: &mut Random, word: u64) -> u64 {
    let (sign, shape, class) = (word >> 63 << 63, (word >> 32) as u32 % (1 << 31), word % (1 << 32));
    sign + (u64::from(random_ones(random, shape)) << 32) + class
}

/// A number of a line that there is not, also one that 32 bits would take for a good one.
pub fn wrong_line(random: &mut Random, lines: u64, line: u64) -> u64 {
    *random.pick(&[lines, lines.saturating_add(1), line + (1 << 32), line + (1 << 63), u64::MAX])
}

/// A cycle that a class has hardly ever, also one that 8 or 32 bits would take for a good one.
pub fn wrong_cycle(random: &mut Random, cycle: u64) -> u64 {
    *random.pick(&[0, cycle + 1, 16, 17, 31, 32, 64, cycle + 256, cycle + (1 << 32), u64::MAX])
}
