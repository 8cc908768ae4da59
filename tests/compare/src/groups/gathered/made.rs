//! Gathered sessions that no opening and commit made: sound ones and damaged ones.

use super::lines_of;
use crate::groups::draws::{random_ones, random_word};
use crate::groups::made::{damaged_line, random_line, up_to};
use crate::model::characters::Characters;
use crate::model::gathered::{written, Session};
use crate::model::partitions::{degree, factorial};
use crate::model::sessions::{most_steps, Line, Slip, GATHERED, PAGE_LIMIT};
use crate::model::words::{pack_class, pack_shape, read_shape};
use crate::random::Random;

/// Modes that a gathered slip does not have.
pub const WRONG_MODES: [u32; 6] = [0, 2, 3, 257, 1 << 31, u32::MAX];

/// What soundness leaves to settled and to steps beside some lines.
pub struct Room {
    pub settled: i128,
    pub steps: i128,
}

impl Room {
    pub fn beside(n: u32, lines: &[Line]) -> Room {
        let size = |line: &Line| i128::from(line.sign).abs() * factorial(degree(&line.shape));
        let settled = factorial(n) - lines.iter().map(size).sum::<i128>();
        let steps = lines.iter().map(|line| most_steps(degree(&line.shape))).sum::<i128>();
        Room { settled, steps: most_steps(n) - steps }
    }

    /// The room beside the lines of a sound session.
    pub fn of(session: &Session) -> Room {
        Room::beside(degree(&read_shape(session.slip.shape).unwrap()), &lines_of(session))
    }

    /// The largest size of a coefficient that a line of this degree may have here, 0 for none.
    pub fn largest(&self, degree: u32) -> i128 {
        if most_steps(degree) <= self.steps {
            self.settled / factorial(degree)
        } else {
            0
        }
    }
}

/// Whether two lines are equal, whatever their coefficients.
pub fn equal(one: &Line, other: &Line) -> bool {
    one.shape == other.shape && one.class == other.class
}

/// A coefficient of a size from 1 to `most`: mostly a small one, now and then the largest.
pub fn coefficient(random: &mut Random, most: i128) -> i64 {
    let size = match random.below(6) {
        0 => most as i64,
        1 => 1 + up_to(random, most - 1),
        _ => 1 + up_to(random, most.min(4) - 1),
    };
    if random.once_in(2) {
        size
    } else {
        -size
    }
}

/// Some different lines that have room beside each other at degree n.
fn some_lines(characters: &Characters, random: &mut Random, n: usize) -> Vec<Line> {
    let mut lines: Vec<Line> = vec![];
    for _ in 0..random.below(10) {
        let drawn = 1 + random.below(n);
        let line = random_line(characters, random, drawn);
        let most = Room::beside(n as u32, &lines).largest(drawn as u32);
        if most > 0 && !lines.iter().any(|other| equal(&line, other)) {
            lines.push(Line { sign: coefficient(random, most), ..line });
        }
    }
    lines
}

/// A slip, lines and some words after them, as a session.
pub fn session_of(slip: Slip, lines: &[Line], free: usize) -> Session {
    let (page, column) = written(lines, lines.len() + free).unwrap();
    Session { slip: Slip { lines: lines.len() as u64, mode: GATHERED, ..slip }, page, column }
}

/// A sound session: some lines of a degree, settled and steps in what they leave.
pub fn made_up(characters: &Characters, random: &mut Random) -> Session {
    let n = 1 + random.below(16);
    let lines = some_lines(characters, random, n);
    let room = Room::beside(n as u32, &lines);
    let settled = up_to(random, room.settled) * if random.once_in(2) { 1 } else { -1 };
    let asked = random_line(characters, random, n);
    let (shape, class) = (pack_shape(&asked.shape), pack_class(&asked.class));
    let slip = Slip { shape, class, settled, steps: up_to(random, room.steps), ..Slip::default() };
    session_of(slip, &lines, random.below(6))
}

/// A sound session with something changed in its slip, on its page or in its column. Now and then it is sound all the
/// same.
pub fn damaged(characters: &Characters, random: &mut Random, session: &Session) -> Session {
    let mut session = session.clone();
    match random.below(3) {
        0 => damage_slip(random, &mut session),
        1 => damage_page(characters, random, &mut session),
        _ => damage_column(random, &mut session),
    }
    session
}

fn damage_slip(random: &mut Random, session: &mut Session) {
    let (room, words, any) = (Room::of(session), session.page.len() as u64, random_word(random));
    let (settled, steps) = (room.settled as i64, room.steps as i64);
    let slip = &mut session.slip;
    match random.below(6) {
        0 => slip.lines = *random.pick(&[slip.lines + 1, slip.lines.wrapping_sub(1), words, u64::MAX]),
        1 => slip.steps = *random.pick(&[steps, steps + 1, -1, i64::MIN, i64::MAX]),
        2 => slip.settled = *random.pick(&[settled, settled + 1, -settled, -settled - 1, i64::MIN, i64::MAX]),
        3 => {
            let ones = random_ones(random, slip.shape);
            slip.shape = *random.pick(&[any, slip.class, slip.shape ^ (1 << 30), slip.shape ^ (1 << 31), ones]);
        }
        4 => slip.class = *random.pick(&[any, slip.shape, slip.class ^ (1 << 31)]),
        _ => slip.mode = *random.pick(&WRONG_MODES),
    }
}

fn damage_page(characters: &Characters, random: &mut Random, session: &mut Session) {
    let (lines, page) = (session.slip.lines as usize, &mut session.page);
    if page.is_empty() {
        session.slip.lines = 1;
        return;
    }
    let at = random.below(page.len().min(lines + 2));
    match random.below(5) {
        0 => page[at] ^= 1 << random.below(64),
        1 => page[at] ^= 1 << 63,
        2 => page[at] = damaged_line(characters, random),
        3 => page[at] = *random.pick(&page.clone()),
        _ => {
            let words = *random.pick(&[PAGE_LIMIT, PAGE_LIMIT + 1, lines.saturating_sub(1)]);
            page.resize(words, 0);
            session.column.resize(words, 0);
        }
    }
}

fn damage_column(random: &mut Random, session: &mut Session) {
    let (lines, count) = (session.slip.lines as usize, session.column.len());
    if count == 0 || random.once_in(4) {
        let length = *random.pick(&[count + 1, count.saturating_sub(1), 0, PAGE_LIMIT, PAGE_LIMIT + 1, lines]);
        session.column.resize(length, 0);
        return;
    }
    let at = random.below(count.min(lines + 2));
    let (number, other) = (session.column[at], *random.pick(&session.column));
    let power = 1i64 << random.below(64);
    let near = [number + 1, number - 1, -number, 0, other, number ^ power];
    let far = [i64::MIN, i64::MIN + 1, i64::MAX, power, power.wrapping_neg()];
    session.column[at] = if random.once_in(2) { *random.pick(&near) } else { *random.pick(&far) };
}
