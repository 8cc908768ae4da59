//! Plain sessions: a slip, and a Vec of lines that is written out as a page.

use super::characters::Characters;
use super::partitions::{degree, factorial, strikes, without};
use super::words::{pack_class, pack_shape, read_class, read_good_shape, read_pair};
use super::{Answer, Parts, DEGREE_LIMIT};

/// The longest page.
pub const PAGE_LIMIT: usize = 4096;

/// The modes that a slip says.
pub const PLAIN: u32 = 0;
pub const GATHERED: u32 = 1;

#[derive(Clone, Copy, Debug, Default, PartialEq, Eq)]
pub struct Slip {
    pub shape: u32,
    pub class: u32,
    pub settled: i64,
    pub lines: u64,
    pub steps: i64,
    pub mode: u32,
}

/// A waiting line: its sign, 1 or -1, or the coefficient that stands for it in a gathered session; its rows and its
/// cycles.
#[derive(Clone, Debug, PartialEq, Eq)]
pub struct Line {
    pub sign: i64,
    pub shape: Parts,
    pub class: Parts,
}

impl Line {
    pub fn word(&self) -> u64 {
        let minus = u64::from(self.sign < 0) << 63;
        minus + (u64::from(pack_shape(&self.shape)) << 32) + u64::from(pack_class(&self.class))
    }

    /// The line of a word: a good shape word and a good class word of one degree, 1 to n.
    pub fn read(word: u64, n: u32) -> Option<Line> {
        let shape = read_good_shape((word >> 32) as u32 % (1 << 31)).ok()?;
        let class = read_class(word as u32).ok()?;
        let degrees = [degree(&shape), degree(&class)];
        let sign = if word >> 63 == 1 { -1 } else { 1 };
        (degrees[0] == degrees[1] && (1..=n).contains(&degrees[0])).then_some(Line { sign, shape, class })
    }

    pub fn character(&self, characters: &Characters) -> i64 {
        self.sign * characters.character(&self.shape, &self.class)
    }
}

/// The bound on the steps of an opening of degree d.
pub fn most_steps(d: u32) -> i128 {
    if d == 0 {
        0
    } else {
        1 + i128::from(d) * most_steps(d - 1)
    }
}

/// The lines, and zeros after them. Refuses 10.
pub fn written(lines: &[Line], words: usize) -> Answer<Vec<u64>> {
    if lines.len() > words {
        return Err(10);
    }
    let zeros = vec![0; words - lines.len()];
    Ok([lines.iter().map(Line::word).collect(), zeros].concat())
}

/// The slip and the page of an opening, both with the good word of the shape. Refuses 1, 3, 2, 4, 5, 6, 10.
pub fn open(shape: u32, class: u32, words: usize) -> Answer<(Slip, Vec<u64>)> {
    let (rows, cycles) = read_pair(shape, class)?;
    let shape = pack_shape(&rows);
    if words > PAGE_LIMIT {
        return Err(6);
    }
    let empty = rows.is_empty();
    let lines = if empty { vec![] } else { vec![Line { sign: 1, shape: rows, class: cycles }] };
    let page = written(&lines, words)?;
    let settled = i64::from(empty);
    Ok((Slip { shape, class, settled, lines: lines.len() as u64, steps: 0, mode: PLAIN }, page))
}

/// The lines of a sound slip and page. Refuses 6, 7.
pub fn sound(slip: &Slip, page: &[u64]) -> Answer<Vec<Line>> {
    if page.len() > PAGE_LIMIT {
        return Err(6);
    }
    sound_lines(slip, page).ok_or(7)
}

fn sound_lines(slip: &Slip, page: &[u64]) -> Option<Vec<Line>> {
    if slip.mode != PLAIN {
        return None;
    }
    let n = degree(&read_good_shape(slip.shape).ok()?);
    read_pair(slip.shape, slip.class).ok()?;
    let count = usize::try_from(slip.lines).ok().filter(|&count| count <= page.len())?;
    let lines = page[..count].iter().map(|&word| Line::read(word, n)).collect::<Option<Vec<Line>>>()?;
    let degrees = || lines.iter().map(|line| degree(&line.shape));
    let sums = degrees().map(factorial).sum::<i128>() + i128::from(slip.settled).abs();
    let steps = degrees().map(most_steps).sum::<i128>() + i128::from(slip.steps);
    let zeros = page[count..].iter().all(|&word| word == 0);
    (zeros && sums <= factorial(n) && slip.steps >= 0 && steps <= most_steps(n)).then_some(lines)
}

/// What a strike makes of a session: the lines that stay, the new ones, and the sum of the signs that are settled.
struct Struck {
    staying: Vec<Line>,
    new: Vec<Line>,
    settled: i64,
}

/// Takes a line out and strikes a cycle from it. Refuses 6, 7, 8, 9.
fn strike(slip: &Slip, page: &[u64], line: u64, cycle: u64) -> Answer<Struck> {
    let mut staying = sound(slip, page)?;
    if line >= staying.len() as u64 {
        return Err(8);
    }
    let class = without(&staying[line as usize].class, cycle).ok_or(9u32)?;
    let taken = staying.remove(line as usize);
    let left = strikes(&taken.shape, cycle as u8);
    let all = left.into_iter().map(|(sign, shape)| Line { sign: taken.sign * sign, shape, class: class.clone() });
    let (settled, new): (Vec<Line>, Vec<Line>) = all.partition(|line| line.shape.is_empty());
    Ok(Struck { staying, new, settled: settled.iter().map(|line| line.sign).sum() })
}

/// The words of the new lines. Refuses 6, 7, 8, 9.
pub fn new_words(slip: &Slip, page: &[u64], line: u64, cycle: u64) -> Answer<Vec<u64>> {
    Ok(strike(slip, page, line, cycle)?.new.iter().map(Line::word).collect())
}

/// The count of the new lines, and the strip with them at its front. Refuses 6, 7, 8, 9, 18.
pub fn preview(slip: &Slip, page: &[u64], line: u64, cycle: u64, strip: &[u64]) -> Answer<(u64, Vec<u64>)> {
    let new = new_words(slip, page, line, cycle)?;
    let behind = strip.get(new.len()..).ok_or(18u32)?;
    Ok((new.len() as u64, [&new, behind].concat()))
}

/// The slip and the page after a commit. Refuses 6, 7, 8, 9, 19, 10.
pub fn commit(slip: &Slip, page: &[u64], line: u64, cycle: u64, strip: &[u64]) -> Answer<(Slip, Vec<u64>)> {
    let Struck { staying, new, settled } = strike(slip, page, line, cycle)?;
    let front: Vec<Option<Line>> = strip.iter().take(new.len()).map(|&word| Line::read(word, DEGREE_LIMIT)).collect();
    if front != new.iter().cloned().map(Some).collect::<Vec<_>>() {
        return Err(19);
    }
    let lines = [staying, new].concat();
    let page = written(&lines, page.len())?;
    let settled = slip.settled + settled;
    Ok((Slip { settled, lines: lines.len() as u64, steps: slip.steps + 1, ..*slip }, page))
}

/// What a watch shows.
#[derive(Clone, Copy, Debug, PartialEq)]
pub enum Shown {
    Whole(i64),
    Ratio(f64),
}

/// The watch of a slip and the lines of its page, as `sound` gives them. Refuses 6, 7, 15, 8.
pub fn watch(characters: &Characters, slip: &Slip, lines: &Answer<Vec<Line>>, kind: u64, line: u64) -> Answer<Shown> {
    let lines = lines.as_ref().map_err(|&refused| refused)?;
    let chosen = || lines.get(usize::try_from(line).unwrap()).ok_or(8u32);
    match kind {
        1 => Ok(Shown::Whole(chosen()?.character(characters))),
        2 => {
            let degree = characters.character_degree(&chosen()?.shape);
            Ok(Shown::Ratio(chosen()?.character(characters) as f64 / degree as f64))
        }
        3 => Ok(Shown::Whole(slip.settled)),
        4 => Ok(Shown::Whole(lines.iter().map(|line| line.character(characters)).sum())),
        5 => Ok(Shown::Whole(slip.steps)),
        _ => Err(15),
    }
}
