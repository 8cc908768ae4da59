//! Gathered sessions (document 02, P7): the coefficient of each pair of a shape and a class in a map, and beside it the
//! order in which the pairs came.

use super::characters::Characters;
use super::partitions::{degree, factorial, strikes, without};
use super::sessions::{most_steps, Line, Shown, Slip, GATHERED, PAGE_LIMIT};
use super::words::{pack_shape, read_good_shape, read_pair};
use super::{Answer, Parts};
use std::collections::{HashMap, HashSet};

/// A slip, its page, and its column of coefficients.
#[derive(Clone, Debug, PartialEq, Eq)]
pub struct Session {
    pub slip: Slip,
    pub page: Vec<u64>,
    pub column: Vec<i64>,
}

/// What a line is besides its coefficient.
type Pair = (Parts, Parts);

/// The word of a line, whatever its coefficient.
pub fn word(line: &Line) -> u64 {
    Line { sign: 1, ..line.clone() }.word()
}

/// The lines, and zeros after them and after their coefficients. Refuses 10.
pub fn written(lines: &[Line], words: usize) -> Answer<(Vec<u64>, Vec<i64>)> {
    if lines.len() > words {
        return Err(10);
    }
    let (mut page, mut column) = (vec![0; words], vec![0; words]);
    for (at, line) in lines.iter().enumerate() {
        (page[at], column[at]) = (word(line), line.sign);
    }
    Ok((page, column))
}

/// Refuses 6, 21.
pub fn lengths(words: usize, count: usize) -> Answer<()> {
    match words {
        _ if words > PAGE_LIMIT => Err(6),
        _ if words != count => Err(21),
        _ => Ok(()),
    }
}

/// The session of an opening on a page of so many words and a column of so many coefficients. Refuses 1, 3, 2, 4, 5, 6,
/// 21, 10.
pub fn open(shape: u32, class: u32, words: usize, count: usize) -> Answer<Session> {
    let (rows, cycles) = read_pair(shape, class)?;
    lengths(words, count)?;
    let (shape, settled) = (pack_shape(&rows), i64::from(rows.is_empty()));
    let line = Some(Line { sign: 1, shape: rows, class: cycles }).filter(|line| !line.shape.is_empty());
    let lines: Vec<Line> = line.into_iter().collect();
    let (page, column) = written(&lines, words)?;
    let slip = Slip { shape, class, settled, lines: lines.len() as u64, steps: 0, mode: GATHERED };
    Ok(Session { slip, page, column })
}

/// The lines of a sound session, with their coefficients. Refuses 6, 21, 7.
pub fn sound(session: &Session) -> Answer<Vec<Line>> {
    lengths(session.page.len(), session.column.len())?;
    sound_lines(session).ok_or(7)
}

fn sound_lines(Session { slip, page, column }: &Session) -> Option<Vec<Line>> {
    let n = degree(&read_good_shape(slip.shape).ok()?);
    read_pair(slip.shape, slip.class).ok()?;
    let count = usize::try_from(slip.lines).ok().filter(|&count| count <= page.len())?;
    let read = |(&word, &sign): (&u64, &i64)| {
        let line = Line::read(word, n).filter(|line| line.sign == 1 && sign != 0)?;
        Some(Line { sign, ..line })
    };
    let lines = page[..count].iter().zip(&column[..count]).map(read).collect::<Option<Vec<Line>>>()?;
    let different: HashSet<(&Parts, &Parts)> = lines.iter().map(|line| (&line.shape, &line.class)).collect();
    let size = |line: &Line| i128::from(line.sign).abs() * factorial(degree(&line.shape));
    let sums = lines.iter().map(size).sum::<i128>() + i128::from(slip.settled).abs();
    let steps = lines.iter().map(|line| most_steps(degree(&line.shape))).sum::<i128>() + i128::from(slip.steps);
    let zeros = page[count..].iter().all(|&word| word == 0) && column[count..].iter().all(|&number| number == 0);
    let sound = [
        slip.mode == GATHERED,
        different.len() == count,
        zeros,
        sums <= factorial(n),
        slip.steps >= 0,
        steps <= most_steps(n),
    ];
    (!sound.contains(&false)).then_some(lines)
}

/// The lines of a sound session, one of them taken, and what a cycle leaves of it: sign, rows, and the class without
/// the cycle. Refuses 6, 21, 7, 8, 9.
fn strike(session: &Session, line: u64, cycle: u64) -> Answer<(Vec<Line>, Line, Vec<Line>)> {
    let mut staying = sound(session)?;
    let at = usize::try_from(line).ok().filter(|&at| at < staying.len()).ok_or(8u32)?;
    let class = without(&staying[at].class, cycle).ok_or(9u32)?;
    let taken = staying.remove(at);
    let left = strikes(&taken.shape, cycle as u8);
    let hooks = left.into_iter().map(|(sign, shape)| Line { sign, shape, class: class.clone() }).collect();
    Ok((staying, taken, hooks))
}

/// The words of the hooks that make lines, with their own signs. Refuses 6, 21, 7, 8, 9.
pub fn hook_words(session: &Session, line: u64, cycle: u64) -> Answer<Vec<u64>> {
    let (_, _, hooks) = strike(session, line, cycle)?;
    Ok(hooks.iter().filter(|hook| !hook.shape.is_empty()).map(Line::word).collect())
}

/// The count of these hooks, and the strip with them at its front. Refuses 6, 21, 7, 8, 9, 18.
pub fn preview(session: &Session, line: u64, cycle: u64, strip: &[u64]) -> Answer<(u64, Vec<u64>)> {
    let words = hook_words(session, line, cycle)?;
    let behind = strip.get(words.len()..).ok_or(18u32)?;
    Ok((words.len() as u64, [&words, behind].concat()))
}

/// The session after a commit. Refuses 6, 21, 7, 8, 9, 19, 10.
pub fn commit(session: &Session, line: u64, cycle: u64, strip: &[u64]) -> Answer<Session> {
    let (staying, taken, hooks) = strike(session, line, cycle)?;
    if !strip.starts_with(&hook_words(session, line, cycle)?) {
        return Err(19);
    }
    let mut settled = session.slip.settled;
    let mut order: Vec<Pair> = vec![];
    let mut sums: HashMap<Pair, i64> = HashMap::new();
    let brought = hooks.into_iter().map(|hook| Line { sign: taken.sign * hook.sign, ..hook });
    for Line { sign, shape, class } in staying.into_iter().chain(brought) {
        if shape.is_empty() {
            settled += sign;
            continue;
        }
        let pair = (shape, class);
        if !sums.contains_key(&pair) {
            order.push(pair.clone());
        }
        *sums.entry(pair).or_insert(0) += sign;
    }
    let gathered = order.into_iter().map(|pair| (sums[&pair], pair)).filter(|(sign, _)| *sign != 0);
    let lines: Vec<Line> = gathered.map(|(sign, (shape, class))| Line { sign, shape, class }).collect();
    let (page, column) = written(&lines, session.page.len())?;
    let slip = Slip { settled, lines: lines.len() as u64, steps: session.slip.steps + 1, ..session.slip };
    Ok(Session { slip, page, column })
}

/// The watch of a slip and its lines, as `sound` gives them. Refuses 6, 21, 7, 15, 8.
pub fn watch(characters: &Characters, slip: &Slip, lines: &Answer<Vec<Line>>, kind: u64, line: u64) -> Answer<Shown> {
    let lines = lines.as_ref().map_err(|&refused| refused)?;
    let chosen = || lines.get(usize::try_from(line).unwrap()).ok_or(8u32);
    match kind {
        1 => Ok(Shown::Whole(chosen()?.character(characters))),
        2 => {
            let alone = Line { sign: 1, ..chosen()?.clone() };
            Ok(Shown::Ratio(alone.character(characters) as f64 / characters.character_degree(&alone.shape) as f64))
        }
        3 => Ok(Shown::Whole(slip.settled)),
        4 => Ok(Shown::Whole(lines.iter().map(|line| line.character(characters)).sum())),
        5 => Ok(Shown::Whole(slip.steps)),
        _ => Err(15),
    }
}
