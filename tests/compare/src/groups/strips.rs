//! Strips: every shape struck by every cycle, previewed onto strips of all lengths near the count of the new lines, and
//! committed with these, with strips cut off, with two words exchanged and with every bit changed, on pages with room
//! and without; then full pages, and strips of 100,000 words.

use super::sessions::State;
use super::Tally;
use crate::calls;
use crate::lent::leaves;
use crate::model::characters::Characters;
use crate::model::sessions::{self, written, Line, Slip, PAGE_LIMIT};
use crate::model::words::{pack_class, pack_shape};
use crate::random::Random;
use crate::report::Group;

/// A strip of this length is never too short.
pub const STRIP: usize = 16;

/// A strip that is longer than any page.
pub const LONG_STRIP: usize = 100_000;

/// Up to this degree every bit of a strip is changed.
const BITS_CHANGED: usize = 10;

/// A line of a page, and a cycle to be struck from it.
#[derive(Clone, Copy, Debug)]
pub struct Named {
    pub line: u64,
    pub cycle: u64,
}

/// Compares a preview onto this strip: the model's refusal number, and the strip as the library leaves it.
pub fn compare_preview(group: &mut Group, state: &State, named: Named, strip: &[u64]) -> (u32, Vec<u64>) {
    let ((slip, page), Named { line, cycle }) = (state, named);
    let (refused, count, after) = match sessions::preview(slip, page, line, cycle, strip) {
        Ok((count, after)) => (0, count, after),
        Err(refused) => (refused, 0, strip.to_vec()),
    };
    let answer = calls::preview(*slip, page, line, cycle, strip);
    let left = answer.run.clone();
    group.same(answer, leaves(leaves((count, refused), page), &after), || {
        format!("preview of {named:?} of {slip:?} into {} words", strip.len())
    });
    (refused, left)
}

/// Compares a commit with this strip: the model's refusal number, and the slip and page that the library leaves.
pub fn compare_commit(group: &mut Group, state: &State, named: Named, strip: &[u64]) -> (u32, State) {
    let ((slip, page), Named { line, cycle }) = (state, named);
    let (refused, (next, after)) = match sessions::commit(slip, page, line, cycle, strip) {
        Ok(next) => (0, next),
        Err(refused) => (refused, state.clone()),
    };
    let answer = calls::commit(*slip, page, line, cycle, strip);
    let left = (answer.answer.answer.1, answer.run.clone());
    group.same(answer, leaves(leaves((refused, next), strip), &after), || {
        let front = &strip[..strip.len().min(STRIP)];
        format!("commit of {named:?} of {slip:?} with {} words, {front:x?}", strip.len())
    });
    (refused, left)
}

/// Everything that the comparisons of strips need at hand.
struct Strips<'a> {
    group: &'a mut Group,
    random: Random,
    previewed: Tally,
    committed: Tally,
}

pub fn run(characters: &Characters, group: &mut Group) {
    let mut strips = Strips { group, random: Random(9), previewed: Tally::default(), committed: Tally::default() };
    for (degree, listing) in characters.listings.iter().enumerate() {
        for (shape, cycle) in listing.iter().flat_map(|shape| (1..=degree).map(move |cycle| (shape, cycle))) {
            strips.strike(degree, shape, cycle);
        }
    }
    strips.full_pages();
    let Strips { group, previewed, committed, .. } = strips;
    group.same(previewed.lacking(&[0, 6, 18], 100), vec![], || "preview refusals hardly met".to_string());
    group.same(committed.lacking(&[0, 6, 10, 19], 100), vec![], || "commit refusals hardly met".to_string());
    group.note(format!("previews: {}", previewed.said()));
    group.note(format!("commits: {}", committed.said()));
}

/// The slip of so many lines of degree 16 at most.
fn slip(lines: usize) -> Slip {
    Slip { shape: pack_shape(&[16]), class: pack_class(&[16]), lines: lines as u64, ..Slip::default() }
}

impl Strips<'_> {
    /// A shape with a cycle and ones for its class, struck by the cycle: between two other lines, where these have room
    /// beside it, on a page with room for the new lines and no more, and on one with a word less, where that is sound.
    fn strike(&mut self, degree: usize, shape: &[u8], cycle: usize) {
        let sign = if self.random.once_in(2) { 1 } else { -1 };
        let class = [vec![cycle as u8], vec![1; degree - cycle]].concat();
        let line = Line { sign, shape: shape.to_vec(), class };
        let other = Line { sign, shape: vec![1], class: vec![1] };
        let lines = if degree < 16 { vec![other.clone(), line, other] } else { vec![line] };
        let named = Named { line: lines.len() as u64 / 2, cycle: cycle as u64 };
        let on = |words: usize| (slip(lines.len()), written(&lines, words).unwrap());
        let (slip, page) = on(lines.len());
        let new = sessions::new_words(&slip, &page, named.line, named.cycle).unwrap();
        let enough = lines.len().max(lines.len() - 1 + new.len());
        for words in lines.len().max(enough - 1)..=enough {
            let state = on(words);
            self.lengths(&state, named, &new);
            self.words(&state, named, &new);
        }
        if degree <= BITS_CHANGED {
            self.bits(&on(enough), named, &new);
        }
    }

    fn preview(&mut self, state: &State, named: Named, length: usize) {
        let before = self.followed(&[], length);
        let (refused, _) = compare_preview(self.group, state, named, &before);
        self.previewed.count(refused);
    }

    fn commit(&mut self, state: &State, named: Named, strip: &[u64]) {
        let (refused, _) = compare_commit(self.group, state, named, strip);
        self.committed.count(refused);
    }

    /// These words, and any others behind them.
    fn followed(&mut self, words: &[u64], more: usize) -> Vec<u64> {
        words.iter().copied().chain((0..more).map(|_| self.random.next())).collect()
    }

    /// Strips that are too short by every number of words, that are not, and that have room for all hooks.
    fn lengths(&mut self, state: &State, named: Named, new: &[u64]) {
        for length in (0..new.len() + 2).chain([STRIP]) {
            self.preview(state, named, length);
        }
        for more in [0, 1, STRIP] {
            let strip = self.followed(new, more);
            self.commit(state, named, &strip);
        }
    }

    /// Strips that are cut off, that lack a word, and that have two words exchanged.
    fn words(&mut self, state: &State, named: Named, new: &[u64]) {
        for at in 0..new.len() {
            self.commit(state, named, &new[..at]);
            let lacking = [&new[..at], &new[at + 1..]].concat();
            let strip = self.followed(&lacking, 1);
            self.commit(state, named, &strip);
            for other in 0..at {
                let mut strip = new.to_vec();
                strip.swap(at, other);
                self.commit(state, named, &strip);
            }
        }
    }

    /// Strips with one bit changed.
    fn bits(&mut self, state: &State, named: Named, new: &[u64]) {
        for (at, bit) in (0..new.len()).flat_map(|at| (0..64).map(move |bit| (at, bit))) {
            let mut strip = self.followed(new, 1);
            strip[at] ^= 1 << bit;
            self.commit(state, named, &strip);
        }
    }

    /// Pages of 4,096 lines, and with a word more, struck at both ends, which gives no new line, one and two, and in
    /// one case settles a sign; the strips are short, as long as a page, longer, and of 100,000 words.
    fn full_pages(&mut self) {
        let kinds: [(&[u8], &[u8]); 4] =
            [(&[2, 1], &[1, 1, 1]), (&[2, 1], &[2, 1]), (&[1, 1, 1], &[3]), (&[2], &[1, 1])];
        let line = |at: usize| {
            let (shape, class) = kinds[at % kinds.len()];
            Line { sign: if at % 3 == 0 { -1 } else { 1 }, shape: shape.to_vec(), class: class.to_vec() }
        };
        let lines: Vec<Line> = (0..PAGE_LIMIT).map(line).collect();
        let page = written(&lines, PAGE_LIMIT).unwrap();
        let places = (0..4).chain(PAGE_LIMIT - 4..PAGE_LIMIT);
        for (line, cycle) in places.flat_map(|line| (1..=3).map(move |cycle| (line as u64, cycle))) {
            let (slip, named) = (slip(PAGE_LIMIT), Named { line, cycle });
            let new = sessions::new_words(&slip, &page, line, cycle).unwrap_or_default();
            for words in [PAGE_LIMIT, PAGE_LIMIT + 1] {
                let state = (slip, [&page[..], &[0][..words - PAGE_LIMIT]].concat());
                self.lengths(&state, named, &new);
                self.words(&state, named, &new);
                for length in [PAGE_LIMIT, PAGE_LIMIT + 1, LONG_STRIP] {
                    self.preview(&state, named, length);
                    let strip = self.followed(&new, length - new.len());
                    self.commit(&state, named, &strip);
                    let strip = self.followed(&new[..new.len().saturating_sub(1)], length);
                    self.commit(&state, named, &strip);
                }
            }
        }
    }
}
