//! Slips, lines, strips and lists keep good words: the good word of every shape of degree 0 to 16 with every number of
//! ones in front is put in its place in a slip, a line and a list, and a strip gets a new line with such a number drawn at
//! random; each is refused.

use super::draws::{listed, room_in_front, with_ones};
use super::made::ones_in_front;
use super::sessions::State;
use super::strips::{compare_commit, compare_preview, Named, STRIP};
use super::texts::compare_save;
use super::Tally;
use crate::calls;
use crate::lent::leaves;
use crate::model::characters::Characters;
use crate::model::sessions::{self, Slip};
use crate::model::words::{pack_class, pack_shape};
use crate::model::Parts;
use crate::random::Random;
use crate::report::Group;

/// Everything that these comparisons need at hand.
struct Desk<'a> {
    group: &'a mut Group,
    random: Random,
    judged: Tally,
}

pub fn run(characters: &Characters, group: &mut Group) {
    let mut desk = Desk { group, random: Random(13), judged: Tally::default() };
    for (rows, listing) in characters.listings.iter().flat_map(|all| all.iter().map(move |rows| (rows, all))) {
        let good = pack_shape(rows);
        for word in (1..=room_in_front(good)).map(|ones| with_ones(good, ones)) {
            let parts = listed(&mut desk.random, listing);
            desk.sessions(good, word, parts);
            desk.list(word, listing);
        }
    }
    let Desk { group, judged, .. } = desk;
    group.same(judged.lacking(&[0, 1, 7, 19], 1000), vec![], || "refusals hardly met".to_string());
    group.note(judged.said());
}

impl Desk<'_> {
    /// The good word in the slip and in the line of a sound session, and the other word in one of the two or in both;
    /// the line may have a minus. The empty shape makes no line.
    fn sessions(&mut self, good: u32, word: u32, parts: &Parts) {
        let (class, sign) = (pack_class(parts), u64::from(self.random.once_in(2)) << 63);
        let line = |shape: u32| sign + (u64::from(shape) << 32) + u64::from(class);
        let state = |shape: u32, page: &[u64]| -> State {
            let lines = page.iter().filter(|&&word| word != 0).count() as u64;
            (Slip { shape, class, lines, ..Slip::default() }, page.to_vec())
        };
        let Some(&cycle) = parts.first() else {
            let named = Named { line: 0, cycle: 1 };
            self.judge(&state(good, &[0]), named, 0);
            return self.judge(&state(word, &[0]), named, 7);
        };
        let named = Named { line: 0, cycle: cycle.into() };
        let sound = state(good, &[line(good)]);
        self.judge(&sound, named, 0);
        self.judge(&state(word, &[line(good)]), named, 7);
        self.judge(&state(good, &[line(word)]), named, 7);
        self.judge(&state(word, &[line(word)]), named, 7);
        self.strip(&sound, named);
    }

    /// Compares a watch, a preview, a commit and a save of a state, which is sound or is not.
    fn judge(&mut self, state: &State, named: Named, refused: u32) {
        let (slip, page) = state;
        let what = || format!("{slip:x?} with {page:x?}");
        self.judged.count(refused);
        self.group.same(sessions::sound(slip, page).err().unwrap_or(0), refused, what);
        self.group.same(calls::watch_refusal(*slip, page, 3, 0), leaves(refused, page), what);
        let (_, strip) = compare_preview(self.group, state, named, &[7; STRIP]);
        compare_commit(self.group, state, named, &strip);
        compare_save(self.group, &mut Tally::default(), *slip, page, &[7; 200]);
    }

    /// A strip on which one of the new lines has ones in front of its shape.
    fn strip(&mut self, state: &State, named: Named) {
        let mut strip = sessions::new_words(&state.0, &state.1, named.line, named.cycle).unwrap();
        if !strip.is_empty() {
            let at = self.random.below(strip.len());
            strip[at] = ones_in_front(&mut self.random, strip[at]);
            let (refused, _) = compare_commit(self.group, state, named, &strip);
            self.judged.count(refused);
            self.group.same(refused, 19, || format!("commit of {:?} with {strip:x?}", state.0));
        }
    }

    /// The word at some place among good ones: the list is refused there.
    fn list(&mut self, word: u32, listing: &[Parts]) {
        let count = 1 + self.random.below(6);
        let mut list: Vec<u32> = (0..count).map(|_| pack_shape(listed(&mut self.random, listing))).collect();
        let at = self.random.below(count);
        list[at] = word;
        let lent = vec![7; count];
        self.judged.count(1);
        let model = leaves(leaves((1, at as u64), &list), &lent);
        self.group.same(calls::shapes_to_old(&list, &lent), model, || format!("to old, {list:x?}"));
    }
}
