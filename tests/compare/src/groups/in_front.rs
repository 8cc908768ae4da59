//! Words with ones in front: words by hand, the good word of every shape of degree 0 to 16 with none to as many ones in
//! front as there is room for, words of degrees 17 and 18, and words at random. The library says of each what the model
//! says and, the count apart, what it says of the good word.

use super::columns::written;
use super::draws::{listed, random_ones, random_word, room_in_front, with_ones};
use super::ends::{compare_end, CYCLES};
use super::sessions::compare_open;
use super::{valued, Tally};
use crate::calls::{self, Valued};
use crate::lent::{leaves, Left};
use crate::model::characters::Characters;
use crate::model::partitions::{degree, listing, transposed};
use crate::model::words::{good_shape, pack_class, pack_shape, read_pair, read_shape};
use crate::model::{Answer, Parts, DEGREE_LIMIT};
use crate::random::Random;
use crate::report::Group;

/// Words by hand: the good word and how many ones are dropped, or the refusal number.
const BY_HAND: [(u32, Answer<(u32, u32)>); 17] = [
    (0x0000_0000, Ok((0, 0))),
    (0x4000_0000, Ok((0, 1))),
    (0x7FFF_8000, Ok((0, 16))),
    (0x7FFF_FFFE, Ok((0, 30))),
    (0x7FFF_FFFF, Ok((0, 31))),
    (0x2C00_0000, Ok((0x2C00_0000, 0))),
    (0x5600_0000, Ok((0x2C00_0000, 1))),
    (0x7FFF_FFEB, Ok((0x2C00_0000, 26))),
    (0x7FFF_FFFD, Ok((0x2000_0000, 29))),
    (0x5FFF_E000, Ok((0x3FFF_C000, 1))),
    (0x5FFF_F000, Err(2)),
    (0x3FFF_FFFF, Err(2)),
    (0x8000_0000, Err(1)),
    (0xBFFF_E000, Err(1)),
    (0xC000_0000, Err(1)),
    (0xD600_0000, Err(1)),
    (0xFFFF_FFFF, Err(1)),
];

/// The degree up to which characters are asked for on every class, and on how many beyond it.
const EVERY_CLASS: u32 = 8;
const SOME_CLASSES: usize = 4;

/// A character degree above this takes the library long, and is asked for with one number of ones alone.
const DEAR: i64 = 2_000;

/// How many words are drawn.
const WORDS: usize = 20_000;

/// What the calls take beside a shape word: classes, and a column for the rows.
struct Beside {
    classes: Vec<u32>,
    column: Vec<u8>,
}

/// What the calls tell of a shape word: all but the good word and the character degree.
#[derive(Clone, Debug, PartialEq)]
struct Told {
    degree: Valued<i64>,
    conjugate: Valued<u32>,
    rows: Left<Valued<u64>, u8>,
    characters: Vec<Valued<i64>>,
}

impl Told {
    fn by_library(word: u32, beside: &Beside) -> Told {
        Told {
            degree: calls::degree(word),
            conjugate: calls::conjugate(word),
            rows: calls::shape_parts(word, &beside.column),
            characters: beside.classes.iter().map(|&class| calls::character(word, class)).collect(),
        }
    }

    fn by_model(characters: &Characters, word: u32, beside: &Beside) -> Told {
        let rows = read_shape(word);
        let mut column = beside.column.clone();
        let count = rows.clone().and_then(|rows| written(&rows, &mut column));
        let character = |&class| read_pair(word, class).map(|(rows, parts)| characters.character(&rows, &parts));
        Told {
            degree: valued(rows.clone().map(|rows| degree(&rows).into())),
            conjugate: valued(rows.map(|rows| pack_shape(&transposed(&rows)))),
            rows: leaves(valued(count), &column),
            characters: beside.classes.iter().map(|class| valued(character(class))).collect(),
        }
    }
}

/// Everything that these comparisons need at hand.
struct Desk<'a> {
    characters: &'a Characters,
    group: &'a mut Group,
    random: Random,
    given: Tally,
}

pub fn run(characters: &Characters, group: &mut Group) {
    let mut desk = Desk { characters, group, random: Random(12), given: Tally::default() };
    let mut steps = 0;
    for (word, good) in BY_HAND {
        desk.group.same(calls::good_shape(word), valued(good), || format!("good shape of {word:#010x}, by hand"));
        desk.word(word);
    }
    for rows in characters.listings.iter().flatten() {
        desk.shape(rows);
        steps += desk.session(rows);
    }
    for word in [17, 18].into_iter().flat_map(listing).map(|rows| pack_shape(&rows)) {
        (0..=room_in_front(word)).for_each(|ones| desk.word(with_ones(word, ones)));
    }
    for _ in 0..WORDS {
        let word = desk.drawn();
        desk.word(word);
    }
    let Desk { group, given, .. } = desk;
    group.same(given.lacking(&[0, 1, 2], 1000), vec![], || "refusals hardly met".to_string());
    group.note(given.said());
    group.note(format!("{steps} steps"));
}

impl Desk<'_> {
    /// A word as it is drawn, with bit 31 set, or with ones put in front.
    fn drawn(&mut self) -> u32 {
        let word = random_word(&mut self.random);
        match self.random.below(8) {
            0 => word,
            1 => word | 1 << 31,
            _ => with_ones(word, self.random.below(32) as u32),
        }
    }

    /// Classes of this degree, all or some, one of any degree, and a word that need not be a class.
    fn beside(&mut self, degree: u32) -> Beside {
        let random = &mut self.random;
        let all = &self.characters.listings[degree as usize];
        let mut classes: Vec<u32> = match degree <= EVERY_CLASS {
            true => all.iter().map(|parts| pack_class(parts)).collect(),
            false => (0..SOME_CLASSES).map(|_| pack_class(listed(random, all))).collect(),
        };
        let any = random.pick(&self.characters.listings);
        classes.extend([pack_class(listed(random, any)), random_word(random)]);
        Beside { classes, column: (0..random.below(20)).map(|_| random.next() as u8).collect() }
    }

    /// Compares the good word of a word, and gives it where it is not refused.
    fn good(&mut self, word: u32) -> Option<u32> {
        let model = good_shape(word);
        self.given.count(model.err().unwrap_or(0));
        self.group.same(calls::good_shape(word), valued(model), || format!("good shape of {word:#010x}"));
        model.ok().map(|(good, _)| good)
    }

    /// Compares what is told of a word.
    fn told(&mut self, word: u32, beside: &Beside) -> Told {
        let told = Told::by_library(word, beside);
        let model = Told::by_model(self.characters, word, beside);
        self.group.same(told.clone(), model, || format!("{word:#010x}"));
        told
    }

    /// A word, and where it is not refused, its good word: the same is told of both.
    fn word(&mut self, word: u32) {
        let beside = self.beside(read_shape(word).map_or(DEGREE_LIMIT, |rows| degree(&rows)));
        let told = self.told(word, &beside);
        if let Some(good) = self.good(word) {
            let of_good = Told::by_library(good, &beside);
            self.group.same(told, of_good, || format!("{word:#010x} beside {good:#010x}"));
        }
    }

    /// A good word, and the same with every number of ones in front: the same is told of all, and opened with all.
    fn shape(&mut self, rows: &Parts) {
        let good = pack_shape(rows);
        let beside = self.beside(degree(rows));
        let told = self.told(good, &beside);
        let character_degree = calls::character_degree(good);
        let model = self.characters.character_degree(rows);
        let room = room_in_front(good);
        let once = 1 + self.random.below(room as usize) as u32;
        for ones in 0..=room {
            let word = with_ones(good, ones);
            let what = || format!("{good:#010x} with {ones} ones in front");
            let (found, again) = (self.good(word), self.told(word, &beside));
            self.group.same(calls::good_shape(word), ((good, ones), 0), what);
            self.group.same((found, &again), (Some(good), &told), what);
            if model <= DEAR || ones == once {
                let answer = calls::character_degree(word);
                self.group.same([answer, character_degree], [(model, 0); 2], what);
            }
            self.openings(good, word, beside.classes[0]);
        }
    }

    /// Openings on pages of no word, of one and of more.
    fn openings(&mut self, good: u32, word: u32, class: u32) {
        for words in [0, 1, 2 + self.random.below(3)] {
            let page: Vec<u64> = (0..words).map(|_| self.random.next()).collect();
            let opened = compare_open(self.group, word, class, &page);
            let of_good = compare_open(self.group, good, class, &page);
            self.group.same(opened, of_good, || format!("open {word:#010x} beside {good:#010x} on {class:#010x}"));
        }
    }

    /// A session that is opened with ones in front and struck to its end; how many steps it took.
    fn session(&mut self, rows: &Parts) -> i64 {
        let random = &mut self.random;
        let listing = &self.characters.listings[degree(rows) as usize];
        let classes: Vec<&Parts> = listing.iter().filter(|parts| parts.len() <= CYCLES).collect();
        let (word, parts) = (random_ones(random, pack_shape(rows)), *random.pick(&classes));
        compare_end(self.characters, random, self.group, word, (rows, parts))
    }
}
