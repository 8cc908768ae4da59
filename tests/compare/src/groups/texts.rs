//! Sessions as text: what a save and a load answer and leave, and texts that were saved, with every byte changed,
//! dropped, doubled and put in, and cut off behind every byte.

use super::made::made_up;
use super::{valued, Tally};
use crate::calls;
use crate::lent::leaves;
use crate::model::characters::Characters;
use crate::model::sessions::{Slip, PLAIN};
use crate::model::texts;
use crate::model::words::{pack_class, pack_shape};
use crate::random::Random;
use crate::report::Group;

/// A text shorter than this has each byte changed to every other one, the longer ones to those that tell most.
const SHORT: usize = 110;
pub const TELLING: &[u8] = b"0123456789,;=+-\n\r \0lsd\xFF";

/// How many drawn sessions have their texts changed.
const DRAWN: usize = 24;

/// Bytes that are enough for every session's text, as the header says.
pub const TEXT_ROOM: usize = 295_168;

/// Compares a save into this text; the text of the model, where it does not refuse.
pub fn compare_save(group: &mut Group, tally: &mut Tally, slip: Slip, page: &[u64], text: &[u8]) -> Option<Vec<u8>> {
    let saved = texts::text(&slip, page).map(String::into_bytes);
    let mut after = text.to_vec();
    let model = saved.clone().and_then(|saved| super::columns::written_or(17, &saved, &mut after));
    tally.count(model.err().unwrap_or(0));
    let expected = leaves(leaves(valued(model), page), &after);
    group.same(calls::save(slip, page, text), expected, || format!("save of {slip:?} into {} bytes", text.len()));
    saved.ok()
}

/// Compares a load onto this page; what the library gives, where the model does not refuse.
pub fn compare_load(group: &mut Group, tally: &mut Tally, text: &[u8], page: &[u64]) -> Option<(Slip, Vec<u64>)> {
    let model = texts::load(text, page.len());
    let answer = calls::load(text, page);
    let (expected, after) = match &model {
        Ok((slip, after)) => ((0, 0, *slip), &after[..]),
        Err((refused, line)) => ((*refused, *line, Slip::default()), page),
    };
    tally.count(expected.0);
    let given = model.is_ok().then(|| (answer.answer.answer.2, answer.run.clone()));
    group.same(answer, leaves(leaves(expected, text), after), || {
        let front = String::from_utf8_lossy(&text[..text.len().min(400)]);
        format!("load of {front:?} onto {} words", page.len())
    });
    given
}

/// Compares a load, and where the text is taken, a save of what was loaded: it gives this text again, which is the only
/// one of that session.
fn compare_both(group: &mut Group, tally: &mut Tally, text: &[u8], page: &[u64]) {
    if let Some((slip, page)) = compare_load(group, tally, text, page) {
        let again = calls::save(slip, &page, &vec![0x55; text.len() + 3]);
        let rest = [0x55; 3];
        group.same(again.run, [text, &rest].concat(), || format!("the text of {slip:?} again"));
    }
}

/// Saves into bytes of many lengths: none, one too few, exactly enough, and more.
fn compare_lengths(group: &mut Group, tally: &mut Tally, random: &mut Random, slip: Slip, page: &[u64]) -> Vec<u8> {
    let length = texts::text(&slip, page).unwrap().len();
    for room in [0, 1, length / 2, length - 1, length, length + 1, length + 1000, TEXT_ROOM] {
        let before: Vec<u8> = (0..room).map(|_| random.next() as u8).collect();
        compare_save(group, tally, slip, page, &before);
    }
    texts::text(&slip, page).unwrap().into_bytes()
}

/// The texts that differ from this one in one place.
pub fn near<'a>(text: &'a [u8], bytes: &'a [u8]) -> impl Iterator<Item = Vec<u8>> + 'a {
    let at = |at: usize| (&text[..at], text[at], &text[at + 1..]);
    let put = |front: &[u8], byte: &[u8], back: &[u8]| [front, byte, back].concat();
    let changed = move |k| {
        let (front, old, back) = at(k);
        bytes.iter().filter(move |&&byte| byte != old).map(move |&byte| put(front, &[byte], back))
    };
    let others = move |k| {
        let (front, old, back) = at(k);
        [put(front, &[], back), put(front, &[old, old], back), front.to_vec()]
    };
    let more = move |k: usize| TELLING.iter().map(move |&byte| put(&text[..k], &[byte], &text[k..]));
    let length = text.len();
    (0..length).flat_map(changed).chain((0..length).flat_map(others)).chain((0..=length).flat_map(more))
}

/// The texts that come of exchanging two lines, of leaving one out, and of having one twice.
pub fn near_lines(text: &[u8]) -> Vec<Vec<u8>> {
    let lines: Vec<&[u8]> = text.split_inclusive(|&byte| byte == b'\n').collect();
    let mut all = vec![];
    for at in 0..lines.len() {
        for other in 0..at {
            let mut exchanged = lines.clone();
            exchanged.swap(at, other);
            all.push(exchanged.concat());
        }
        all.push([&lines[..at], &lines[at + 1..]].concat().concat());
        all.push([&lines[..=at], &lines[at..]].concat().concat());
    }
    all
}

pub fn run(characters: &Characters, group: &mut Group) {
    let (mut saved, mut loaded) = (Tally::default(), Tally::default());
    let mut random = Random(8);
    let all: Vec<u8> = (0..=255).collect();
    let mut sessions = vec![
        (Slip { settled: 1, ..Slip::default() }, vec![0; 2]),
        (session(&[3, 2], &[3, 2], 0, 1, 1), vec![0x9000_0000_2000_0000, 0, 0]),
        (session(&[16], &[1; 16], -20_922_789_888_000, 0, 35_951_249_665_217), vec![]),
        (session(&[1; 16], &[1; 16], 0, 1, 0), vec![0x0000_4000_7FFF_8000]),
    ];
    sessions.extend((0..DRAWN).map(|_| loop {
        let (slip, page) = made_up(characters, &mut random);
        if page.len() < 100 {
            return (slip, page);
        }
    }));
    for (slip, page) in &sessions {
        let text = compare_lengths(group, &mut saved, &mut random, *slip, page);
        let bytes = if text.len() < SHORT { &all } else { TELLING };
        for changed in near(&text, bytes).chain(near_lines(&text)) {
            let words = (slip.lines as usize + random.below(4)).saturating_sub(1);
            let before: Vec<u64> = (0..words).map(|_| random.next()).collect();
            compare_both(group, &mut loaded, &changed, &before);
        }
    }
    group.same(saved.lacking(&[0, 17], 50), vec![], || "save refusals hardly met".to_string());
    group.same(loaded.lacking(&[0, 7, 10, 16], 1000), vec![], || "load refusals hardly met".to_string());
    group.note(format!("saves: {}", saved.said()));
    group.note(format!("loads: {}", loaded.said()));
}

/// The slip of a session by parts.
fn session(rows: &[u8], parts: &[u8], settled: i64, lines: u64, steps: i64) -> Slip {
    Slip { shape: pack_shape(rows), class: pack_class(parts), settled, lines, steps, mode: PLAIN }
}
