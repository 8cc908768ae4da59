//! Gathered sessions as text: texts that were saved, with every byte changed, dropped, doubled and put in, and cut off
//! behind every byte; each text in a load of the other mode; how long a text can get, and pages of many lengths.

use super::made::{made_up, session_of};
use super::{compare_load, compare_save};
use crate::calls::gathered as calls;
use crate::groups::texts::{compare_load as compare_plain_load, near, near_lines, TELLING};
use crate::groups::Tally;
use crate::model::characters::Characters;
use crate::model::gathered::Session;
use crate::model::partitions::factorial;
use crate::model::sessions::{sound, Line, Slip, PAGE_LIMIT, PLAIN};
use crate::model::texts::{gathered_text, text};
use crate::model::words::{pack_class, pack_shape};
use crate::random::Random;
use crate::report::Group;

/// Bytes that are enough for every gathered session's text, as the header says.
const TEXT_ROOM: usize = 377_088;

/// How many drawn sessions have their texts changed.
const DRAWN: usize = 16;

/// How many lines a long text has.
const MANY: usize = 100_000;

pub fn run(characters: &Characters, group: &mut Group) {
    let (mut random, mut loaded) = (Random(26), Tally::default());
    let all: Vec<u8> = (0..=255).collect();
    let drawn: Vec<Session> = (0..DRAWN).map(|_| made_up(characters, &mut random)).collect();
    for (at, session) in fixed().iter().chain(&drawn).enumerate() {
        lengths(group, session);
        let text = gathered_text(session).unwrap().into_bytes();
        let bytes = if at < 2 { &all } else { TELLING };
        for changed in near(&text, bytes).chain(near_lines(&text)) {
            let words = (session.slip.lines as usize + random.below(4)).saturating_sub(1);
            loaded.count(compare_both(group, &changed, &vec![7; words]));
        }
        other_mode(group, session, &text);
    }
    pages(group);
    long(group, &mut loaded);
    longest(characters, group);
    group.same(loaded.lacking(&[0, 7, 10, 16], 500), vec![], || "load refusals hardly met".to_string());
    group.note(format!("loads: {}", loaded.said()));
}

/// Nothing but a settled sum; one line of each sign; and numbers that are as long as they get.
fn fixed() -> Vec<Session> {
    let slip =
        |rows: &[u8], parts: &[u8]| Slip { shape: pack_shape(rows), class: pack_class(parts), ..Slip::default() };
    let line = |sign: i64, rows: &[u8], parts: &[u8]| Line { sign, shape: rows.to_vec(), class: parts.to_vec() };
    let lines = [line(-3, &[2, 1], &[1, 1, 1]), line(12, &[1, 1], &[2])];
    vec![
        session_of(Slip { settled: 1, ..Slip::default() }, &[], 2),
        session_of(slip(&[3, 2], &[3, 2]), &lines, 1),
        session_of(slip(&[1; 16], &[1; 16]), &[line(-20_922_789_888_000, &[1], &[1])], 0),
        session_of(slip(&[16], &[1; 16]), &[line(1, &[1; 16], &[1; 16])], 0),
    ]
}

/// Compares a load, and where the text is taken, a save of what was loaded: it gives this text again.
fn compare_both(group: &mut Group, text: &[u8], page: &[u64]) -> u32 {
    let (refused, session) = compare_load(group, text, page, &vec![-7; page.len()]);
    if let Some(session) = session {
        let again = calls::save(&session, &vec![0x55; text.len() + 3]).answer.answer;
        group.same(again.run, [text, &[0x55; 3]].concat(), || format!("the text of {:?} again", session.slip));
    }
    refused
}

/// Saves into bytes of many lengths.
fn lengths(group: &mut Group, session: &Session) {
    let length = gathered_text(session).unwrap().len();
    for room in [0, 1, length / 2, length - 1, length, length + 1, length + 1000, TEXT_ROOM] {
        compare_save(group, session, &vec![7; room]);
    }
}

/// The text in a plain load, and the plain text of the same lines, where these are sound, in a gathered one: both are
/// refused for their first line.
fn other_mode(group: &mut Group, session: &Session, gathered: &[u8]) {
    let page = vec![7; session.page.len()];
    compare_plain_load(group, &mut Tally::default(), gathered, &page);
    let slip = Slip { mode: PLAIN, ..session.slip };
    if sound(&slip, &session.page).is_ok() {
        let plain = text(&slip, &session.page).unwrap();
        let answer = calls::load(plain.as_bytes(), &page, &vec![7; page.len()]).answer.answer.answer;
        group.same(answer, (16, 1, Slip::default()), || format!("gathered load of {plain:?}"));
        compare_load(group, plain.as_bytes(), &page, &vec![7; page.len()]);
    }
}

/// A head of degree 16 that says that so many lines follow.
fn head(lines: usize) -> String {
    format!("mode=gathered\ndegree=16\nshape=16\nclass=16\nsteps=0\nsettled=0\nlines={lines}\n")
}

/// Loads onto pages of many lengths, with columns of the same length and of others.
fn pages(group: &mut Group) {
    let text = head(3) + "line=1;1;1\nline=-400;3,1;2,2\nline=17;2;1,1\n";
    for words in (0..40).chain(4000..=PAGE_LIMIT + 2) {
        for count in [words, words + 1, words.saturating_sub(1), 0, 3, PAGE_LIMIT] {
            compare_load(group, text.as_bytes(), &vec![7; words], &vec![7; count]);
        }
    }
}

/// Texts of no bytes and of megabytes.
fn long(group: &mut Group, loaded: &mut Tally) {
    let good = "line=1;1;1\n".repeat(MANY);
    let texts = [
        String::new(),
        "\n".repeat(MANY),
        "mode=gathered\n".repeat(MANY),
        "mode=gathered".to_string(),
        "mode=gathered".repeat(MANY),
        head(MANY) + &good,
        head(MANY - 1) + &good,
        head(MANY + 1) + &good + "line=1;1;1",
        head(1) + "line=" + &"1".repeat(MANY) + ";1;1\n",
        head(1) + "line=-" + &"0".repeat(MANY) + ";1;1\n",
        head(1) + "line=" + &"-".repeat(MANY) + ";1;1\n",
        head(1) + "line=1;" + &"1,".repeat(MANY) + "1;1\n",
        head(2) + "line=1;1;1\nline=1;1;1\n",
    ];
    for text in texts {
        for words in [0, PAGE_LIMIT] {
            loaded.count(compare_both(group, text.as_bytes(), &vec![7; words]));
        }
    }
}

/// What the header says of room: the longest lines that there are, as many as are sound, and the longest head.
fn longest(characters: &Characters, group: &mut Group) {
    let mut pairs: Vec<(usize, Line)> = vec![];
    for rows in &characters.listings[12] {
        for class in &characters.listings[12] {
            let line = Line { sign: -10, shape: rows.clone(), class: class.clone() };
            pairs.push((rows.len() + class.len(), line));
        }
    }
    pairs.sort_by_key(|(length, _)| usize::MAX - length);
    let lines: Vec<Line> = pairs.into_iter().take(PAGE_LIMIT).map(|(_, line)| line).collect();
    let slip = Slip { shape: pack_shape(&[1; 16]), class: pack_class(&[1; 16]), ..Slip::default() };
    let full = session_of(slip, &lines, 0);
    compare_save(group, &full, &vec![7; TEXT_ROOM]);
    let text = gathered_text(&full).unwrap();
    compare_both(group, text.as_bytes(), &vec![7; PAGE_LIMIT]);
    group.same(text.len() < TEXT_ROOM, true, || "the longest text".to_string());
    let (settled, steps) = (-(factorial(16) as i64), 35_951_249_665_217);
    let head = session_of(Slip { settled, steps, ..slip }, &[], 0);
    compare_save(group, &head, &[7; 256]);
    let text = gathered_text(&head).unwrap();
    group.same(text.len() + "4096".len() - "0".len() < 256, true, || "the longest head".to_string());
}
