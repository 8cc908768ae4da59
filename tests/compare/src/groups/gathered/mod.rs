//! Gathered sessions: each call compared with what the model answers, and with what it leaves on the page, in the
//! column of coefficients and in any other lent run.

mod counts;
pub mod crowds;
pub mod ends;
pub mod examples;
pub mod handmade;
pub mod judged;
mod made;
pub mod modes;
pub mod orders;
pub mod runs;
mod storing;
mod striking;
pub mod texts;

use super::strips::Named;
use super::valued;
use crate::calls::gathered::{self as calls, Lent};
use crate::lent::leaves;
use crate::model::characters::Characters;
use crate::model::gathered::{self, Session};
use crate::model::sessions::{Line, Shown, Slip};
use crate::model::{texts as model_texts, Answer};
use crate::report::Group;

/// What the model says of a call that leaves this page and this column.
fn lent<R>(answer: R, session: &Session) -> Lent<R> {
    leaves(leaves(answer, &session.column), &session.page)
}

/// The session of a slip, and of the page and the column that a call leaves.
fn left<R>(lent: &Lent<R>, slip: Slip) -> Session {
    Session { slip, page: lent.run.clone(), column: lent.answer.run.clone() }
}

/// A session that is not there: a slip of zeros beside a page and a column as they were.
fn blank(page: &[u64], column: &[i64]) -> Session {
    Session { slip: Slip::default(), page: page.to_vec(), column: column.to_vec() }
}

/// Compares an opening: the model's refusal number, and the session that the library leaves.
pub fn compare_open(group: &mut Group, shape: u32, class: u32, page: &[u64], column: &[i64]) -> (u32, Session) {
    let (refused, next) = match gathered::open(shape, class, page.len(), column.len()) {
        Ok(session) => (0, session),
        Err(refused) => (refused, blank(page, column)),
    };
    let answer = calls::open(shape, class, page, column);
    let session = left(&answer, answer.answer.answer.1);
    group.same(answer, lent((refused, next.slip), &next), || {
        format!("gathered open {shape:x} on {class:x}, {} words, {} coefficients", page.len(), column.len())
    });
    (refused, session)
}

/// Compares a preview onto this strip: the model's refusal number, and the strip as the library leaves it.
pub fn compare_preview(group: &mut Group, session: &Session, named: Named, strip: &[u64]) -> (u32, Vec<u64>) {
    let Named { line, cycle } = named;
    let (refused, count, after) = match gathered::preview(session, line, cycle, strip) {
        Ok((count, after)) => (0, count, after),
        Err(refused) => (refused, 0, strip.to_vec()),
    };
    let answer = calls::preview(session, line, cycle, strip);
    let now = answer.answer.answer.run.clone();
    group.same(answer, lent(leaves((count, refused), &after), session), || {
        format!("preview of {named:?} of {:x?} into {} words", session.slip, strip.len())
    });
    (refused, now)
}

/// Compares a commit with this strip: the model's refusal number, and the session that the library leaves.
pub fn compare_commit(group: &mut Group, session: &Session, named: Named, strip: &[u64]) -> (u32, Session) {
    let Named { line, cycle } = named;
    let (refused, next) = match gathered::commit(session, line, cycle, strip) {
        Ok(next) => (0, next),
        Err(refused) => (refused, session.clone()),
    };
    let answer = calls::commit(session, line, cycle, strip);
    let after = left(&answer, answer.answer.answer.answer.1);
    group.same(answer, lent(leaves((refused, next.slip), strip), &next), || {
        let front = &strip[..strip.len().min(4)];
        format!("commit of {named:?} of {:x?} with {} words, {front:x?}", session.slip, strip.len())
    });
    (refused, after)
}

/// Compares the three calls of a watch with what the model shows; its refusal number.
pub fn compare_watch(group: &mut Group, session: &Session, (kind, line): (u64, u64), model: Answer<Shown>) -> u32 {
    let refused = model.err().unwrap_or(0);
    let whole = if let Ok(Shown::Whole(whole)) = model { whole } else { 0 };
    let ratio = if let Ok(Shown::Ratio(ratio)) = model { ratio } else { 0.0 };
    let what = || format!("watch {kind} of line {line} of {:x?}", session.slip);
    group.same(calls::watch_whole(session, kind, line), lent(whole, session), what);
    let answer = calls::watch_ratio(session, kind, line);
    group.same(answer.answer.answer.to_bits(), ratio.to_bits(), what);
    group.same(answer, lent(ratio, session), what);
    group.same(calls::watch_refusal(session, kind, line), lent(refused, session), what);
    refused
}

/// What the model says of a watch of a session.
pub fn watched(characters: &Characters, session: &Session, kind: u64, line: u64) -> Answer<Shown> {
    gathered::watch(characters, &session.slip, &gathered::sound(session), kind, line)
}

/// Compares a save into this text: the model's refusal number.
pub fn compare_save(group: &mut Group, session: &Session, text: &[u8]) -> u32 {
    let mut after = text.to_vec();
    let saved = model_texts::gathered_text(session).map(String::into_bytes);
    let model = saved.and_then(|saved| super::columns::written_or(17, &saved, &mut after));
    let refused = model.err().unwrap_or(0);
    group.same(calls::save(session, text), lent(leaves(valued(model), &after), session), || {
        format!("gathered save of {:x?} into {} bytes", session.slip, text.len())
    });
    refused
}

/// Compares a load: the model's refusal number, and the session that the library gives where it is not refused.
pub fn compare_load(group: &mut Group, text: &[u8], page: &[u64], column: &[i64]) -> (u32, Option<Session>) {
    let model = model_texts::gathered_load(text, page.len(), column.len());
    let answer = calls::load(text, page, column);
    let given = model.is_ok().then(|| left(&answer, answer.answer.answer.answer.2));
    let (refused, line, next) = match model {
        Ok(session) => (0, 0, session),
        Err((refused, line)) => (refused, line, blank(page, column)),
    };
    group.same(answer, lent(leaves((refused, line, next.slip), text), &next), || {
        let front = String::from_utf8_lossy(&text[..text.len().min(400)]);
        format!("gathered load of {front:?} onto {} words and {} coefficients", page.len(), column.len())
    });
    (refused, given)
}

/// The lines of a sound session.
fn lines_of(session: &Session) -> Vec<Line> {
    gathered::sound(session).unwrap()
}

/// What the model says that is settled and waits.
fn total(characters: &Characters, session: &Session) -> i64 {
    session.slip.settled + lines_of(session).iter().map(|line| line.character(characters)).sum::<i64>()
}
