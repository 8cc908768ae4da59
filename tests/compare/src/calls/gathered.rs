//! The calls of gathered sessions, each in a safe function: page and column are lent with guard words, and what is left
//! of both is given with the answer.

use super::*;
use crate::model::gathered::Session;

/// What a call answers, what it leaves in the column, and what it leaves on the page.
pub type Lent<R> = Left<Left<R, i64>, u64>;

fn lent<R>(page: &[u64], column: &[i64], call: impl FnOnce((*mut u64, usize), (*mut i64, usize)) -> R) -> Lent<R> {
    lend(page, |to, words| lend(column, |beside, count| call((to, words), (beside, count))))
}

pub fn open(shape: u32, class: u32, page: &[u64], column: &[i64]) -> Lent<(u32, Slip)> {
    lent(page, column, |(page, words), (column, count)| {
        handed(unsafe { zembrusha_gathered_open(shape, class, page, words, column, count) })
    })
}

/// What a preview answers, the count, and leaves on the strip, and then in column and page.
pub fn preview(session: &Session, line: u64, cycle: u64, strip: &[u64]) -> Lent<Left<Valued<u64>, u64>> {
    let slip = session.slip.into();
    lent(&session.page, &session.column, |(page, words), (column, count)| {
        lend(strip, |to, length| {
            let answer =
                unsafe { zembrusha_gathered_preview(slip, page, words, column, count, line, cycle, to, length) };
            valued(answer)
        })
    })
}

/// What a commit answers and leaves on the strip, and then in column and page.
pub fn commit(session: &Session, line: u64, cycle: u64, strip: &[u64]) -> Lent<Left<(u32, Slip), u64>> {
    let slip = session.slip.into();
    lent(&session.page, &session.column, |(page, words), (column, count)| {
        lend(strip, |from, length| {
            handed(unsafe { zembrusha_gathered_commit(slip, page, words, column, count, line, cycle, from, length) })
        })
    })
}

pub fn watch_whole(session: &Session, kind: u64, line: u64) -> Lent<i64> {
    let slip = session.slip.into();
    lent(&session.page, &session.column, |(page, words), (column, count)| unsafe {
        zembrusha_gathered_watch_whole(slip, page, words, column, count, kind, line)
    })
}

pub fn watch_ratio(session: &Session, kind: u64, line: u64) -> Lent<f64> {
    let slip = session.slip.into();
    lent(&session.page, &session.column, |(page, words), (column, count)| unsafe {
        zembrusha_gathered_watch_ratio(slip, page, words, column, count, kind, line)
    })
}

pub fn watch_refusal(session: &Session, kind: u64, line: u64) -> Lent<u32> {
    let slip = session.slip.into();
    lent(&session.page, &session.column, |(page, words), (column, count)| unsafe {
        zembrusha_gathered_watch_refusal(slip, page, words, column, count, kind, line)
    })
}

/// What a save answers and leaves in the text, and then in column and page.
pub fn save(session: &Session, text: &[u8]) -> Lent<Left<Valued<u64>, u8>> {
    let slip = session.slip.into();
    lent(&session.page, &session.column, |(page, words), (column, count)| {
        lend(text, |to, length| {
            valued(unsafe { zembrusha_gathered_save(slip, page, words, column, count, to, length) })
        })
    })
}

/// What a load answers, the refusal number, the line and the slip, and leaves of the text, and then in column and page.
pub fn load(text: &[u8], page: &[u64], column: &[i64]) -> Lent<Left<(u32, u64, Slip), u8>> {
    lent(page, column, |(page, words), (column, count)| {
        lend(text, |from, length| loaded(unsafe { zembrusha_gathered_load(from, length, page, words, column, count) }))
    })
}
