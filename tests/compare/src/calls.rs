//! The library's calls, declared as window/zembrusha.h declares them (tests/window/header.py holds one against the
//! other), and each in a safe function: a value with its refusal number, or what is left of a lent run. Those of
//! gathered sessions are in a file of their own.

pub mod gathered;

use crate::lent::{lend, Left};
use crate::model::sessions::Slip;

#[repr(C)]
#[derive(Clone, Copy)]
struct Number {
    refused: u32,
    number: u64,
}

#[repr(C)]
#[derive(Clone, Copy)]
struct Good {
    refused: u32,
    word: u32,
    dropped: u32,
}

#[repr(C)]
#[derive(Clone, Copy)]
struct Listed {
    refused: u32,
    index: u64,
}

#[repr(C)]
#[derive(Clone, Copy)]
struct CSlip {
    shape: u32,
    class_word: u32,
    settled: i64,
    lines: u64,
    steps: i64,
    mode: u32,
}

#[repr(C)]
#[derive(Clone, Copy)]
struct Handed {
    refused: u32,
    slip: CSlip,
}

#[repr(C)]
#[derive(Clone, Copy)]
struct Loaded {
    refused: u32,
    line: u64,
    slip: CSlip,
}

extern "C" {
    fn zembrusha_character(shape: u32, class: u32) -> i64;
    fn zembrusha_character_refusal(shape: u32, class: u32) -> u32;
    fn zembrusha_degree(shape: u32) -> i64;
    fn zembrusha_degree_refusal(shape: u32) -> u32;
    fn zembrusha_character_degree(shape: u32) -> i64;
    fn zembrusha_character_degree_refusal(shape: u32) -> u32;
    fn zembrusha_conjugate(shape: u32) -> u32;
    fn zembrusha_conjugate_refusal(shape: u32) -> u32;
    fn zembrusha_good_shape(word: u32) -> Good;
    fn zembrusha_class_sign(class: u32) -> i64;
    fn zembrusha_class_sign_refusal(class: u32) -> u32;
    fn zembrusha_class_size(class: u32) -> i64;
    fn zembrusha_class_size_refusal(class: u32) -> u32;
    fn zembrusha_class_period(class: u32) -> i64;
    fn zembrusha_class_period_refusal(class: u32) -> u32;
    fn zembrusha_shape_word(parts: *const u8, count: usize) -> Number;
    fn zembrusha_class_word(parts: *const u8, count: usize) -> Number;
    fn zembrusha_shape_parts(shape: u32, column: *mut u8, length: usize) -> Number;
    fn zembrusha_class_parts(class: u32, column: *mut u8, length: usize) -> Number;
    fn zembrusha_shapes_from_old(old: *const u32, count: usize, new: *mut u32, room: usize) -> Listed;
    fn zembrusha_shapes_to_old(new: *const u32, count: usize, old: *mut u32, room: usize) -> Listed;
    fn zembrusha_column(class: u32, values: *mut i64, length: usize) -> Number;
    fn zembrusha_open(shape: u32, class: u32, page: *mut u64, words: usize) -> Handed;
    fn zembrusha_preview(
        slip: CSlip,
        page: *const u64,
        words: usize,
        line: u64,
        cycle: u64,
        strip: *mut u64,
        length: usize,
    ) -> Number;
    fn zembrusha_commit(
        slip: CSlip,
        page: *mut u64,
        words: usize,
        line: u64,
        cycle: u64,
        strip: *const u64,
        length: usize,
    ) -> Handed;
    fn zembrusha_watch_whole(slip: CSlip, page: *const u64, words: usize, kind: u64, line: u64) -> i64;
    fn zembrusha_watch_ratio(slip: CSlip, page: *const u64, words: usize, kind: u64, line: u64) -> f64;
    fn zembrusha_watch_refusal(slip: CSlip, page: *const u64, words: usize, kind: u64, line: u64) -> u32;
    fn zembrusha_save(slip: CSlip, page: *const u64, words: usize, text: *mut u8, length: usize) -> Number;
    fn zembrusha_load(text: *const u8, length: usize, page: *mut u64, words: usize) -> Loaded;
    fn zembrusha_gathered_open(
        shape: u32,
        class: u32,
        page: *mut u64,
        words: usize,
        coefficients: *mut i64,
        count: usize,
    ) -> Handed;
    fn zembrusha_gathered_preview(
        slip: CSlip,
        page: *const u64,
        words: usize,
        coefficients: *const i64,
        count: usize,
        line: u64,
        cycle: u64,
        strip: *mut u64,
        length: usize,
    ) -> Number;
    fn zembrusha_gathered_commit(
        slip: CSlip,
        page: *mut u64,
        words: usize,
        coefficients: *mut i64,
        count: usize,
        line: u64,
        cycle: u64,
        strip: *const u64,
        length: usize,
    ) -> Handed;
    fn zembrusha_gathered_watch_whole(
        slip: CSlip,
        page: *const u64,
        words: usize,
        coefficients: *const i64,
        count: usize,
        kind: u64,
        line: u64,
    ) -> i64;
    fn zembrusha_gathered_watch_ratio(
        slip: CSlip,
        page: *const u64,
        words: usize,
        coefficients: *const i64,
        count: usize,
        kind: u64,
        line: u64,
    ) -> f64;
    fn zembrusha_gathered_watch_refusal(
        slip: CSlip,
        page: *const u64,
        words: usize,
        coefficients: *const i64,
        count: usize,
        kind: u64,
        line: u64,
    ) -> u32;
    fn zembrusha_gathered_save(
        slip: CSlip,
        page: *const u64,
        words: usize,
        coefficients: *const i64,
        count: usize,
        text: *mut u8,
        length: usize,
    ) -> Number;
    fn zembrusha_gathered_load(
        text: *const u8,
        length: usize,
        page: *mut u64,
        words: usize,
        coefficients: *mut i64,
        count: usize,
    ) -> Loaded;
}

/// A value, and the refusal number for the same words.
pub type Valued<T> = (T, u32);

// SAFETY, for all below: the calls take every number, and a run is lent with its own length.

pub fn character(shape: u32, class: u32) -> Valued<i64> {
    unsafe { (zembrusha_character(shape, class), zembrusha_character_refusal(shape, class)) }
}

/// The value alone: where every word is known to be good, it is asked once.
pub fn character_value(shape: u32, class: u32) -> i64 {
    unsafe { zembrusha_character(shape, class) }
}

pub fn degree(shape: u32) -> Valued<i64> {
    unsafe { (zembrusha_degree(shape), zembrusha_degree_refusal(shape)) }
}

pub fn character_degree(shape: u32) -> Valued<i64> {
    unsafe { (zembrusha_character_degree(shape), zembrusha_character_degree_refusal(shape)) }
}

pub fn conjugate(shape: u32) -> Valued<u32> {
    unsafe { (zembrusha_conjugate(shape), zembrusha_conjugate_refusal(shape)) }
}

/// The good word, and how many ones were dropped.
pub fn good_shape(word: u32) -> Valued<(u32, u32)> {
    let answer = unsafe { zembrusha_good_shape(word) };
    ((answer.word, answer.dropped), answer.refused)
}

pub fn class_sign(class: u32) -> Valued<i64> {
    unsafe { (zembrusha_class_sign(class), zembrusha_class_sign_refusal(class)) }
}

pub fn class_size(class: u32) -> Valued<i64> {
    unsafe { (zembrusha_class_size(class), zembrusha_class_size_refusal(class)) }
}

pub fn class_period(class: u32) -> Valued<i64> {
    unsafe { (zembrusha_class_period(class), zembrusha_class_period_refusal(class)) }
}

fn valued(answer: Number) -> Valued<u64> {
    (answer.number, answer.refused)
}

pub fn shape_word(parts: &[u8]) -> Left<Valued<u64>, u8> {
    lend(parts, |pointer, count| valued(unsafe { zembrusha_shape_word(pointer, count) }))
}

pub fn class_word(parts: &[u8]) -> Left<Valued<u64>, u8> {
    lend(parts, |pointer, count| valued(unsafe { zembrusha_class_word(pointer, count) }))
}

pub fn shape_parts(shape: u32, column: &[u8]) -> Left<Valued<u64>, u8> {
    lend(column, |pointer, length| valued(unsafe { zembrusha_shape_parts(shape, pointer, length) }))
}

pub fn class_parts(class: u32, column: &[u8]) -> Left<Valued<u64>, u8> {
    lend(column, |pointer, length| valued(unsafe { zembrusha_class_parts(class, pointer, length) }))
}

pub fn column(class: u32, values: &[i64]) -> Left<Valued<u64>, i64> {
    lend(values, |pointer, length| valued(unsafe { zembrusha_column(class, pointer, length) }))
}

/// What a call on two lists answers, the refusal number and the index, and leaves in the list that it reads, and what
/// it leaves in the one that it writes.
pub type Moved = Left<Left<(u32, u64), u32>, u32>;

fn listed(answer: Listed) -> (u32, u64) {
    (answer.refused, answer.index)
}

pub fn shapes_from_old(old: &[u32], new: &[u32]) -> Moved {
    lend(new, |to, room| lend(old, |from, count| listed(unsafe { zembrusha_shapes_from_old(from, count, to, room) })))
}

pub fn shapes_to_old(new: &[u32], old: &[u32]) -> Moved {
    lend(old, |to, room| lend(new, |from, count| listed(unsafe { zembrusha_shapes_to_old(from, count, to, room) })))
}

impl From<Slip> for CSlip {
    fn from(slip: Slip) -> CSlip {
        let Slip { shape, class, settled, lines, steps, mode } = slip;
        CSlip { shape, class_word: class, settled, lines, steps, mode }
    }
}

impl From<CSlip> for Slip {
    fn from(slip: CSlip) -> Slip {
        let CSlip { shape, class_word, settled, lines, steps, mode } = slip;
        Slip { shape, class: class_word, settled, lines, steps, mode }
    }
}

fn handed(answer: Handed) -> (u32, Slip) {
    (answer.refused, answer.slip.into())
}

pub fn open(shape: u32, class: u32, page: &[u64]) -> Left<(u32, Slip), u64> {
    lend(page, |pointer, words| handed(unsafe { zembrusha_open(shape, class, pointer, words) }))
}

/// What a preview answers, the count, and leaves on the page, and what it leaves on the strip.
pub fn preview(slip: Slip, page: &[u64], line: u64, cycle: u64, strip: &[u64]) -> Left<Left<Valued<u64>, u64>, u64> {
    lend(strip, |to, length| {
        lend(page, |from, words| {
            valued(unsafe { zembrusha_preview(slip.into(), from, words, line, cycle, to, length) })
        })
    })
}

/// What a commit answers and leaves on the strip, and what it leaves on the page.
pub fn commit(slip: Slip, page: &[u64], line: u64, cycle: u64, strip: &[u64]) -> Left<Left<(u32, Slip), u64>, u64> {
    lend(page, |to, words| {
        lend(strip, |from, length| {
            handed(unsafe { zembrusha_commit(slip.into(), to, words, line, cycle, from, length) })
        })
    })
}

pub fn watch_whole(slip: Slip, page: &[u64], kind: u64, line: u64) -> Left<i64, u64> {
    lend(page, |pointer, words| unsafe { zembrusha_watch_whole(slip.into(), pointer, words, kind, line) })
}

pub fn watch_ratio(slip: Slip, page: &[u64], kind: u64, line: u64) -> Left<f64, u64> {
    lend(page, |pointer, words| unsafe { zembrusha_watch_ratio(slip.into(), pointer, words, kind, line) })
}

pub fn watch_refusal(slip: Slip, page: &[u64], kind: u64, line: u64) -> Left<u32, u64> {
    lend(page, |pointer, words| unsafe { zembrusha_watch_refusal(slip.into(), pointer, words, kind, line) })
}

/// What a save answers and leaves on the page, and what it leaves in the text.
pub fn save(slip: Slip, page: &[u64], text: &[u8]) -> Left<Left<Valued<u64>, u64>, u8> {
    lend(text, |to, length| {
        lend(page, |from, words| valued(unsafe { zembrusha_save(slip.into(), from, words, to, length) }))
    })
}

/// What a load answers, the refusal number, the line and the slip, and leaves of the text, and what it leaves on the
/// page.
pub fn load(text: &[u8], page: &[u64]) -> Left<Left<(u32, u64, Slip), u8>, u64> {
    lend(page, |to, words| lend(text, |from, length| loaded(unsafe { zembrusha_load(from, length, to, words) })))
}

fn loaded(answer: Loaded) -> (u32, u64, Slip) {
    (answer.refused, answer.line, answer.slip.into())
}
