//! A run is lent with guard words on both sides, so that a call that writes outside its run is seen.

use std::fmt::{self, Debug, Formatter};

/// How many guard words stand on each side.
const GUARDS: usize = 16;

pub trait Guard: Copy + PartialEq {
    /// The guard word that stands at this place.
    fn guard(at: usize) -> Self;
}

impl Guard for u8 {
    fn guard(at: usize) -> u8 {
        0xA5 ^ (at as u8)
    }
}

impl Guard for u32 {
    fn guard(at: usize) -> u32 {
        u64::guard(at) as u32
    }
}

impl Guard for u64 {
    fn guard(at: usize) -> u64 {
        0xA5C3_96E1_5A3C_691E ^ (at as u64)
    }
}

impl Guard for i64 {
    fn guard(at: usize) -> i64 {
        u64::guard(at) as i64
    }
}

/// What a call on a lent run answers, what it leaves in the run, and whether it left the guard words alone.
#[derive(Clone, PartialEq)]
pub struct Left<R, T> {
    pub answer: R,
    pub run: Vec<T>,
    pub guards_kept: bool,
}

/// Of a long run, the front is shown.
impl<R: Debug, T: Debug> Debug for Left<R, T> {
    fn fmt(&self, f: &mut Formatter) -> fmt::Result {
        let front = &self.run[..self.run.len().min(12)];
        write!(f, "{:?}, guards kept {}, {} words {front:x?}", self.answer, self.guards_kept, self.run.len())
    }
}

/// Lends a copy of the run to a call.
pub fn lend<R, T: Guard>(run: &[T], call: impl FnOnce(*mut T, usize) -> R) -> Left<R, T> {
    let end = GUARDS + run.len();
    let mut room = Vec::with_capacity(end + GUARDS);
    room.extend((0..GUARDS).map(T::guard));
    room.extend_from_slice(run);
    room.extend((end..end + GUARDS).map(T::guard));
    let answer = call(room[GUARDS..end].as_mut_ptr(), run.len());
    let outside = (0..GUARDS).chain(end..end + GUARDS);
    let guards_kept = outside.into_iter().all(|at| room[at] == T::guard(at));
    Left { answer, run: room[GUARDS..end].to_vec(), guards_kept }
}

/// What the model says of a call on a lent run: the guard words always stay.
pub fn leaves<R, T: Clone>(answer: R, run: &[T]) -> Left<R, T> {
    Left { answer, run: run.to_vec(), guards_kept: true }
}
