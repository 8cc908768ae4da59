//! Columns: every class of every degree, on runs of several lengths.

use super::valued;
use crate::calls;
use crate::lent::leaves;
use crate::model::characters::Characters;
use crate::model::words::pack_class;
use crate::model::Answer;
use crate::report::Group;

/// A list at the front of a run, and its length. Refuses 14.
pub fn written<T: Clone>(list: &[T], run: &mut [T]) -> Answer<u64> {
    written_or(14, list, run)
}

/// A list at the front of a run, and its length; or this refusal, where there is no room for it.
pub fn written_or<T: Clone>(refused: u32, list: &[T], run: &mut [T]) -> Answer<u64> {
    let front = run.get_mut(..list.len()).ok_or(refused)?;
    front.clone_from_slice(list);
    Ok(list.len() as u64)
}

pub fn run(characters: &Characters, group: &mut Group) {
    for class in characters.listings.iter().flatten() {
        let column = characters.column(class);
        let count = column.len();
        for length in [0, count - 1, count, count + 1, 240] {
            let before: Vec<i64> = (0..length as i64).map(|at| 1_000_000_007 * (at - 90)).collect();
            let mut after = before.clone();
            let model = written(&column, &mut after);
            let answer = calls::column(pack_class(class), &before);
            group.same(answer, leaves(valued(model), &after), || format!("{class:?} in {length} words"));
        }
    }
}
