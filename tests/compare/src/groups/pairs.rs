//! Single characters: every shape on every class, both of all degrees from 0 to 16, each pair once.

use super::Tally;
use crate::calls;
use crate::model::characters::Characters;
use crate::model::partitions::degree;
use crate::model::words::{pack_class, pack_shape};
use crate::model::Parts;
use crate::report::Group;

/// The degree up to which the refusal number of a pair of one degree is asked too, which costs as much as the value.
const ASKED_TWICE: u32 = 10;

pub fn run(characters: &Characters, group: &mut Group) {
    let mut tally = Tally::default();
    let all = || characters.listings.iter().flatten();
    let classes: Vec<(u32, &Parts)> = all().map(|parts| (pack_class(parts), parts)).collect();
    for (shape, rows) in all().map(|rows| (pack_shape(rows), rows)) {
        for &(class, parts) in &classes {
            let one_degree = degree(rows) == degree(parts);
            let model = if one_degree { (characters.character(rows, parts), 0) } else { (0, 5) };
            let answer = match one_degree && degree(rows) > ASKED_TWICE {
                true => (calls::character_value(shape, class), 0),
                false => calls::character(shape, class),
            };
            tally.count(model.1);
            group.same(answer, model, || format!("{rows:?} on {parts:?}"));
        }
    }
    group.note(tally.said());
}
