//! The character tables of all degrees, from permutation characters made orthogonal by class sizes.

use super::partitions::{factorial, listing, size};
use super::{Parts, DEGREE_LIMIT};
use std::collections::HashMap;

/// A number for each shape (first) and class (second) of one degree, both in listing order.
type Table = Vec<Vec<i64>>;

pub struct Characters {
    /// The partitions of each degree.
    pub listings: Vec<Vec<Parts>>,
    ranks: HashMap<Parts, usize>,
    tables: Vec<Table>,
}

impl Characters {
    pub fn new() -> Self {
        let listings: Vec<Vec<Parts>> = (0..=DEGREE_LIMIT as u8).map(listing).collect();
        let ranked = listings.iter().flat_map(|all| all.iter().cloned().enumerate());
        let ranks = ranked.map(|(rank, parts)| (parts, rank)).collect();
        let mut placings = vec![];
        for degree in 0..listings.len() {
            let table = placing(&listings, &ranks, &placings, degree);
            placings.push(table);
        }
        let tables = listings.iter().zip(&placings).map(|(all, table)| orthogonal(all, table)).collect();
        Characters { listings, ranks, tables }
    }

    /// The character of a shape on a class of the same degree, at most 16.
    pub fn character(&self, shape: &[u8], class: &[u8]) -> i64 {
        self.table(class)[self.ranks[shape]][self.ranks[class]]
    }

    /// The character of a shape on (1^n), the last class of the listing.
    pub fn character_degree(&self, shape: &[u8]) -> i64 {
        *self.table(shape)[self.ranks[shape]].last().unwrap()
    }

    /// The characters of all shapes on a class.
    pub fn column(&self, class: &[u8]) -> Vec<i64> {
        self.table(class).iter().map(|row| row[self.ranks[class]]).collect()
    }

    fn table(&self, parts: &[u8]) -> &Table {
        &self.tables[super::partitions::degree(parts) as usize]
    }
}

/// The permutation characters of one degree: the ways to place the cycles of a class into rows so that they fill them.
/// The first cycle goes to any row that has room, the others to what is left, whose order makes no difference.
fn placing(listings: &[Vec<Parts>], ranks: &HashMap<Parts, usize>, smaller: &[Table], degree: usize) -> Table {
    let ways = |rows: &Parts, class: &Parts| -> i64 {
        let Some((&cycle, others)) = class.split_first() else { return 1 };
        let table = &smaller[degree - usize::from(cycle)];
        let room = (0..rows.len()).filter(|&at| rows[at] >= cycle);
        room.map(|at| table[ranks[&with_less(rows, at, cycle)]][ranks[others]]).sum()
    };
    let all = &listings[degree];
    all.iter().map(|rows| all.iter().map(|class| ways(rows, class)).collect()).collect()
}

fn with_less(rows: &Parts, at: usize, cycle: u8) -> Parts {
    let mut left = rows.clone();
    left[at] -= cycle;
    left.sort_by(|a, b| b.cmp(a));
    left.retain(|&row| row > 0);
    left
}

/// Each permutation character less its share of the characters before it in the listing: what is left is irreducible.
fn orthogonal(classes: &[Parts], placings: &Table) -> Table {
    let sizes: Vec<i128> = classes.iter().map(|class| i128::from(size(class))).collect();
    let order: i128 = factorial(super::partitions::degree(&classes[0]));
    let product = |a: &[i64], b: &[i64]| -> i64 {
        let terms = sizes.iter().zip(a.iter().zip(b)).map(|(size, (&x, &y))| size * i128::from(x) * i128::from(y));
        let sum: i128 = terms.sum();
        assert_eq!(sum % order, 0);
        (sum / order) as i64
    };
    let mut table: Table = vec![];
    for placing in placings {
        let mut left = placing.clone();
        for before in &table {
            let share = product(placing, before);
            left.iter_mut().zip(before).for_each(|(x, y)| *x -= share * y);
        }
        assert_eq!(product(&left, &left), 1);
        table.push(left);
    }
    table
}
