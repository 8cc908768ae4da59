//! Two formulas of document 000, which are theorems since P10 and are run all the same: (6), that a conjugate shape has
//! the sign of the class times the character, and (10), that a character degree is Frobenius's quotient.

use crate::calls;
use crate::model::characters::Characters;
use crate::model::partitions::degree;
use crate::model::words::{pack_class, pack_shape};
use crate::report::Group;
use std::collections::BTreeMap;

const PRIMES: [u32; 11] = [2, 3, 5, 7, 11, 13, 17, 19, 23, 29, 31];

/// How often each prime divides a product or a quotient of numbers of at most 31.
#[derive(Default)]
struct Exponents([i32; 11]);

impl Exponents {
    fn add(&mut self, number: u32, times: i32) {
        let mut left = number;
        for (prime, exponent) in PRIMES.iter().zip(&mut self.0) {
            while left % prime == 0 {
                left /= prime;
                *exponent += times;
            }
        }
        assert_eq!(left, 1);
    }

    fn add_factorial(&mut self, n: u32, times: i32) {
        (2..=n).for_each(|number| self.add(number, times));
    }

    /// The number itself, where it is whole.
    fn number(&self) -> Option<i64> {
        let power = |(&prime, &exponent): (&u32, &i32)| i64::from(prime).checked_pow(u32::try_from(exponent).ok()?);
        PRIMES.iter().zip(&self.0).map(power).try_fold(1i64, |product, power| product.checked_mul(power?))
    }
}

/// Formula (10): n! times the differences of the l_i, divided by their factorials, where l_i is row i plus k - i.
fn quotient(rows: &[u8]) -> Option<i64> {
    let l: Vec<u32> = rows.iter().rev().zip(0..).map(|(&row, below)| u32::from(row) + below).collect();
    let mut exponents = Exponents::default();
    exponents.add_factorial(degree(rows), 1);
    for (i, &larger) in l.iter().enumerate() {
        exponents.add_factorial(larger, -1);
        l[..i].iter().for_each(|smaller| exponents.add(larger - smaller, 1));
    }
    exponents.number()
}

pub fn run(characters: &Characters, group: &mut Group) {
    for listing in &characters.listings {
        let ranks: BTreeMap<u32, usize> = listing.iter().map(|rows| pack_shape(rows)).zip(0..).collect();
        for rows in listing {
            let word = pack_shape(rows);
            group.same(Some(calls::character_degree(word).0), quotient(rows), || format!("(10) for {rows:?}"));
        }
        for class in listing {
            let word = pack_class(class);
            let sign = calls::class_sign(word).0;
            let column = calls::column(word, &vec![0; listing.len()]).run;
            for (&shape, &rank) in &ranks {
                let associate = ranks[&calls::conjugate(shape).0];
                group.same(column[associate], sign * column[rank], || format!("(6) for {shape:#x} on {class:?}"));
            }
        }
    }
}
