//! The call that counts the settings of a set (request A.12) beside a filing of the same
//! book.

use std::hint::black_box;

use super::long::{each_book, print_beside_filing, print_columns};
use crate::filing::NO_SUCH_SET;
use crate::library;
use crate::model::kinds;

const NOTES: &str = "\
Counting the settings of a set beside filing the same book, of 1,048,576 words or
a few less: the ratio of the times in the middle of all repetitions, and the best
times in ns per word of the book. The set is the first derivative set, then the
last one; then comes an ordinal that is refused 15, of a financing set, or where
there is none the first without a set. The register is not cleared between calls.
";

pub fn run() {
    println!("{NOTES}");
    print_columns("counted");
    each_book(measure);
}

/// At the first and the last derivative set, and at an ordinal without.
fn measure(name: &str, book: &Vec<u32>) {
    let kinds = book.iter().map(|word| word >> 28);
    let is_set = |kind: &u32| matches!(*kind, kinds::DERIVATIVE_SET | kinds::FINANCING_SET);
    let sets: Vec<u32> = kinds.filter(is_set).collect();
    let is_derivatives = |&kind: &u32| kind == kinds::DERIVATIVE_SET;
    let first = sets.iter().position(is_derivatives);
    let last = sets.iter().rposition(is_derivatives);
    let without = sets.iter().rposition(|kind| !is_derivatives(kind));
    let without = without.unwrap_or(sets.len());
    let counted = first.into_iter().chain(last.filter(|_| first != last));
    let counted = counted.map(|ordinal| (ordinal, 0));
    for (ordinal, expected) in counted.chain([(without, NO_SUCH_SET)]) {
        print_beside_filing(name, book, ordinal, expected, |book, ordinal, register| {
            black_box(library::settings(book, ordinal, register)).number
        });
    }
}
