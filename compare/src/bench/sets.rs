//! The call that shows a set (request A.1) beside a filing of the same book, at
//! ordinals for which all of the book is searched.

use std::hint::black_box;

use super::long::{each_book, print_beside_filing, print_columns};
use crate::filing::NO_SUCH_SET;
use crate::generate::sets_in;
use crate::library;

const NOTES: &str = "\
Showing a set beside filing the same book, of 1,048,576 words or a few less: the
ratio of the times in the middle of all repetitions, and the best times in ns
per word of the book. The set is the last one; where a book has one set or none,
it is also asked for the first ordinal without a set, which is refused 15. The
register is not cleared between calls.
";

pub fn run() {
    println!("{NOTES}");
    print_columns("shown");
    each_book(measure);
}

/// At the last set, and where there is one or none at the first ordinal without.
fn measure(name: &str, book: &Vec<u32>) {
    let sets = sets_in(book);
    let last = sets.checked_sub(1).map(|last| (last, 0));
    let behind = (sets <= 1).then_some((sets, NO_SUCH_SET));
    for (ordinal, expected) in last.into_iter().chain(behind) {
        print_beside_filing(name, book, ordinal, expected, |book, ordinal, register| {
            let shown = library::show(book, ordinal, register);
            black_box(shown.stretch);
            shown.number
        });
    }
}
