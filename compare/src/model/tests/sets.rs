//! Sets that are shown (request A.1): by the model, and by `fast`, which looks for
//! them in another way.

use super::super::{show, Shown};
use super::*;
use crate::fast;
use crate::filing::Showing;

const BOTH: [Showing; 2] = [show, fast::show];

/// What a set is shown to be: from which place to which, or number and place of the
/// refusal. The register must be as a filing leaves it, from the same dirt.
fn shown(book: &[u32], ordinal: usize, entries: usize) -> Result<[usize; 2], (u32, usize)> {
    let mut filed = vec![DIRT; entries];
    file(book, &mut [0; ROWS], &mut filed);
    let [ours, theirs] = BOTH.map(|show| {
        let mut register = vec![DIRT; entries];
        let shown = show(book, ordinal, &mut register);
        assert_eq!(register, filed, "set {ordinal}");
        shown
    });
    assert_eq!(ours, theirs, "set {ordinal}");
    let begin = ours.begin(book).unwrap();
    if ours.number != 0 {
        // An empty stretch stands at the first word.
        assert_eq!((begin, ours.stretch.len()), (0, 0));
        return Err((ours.number, ours.place));
    }
    assert_eq!(ours.place, 0);
    Ok([begin, begin + ours.stretch.len()])
}

const NO_SUCH_SET: Result<[usize; 2], (u32, usize)> = Err((15, 0));

#[test]
fn empty_sets_are_their_heads() {
    let book = Book::new(0, 0)
        .add(4, 0, &[1, 2, 3])
        .add(8, 0, &[])
        .add(8, 1, &[])
        .add(4, 0, &[0, 0, 0])
        .end();
    let stretches = [[3, 7], [7, 8], [8, 9], [9, 13]];
    for (ordinal, stretch) in stretches.into_iter().enumerate() {
        assert_eq!(shown(&book, ordinal, 0), Ok(stretch));
    }
    assert_eq!(shown(&book, 4, 0), NO_SUCH_SET);
}

/// Between other items two protections, a set with every sort of member, two
/// financing sets and an empty set.
fn every_member() -> Vec<u32> {
    Book::new(2, 0)
        .add(3, 5, &[40, 10, 400])
        .add(3, 5, &[7, 0, 400])
        .add(2, 0, &[9, 0, 0])
        .add(4, NETTING, &[0, 0, 0])
        .trade(1, -6, 1_000, 365)
        .add(6, 5, &[0, 50, 0, 0, 0])
        .add(7, 1, &[7])
        .add(7, 0, &[20])
        .basket(1, [0, 10], &[9, 10])
        .add(10, 0, &[3])
        .add(8, 0, &[])
        .add(9, 0, &[0, 0, 0, 0, 5, 6, 7])
        .add(8, 0, &[])
        .add(9, 0, &[0, 0, 0, 0, 5, 6, 7])
        .add(2, 0, &[9, 0, 0])
        .add(4, 0, &[0, 0, 0])
        .end()
}

#[test]
fn covers_and_baskets_are_in_the_stretch() {
    let book = every_member();
    assert_eq!(shown(&book, 0, 3), Ok([15, 39]));
    assert_eq!(book[34] >> 28, 11);
    assert_eq!(book[39] >> 28, 10);
}

#[test]
fn both_kinds_are_counted_together() {
    let book = every_member();
    assert_eq!(shown(&book, 1, 3), Ok([41, 50]));
    assert_eq!(shown(&book, 2, 3), Ok([50, 59]));
    assert_eq!(shown(&book, 3, 3), Ok([63, 67]));
    assert_eq!(book.len(), 68);
}

#[test]
fn equal_sets_are_told_apart() {
    let book = every_member();
    let [first, second] = [1, 2].map(|ordinal| show(&book, ordinal, &mut [DIRT; 2]));
    assert_eq!(first.stretch, second.stretch);
    assert_ne!(first, second);
}

#[test]
fn refused_15_at_every_other_ordinal() {
    let book = every_member();
    let beyond_a_word = 1usize.checked_shl(32).unwrap_or(usize::MAX);
    for ordinal in [4, 5, u32::MAX as usize, beyond_a_word, usize::MAX] {
        assert_eq!(shown(&book, ordinal, 2), NO_SUCH_SET);
    }
    let without_sets = Book::new(0, 0).add(2, 0, &[1, 0, 0]).add(10, 0, &[3]).end();
    for ordinal in [0, 1, usize::MAX] {
        assert_eq!(shown(&without_sets, ordinal, 0), NO_SUCH_SET);
        assert_eq!(shown(&Book::new(0, 0).end(), ordinal, 0), NO_SUCH_SET);
    }
}

#[test]
fn refused_15_leaves_the_register_as_filed() {
    let book = every_member();
    let entry = |left| Entry {
        entity: 5,
        rank: 0,
        days: 400,
        left,
    };
    for (show, ordinal) in [(BOTH[0], 4), (BOTH[1], 4), (BOTH[0], 0), (BOTH[1], 0)] {
        let mut register = [DIRT; 3];
        show(&book, ordinal, &mut register);
        assert_eq!(register, [entry(10), entry(0), DIRT]);
    }
}

#[test]
fn refused_books_give_their_own_number_and_place() {
    let mut uncounted = every_member();
    let end = uncounted.len() - 1;
    uncounted[end] += 1;
    let late = Book::dated(0, 0, LAST_DATE + 1).add(8, 0, &[]).end();
    let long = vec![word(8, 0); LONGEST_BOOK + 1];
    for ordinal in [0, 3, 4, usize::MAX] {
        // The fault stands behind all sets, so that each of them has been passed.
        assert_eq!(shown(&uncounted, ordinal, 2), Err((14, end)));
        assert_eq!(shown(&every_member(), ordinal, 1), Err((4, 0)));
        assert_eq!(shown(&late, ordinal, 0), Err((16, 0)));
        assert_eq!(shown(&long, ordinal, 0), Err((2, 0)));
        assert_eq!(shown(&[], ordinal, 0), Err((3, 0)));
        let unfit = covered(3, 400, &[1]).end();
        assert_eq!(shown(&unfit, ordinal, 2), Err((12, COVER)));
    }
}

#[test]
fn stretches_are_compared_by_where_they_are() {
    let book = every_member();
    let other = book.clone();
    let [ours, theirs] = [&book, &other].map(|book| show(book, 1, &mut [DIRT; 2]));
    assert_eq!(ours.stretch, theirs.stretch);
    assert_ne!(ours, theirs);
    assert_eq!(ours.begin(&book[..49]), None);
    assert_eq!(ours.begin(&book[41..]), Some(0));
    assert_eq!(ours.begin(&book[42..]), None);
    let shorter = Shown {
        stretch: &ours.stretch[..8],
        ..ours
    };
    assert_ne!(ours, shorter);
}
