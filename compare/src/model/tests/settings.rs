//! Settings that are counted (request A.12): by the model, which files each of them,
//! and by `fast`, which files those that weigh apart.

use super::super::{counted, set_to, verdicts, Counted, SETTINGS};
use super::*;
use crate::fast;

/// The counts by verdict, or number and place of the refusal. The register must be as
/// a filing leaves it, from the same dirt.
fn settings(book: &[u32], ordinal: usize, entries: usize) -> Result<[u32; 3], (u32, usize)> {
    let mut filed = vec![DIRT; entries];
    file(book, &mut [0; ROWS], &mut filed);
    let [mut our_side, mut their_side] = [(); 2].map(|()| vec![DIRT; entries]);
    let ours = counted(&verdicts(book, ordinal, &mut our_side));
    let theirs = fast::settings(book, ordinal, &mut their_side);
    assert_eq!(ours, theirs, "set {ordinal}");
    assert_eq!([&our_side, &their_side], [&filed; 2], "set {ordinal}");
    let Counted {
        number,
        place,
        counts,
    } = ours;
    if number != 0 {
        assert_eq!(counts, [0; 3]);
        return Err((number, place));
    }
    assert_eq!(place, 0);
    Ok(counts)
}

const NO_SUCH_SET: Result<[u32; 3], (u32, usize)> = Err((15, 0));

/// The sample of document 01: 50 without netting, 36 with it, 31 with margin.
fn currency(tier1: i32) -> Book {
    Book::new(0, tier1)
        .add(4, 0, &[5, 0, 0])
        .trade(1, 30, 1_000, 365)
        .trade(1, -10, 1_000, 365)
}

#[test]
fn all_three_verdicts() {
    // 3 per cent of 50, 36 and 31 are 1.5, 1.08 and 0.93; an exempt leg is out.
    for (tier1, counts) in [
        (2, [32, 0, 32]),
        (1, [1, 31, 32]),
        (0, [0, 32, 32]),
        (-1, [0, 32, 32]),
    ] {
        assert_eq!(settings(&currency(tier1).end(), 0, 0), Ok(counts));
    }
    // Beside an asset of 50 they are 3, 2.58, 2.43 and 1.5.
    for (tier1, counts) in [(3, [64, 0, 0]), (2, [32, 32, 0]), (1, [0, 64, 0])] {
        let book = currency(tier1).add(2, 0, &[50, 0, 0]).end();
        assert_eq!(settings(&book, 0, 0), Ok(counts));
    }
    // Beside one of 67 those of 50 and 36 are 3.51 and 3.09, that of 31 is 2.94.
    let book = currency(3).add(2, 0, &[67, 0, 0]).end();
    assert_eq!(settings(&book, 0, 0), Ok([33, 31, 0]));
}

#[test]
fn marks_as_filed_do_not_matter() {
    let mut book = currency(1).end();
    for marks in 0..SETTINGS as u32 {
        book[FIRST_RECORD] = set_to(book[FIRST_RECORD], marks);
        assert_eq!(settings(&book, 0, 0), Ok([1, 31, 32]));
    }
}

#[test]
fn each_setting_by_its_marks() {
    let verdicts = verdicts(&currency(1).end(), 0, &mut []).unwrap();
    for (marks, verdict) in (0..).zip(verdicts) {
        let expected = match marks {
            _ if marks & EXEMPT != 0 => 2,
            ALL_MARGIN_MARKS => 0,
            _ => 1,
        };
        assert_eq!(verdict, expected, "{marks:06b}");
    }
}

/// Margin received and paid, for values that net to 20 of 30, without add-ons.
fn margin(tier1: i32, received: i32, paid: i32) -> Vec<u32> {
    let set = Book::new(0, tier1).add(4, 0, &[received, paid, 0]);
    set.trade(6, 30, 0, 0).trade(6, -10, 0, 0).end()
}

#[test]
fn margin_alone() {
    // Nothing is left of 20 with margin, nor of an exempt leg.
    assert_eq!(settings(&margin(0, 20, 0), 0, 0), Ok([0, 31, 33]));
    assert_eq!(settings(&margin(1, 20, 0), 0, 0), Ok([31, 0, 33]));
    assert_eq!(settings(&margin(0, 19, 0), 0, 0), Ok([0, 32, 32]));
    // Margin paid is out with margin alone, of an exempt leg too.
    assert_eq!(settings(&margin(0, 0, 7), 0, 0), Ok([0, 63, 1]));
    assert_eq!(settings(&margin(0, 20, 7), 0, 0), Ok([0, 62, 2]));
    // 3 per cent of 37, 27 and 7 are 1.11, 0.81 and 0.21.
    assert_eq!(settings(&margin(1, 20, 7), 0, 0), Ok([46, 16, 2]));
    assert_eq!(settings(&margin(1, 0, 7), 0, 0), Ok([47, 16, 1]));
}

#[test]
fn netting_alone() {
    // Values that net to 0.
    let set = |tier1| Book::new(0, tier1).add(4, 0, &[0, 0, 0]);
    let book = |tier1| set(tier1).trade(6, 30, 0, 0).trade(6, -30, 0, 0).end();
    assert_eq!(settings(&book(0), 0, 0), Ok([0, 16, 48]));
    assert_eq!(settings(&book(1), 0, 0), Ok([16, 0, 48]));
    // The sample of document 01 with 30 and -40: 50 without netting, 8 with it.
    let book = set(1)
        .trade(1, 30, 1_000, 365)
        .trade(1, -40, 1_000, 365)
        .end();
    assert_eq!(settings(&book, 0, 0), Ok([16, 16, 32]));
}

#[test]
fn covered_in_part() {
    // That of request A.6 a thousand times over: 99,030, of which an exempt leg leaves
    // 99,000. 3 per cent of these are 2,970.9 and just 2,970.
    let book = |tier1| {
        Book::new(1, tier1)
            .add(3, 5, &[1_000, 0, 100])
            .add(4, 0, &[0, 0, 0])
            .add(6, 5 | QUALIFYING | CLOSE_OUT, &[0, 100_000, 0, 100, 3_000])
            .add(7, 0, &[1_000])
            .end()
    };
    assert_eq!(settings(&book(2_971), 0, 1), Ok([64, 0, 0]));
    assert_eq!(settings(&book(2_970), 0, 3), Ok([32, 32, 0]));
    assert_eq!(settings(&book(2_969), 0, 1), Ok([0, 64, 0]));
}

#[test]
fn baskets() {
    // Values 10 and -10 net to 0 of 10; of the add-ons, 50 and 100, two fifths: 60.
    let book = |tier1| {
        Book::new(0, tier1)
            .add(4, 0, &[0, 0, 0])
            .basket(1, [10, 1_000], &[9])
            .basket(2, [-10, 1_000], &[12, 10])
            .end()
    };
    // 3 per cent of 160 and 60 are 4.8 and 1.8.
    assert_eq!(settings(&book(5), 0, 0), Ok([32, 0, 32]));
    assert_eq!(settings(&book(2), 0, 0), Ok([16, 16, 32]));
    assert_eq!(settings(&book(1), 0, 0), Ok([0, 32, 32]));
}

/// An empty set, a financing set with 7 lent, an empty exempt set, and two equal sets.
fn several() -> Vec<u32> {
    let set = |book: Book| book.add(4, NETTING, &[0, 0, 0]).trade(6, 5, 0, 0);
    let book = Book::new(1, 0)
        .add(3, 5, &[40, 10, 400])
        .add(4, 0, &[0, 0, 0])
        .add(8, 0, &[])
        .add(9, 0, &[0, 0, 0, 0, 7, 0, 0])
        .add(4, EXEMPT, &[3, 0, 0]);
    set(set(book)).end()
}

#[test]
fn sets_of_both_kinds_are_counted() {
    let book = several();
    let no_matter = Ok([0, 64, 0]);
    assert_eq!(settings(&book, 0, 2), no_matter);
    assert_eq!(settings(&book, 1, 2), NO_SUCH_SET);
    assert_eq!(settings(&book, 2, 2), no_matter);
    assert_eq!(settings(&book, 3, 2), no_matter);
    assert_eq!(settings(&book, 4, 2), no_matter);
    let beyond_a_word = 1usize.checked_shl(32).unwrap_or(usize::MAX);
    for ordinal in [5, u32::MAX as usize, beyond_a_word, usize::MAX] {
        assert_eq!(settings(&book, ordinal, 2), NO_SUCH_SET);
    }
    let without_sets = Book::new(0, 0).add(2, 0, &[1, 0, 0]).end();
    let financing = Book::new(0, 0).add(8, 0, &[]).end();
    for ordinal in [0, 1, usize::MAX] {
        assert_eq!(settings(&without_sets, ordinal, 0), NO_SUCH_SET);
        assert_eq!(settings(&financing, ordinal, 0), NO_SUCH_SET);
    }
}

#[test]
fn one_set_and_not_its_neighbour() {
    // Of two equal sets of 5 one can be taken out, and the other stays.
    let set = |book: Book| book.add(4, 0, &[5, 0, 0]).trade(6, 5, 0, 0);
    let book = set(set(Book::new(0, 0))).end();
    for ordinal in [0, 1] {
        assert_eq!(settings(&book, ordinal, 0), Ok([0, 64, 0]));
    }
    // Unless it is exempt already.
    let exempt = Book::new(0, 0).add(4, EXEMPT, &[5, 0, 0]).trade(6, 5, 0, 0);
    let book = set(exempt).end();
    assert_eq!(settings(&book, 0, 0), Ok([0, 64, 0]));
    assert_eq!(settings(&book, 1, 0), Ok([0, 31, 33]));
}

#[test]
fn sets_that_bring_nothing() {
    let empty = Book::new(0, 0).add(4, 0, &[9, 0, 0]).end();
    assert_eq!(settings(&empty, 0, 0), Ok([0, 0, 64]));
    // Collateral stays with all marks.
    let posted = Book::new(0, 0).add(4, 0, &[0, 0, 1]).end();
    assert_eq!(settings(&posted, 0, 0), Ok([0, 64, 0]));
}

#[test]
fn refused_books_give_their_own_number_and_place() {
    let mut uncounted = several();
    let end = uncounted.len() - 1;
    uncounted[end] += 1;
    let late = Book::dated(0, 0, LAST_DATE + 1).add(4, 0, &[0, 0, 0]).end();
    let long = vec![word(8, 0); LONGEST_BOOK + 1];
    let seven_marks = Book::new(0, 0).add(4, 1 << 6, &[0, 0, 0]).end();
    for ordinal in [0, 1, 4, 5, usize::MAX] {
        assert_eq!(settings(&uncounted, ordinal, 2), Err((14, end)));
        assert_eq!(settings(&several(), ordinal, 0), Err((4, 0)));
        assert_eq!(settings(&late, ordinal, 0), Err((16, 0)));
        assert_eq!(settings(&long, ordinal, 0), Err((2, 0)));
        assert_eq!(settings(&[], ordinal, 0), Err((3, 0)));
        let unfit = covered(3, 400, &[1]).end();
        assert_eq!(settings(&unfit, ordinal, 2), Err((12, COVER)));
        assert_eq!(settings(&seven_marks, ordinal, 0), Err((7, FIRST_RECORD)));
    }
}
