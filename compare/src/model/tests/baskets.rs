//! Baskets: which grade decides, what a basket adds to its set, and how it is
//! refused.

use super::*;
use crate::text::words;

const LAST_GRADE: i32 = 31;
const MOST_NAMES: usize = 32;
const LARGEST: i32 = (1 << 27) - 1;

/// The add-on of one basket with a notional of 1,000.
fn add_on(nth: u32, grades: &[i32]) -> i64 {
    let book = Book::new(0, 0).add(4, 0, &[0, 0, 0]);
    book.basket(nth, [0, 1_000], grades).rows().row(5)
}

#[test]
fn nth_worst_grade_decides() {
    for (nth, grades, expected) in [
        (1, vec![9], 50_000),
        (1, vec![10], 100_000),
        (1, vec![0], 50_000),
        (1, vec![LAST_GRADE], 100_000),
        // The first to default: one name that does not qualify is enough.
        (1, vec![9, 0, 9], 50_000),
        (1, vec![0, 10, 3], 100_000),
        // The last: one that qualifies is enough.
        (3, vec![31, 31, 9], 50_000),
        (3, vec![31, 10, 31], 100_000),
        // In between.
        (2, vec![10, 9, 0], 50_000),
        (2, vec![10, 9, 10], 100_000),
    ] {
        assert_eq!(add_on(nth, &grades), expected, "{nth} of {grades:?}");
    }
}

#[test]
fn equal_grades_count_separately_and_in_any_order() {
    for grades in [[12, 12, 9], [12, 9, 12], [9, 12, 12]] {
        let add_ons = [1, 2, 3].map(|nth| add_on(nth, &grades));
        assert_eq!(add_ons, [100_000, 100_000, 50_000], "{grades:?}");
    }
    for grades in [[10, 9, 9], [9, 10, 9], [9, 9, 10]] {
        let add_ons = [1, 2, 3].map(|nth| add_on(nth, &grades));
        assert_eq!(add_ons, [100_000, 50_000, 50_000], "{grades:?}");
    }
    for place in [0, 15, 31] {
        let mut grades = [10; MOST_NAMES];
        grades[place] = 9;
        assert_eq!([31, 32].map(|nth| add_on(nth, &grades)), [100_000, 50_000]);
    }
}

/// Two baskets with add-ons of 50,000 and 100,000 and these values.
fn two_baskets(marks: u32, margin: i32, values: [i32; 2]) -> (i64, i64) {
    Book::new(0, 0)
        .add(4, marks, &[margin, 0, 0])
        .basket(1, [values[0], 1_000], &[9, 8])
        .basket(2, [values[1], 1_000], &[10, 11])
        .rows()
        .pair(4, 5)
}

#[test]
fn values_join_net_and_gross() {
    assert_eq!(two_baskets(0, 0, [30, -10]), (30_000, 150_000));
    assert_eq!(two_baskets(NETTING, 0, [30, -10]), (20_000, 120_000));
    let all = ALL_MARGIN_MARKS;
    assert_eq!(two_baskets(all, 5, [30, -10]), (15_000, 120_000));
    assert_eq!(two_baskets(NETTING, 0, [30, -40]), (0, 60_000));
    assert_eq!(two_baskets(NETTING, 0, [0, -10]), (0, 150_000));
}

#[test]
fn no_basket_is_taken_for_an_uncovered_credit() {
    let section = |book: Book| {
        let rows = book.rows();
        [4, 5, 8, 9, 10, 11].map(|row| rows.row(row))
    };
    let exempt = || Book::new(0, 0).add(4, NETTING | EXEMPT, &[0, 0, 0]);
    let alone = exempt().basket(1, [30, 1_000], &[9]);
    assert_eq!(section(alone), [30_000, 50_000, -80_000, 0, 0, 0]);
    // V is 20 and G is 30, so that four fifths of each add-on count: of 53,000
    // in all, and of the basket's 50,000 without the credit's.
    let beside_credit =
        exempt()
            .basket(1, [30, 1_000], &[9])
            .add(6, QUALIFYING | CLOSE_OUT, &[-10, 100, 10, 0, 3]);
    let expected = [20_000, 42_400, -60_000, 90_000, -2_400, 90_000];
    assert_eq!(section(beside_credit), expected);
}

#[test]
fn book_of_baskets() {
    let book = words(include_str!("../../../books/baskets.txt")).unwrap();
    let mut rows = [0; ROWS];
    assert_eq!(file(&book, &mut rows, &mut []).number, 0);
    let shown = [4, 5, 8, 10, 21, 22].map(|row| rows[row - 1]);
    assert_eq!(shown, [27_000, 228_000, -68_000, 0, 187_000, 534]);
}

/// A set behind a protection, so that a refusal has an entry to clear.
fn in_set() -> Book {
    let book = Book::new(1, 0).add(3, 5, &[40, 10, 400]);
    book.add(4, 0, &[0, 0, 0])
}

const BASKET: usize = FIRST_RECORD + 8;
/// Where the notional of that basket and its first grade stand.
const NOTIONAL: usize = BASKET + 2;
const GRADE: usize = BASKET + 3;

/// A basket whose word says what it likes about the grades behind it.
fn written(nth: u32, names: u32, grades: &[i32]) -> Book {
    let amounts = [&[-7, 1_000], grades].concat();
    in_set().add(11, nth | names << 6, &amounts)
}

#[test]
fn accepted_at_the_limits() {
    for (nth, names) in [(1, 1), (1, 32), (32, 32)] {
        written(nth, names, &vec![LAST_GRADE; names as usize]).rows();
    }
    in_set().basket(1, [LARGEST, LARGEST], &[0]).rows();
    in_set().basket(1, [-LARGEST, 0], &[0]).rows();
}

#[test]
fn refused_17_counts_out_of_range() {
    for (nth, names) in [
        (0, 1),
        (0, 32),
        (2, 1),
        (32, 31),
        (33, 32),
        (63, 32),
        (0, 0),
        (1, 0),
        (1, 33),
        (33, 33),
        (1, 63),
        (63, 63),
    ] {
        let book = written(nth, names, &vec![0; names as usize]);
        refused(&book.end(), 17, BASKET);
    }
    // With no name the record ends before the words that look like grades.
    refused(&written(1, 0, &[0, 0]).end(), 17, BASKET);
}

#[test]
fn refused_17_grade_out_of_range() {
    for grade in [LAST_GRADE + 1, LARGEST] {
        refused(&written(1, 1, &[grade]).end(), 17, BASKET);
        // Whether it is the one that decides or not.
        refused(&written(1, 3, &[0, 0, grade]).end(), 17, BASKET);
        refused(&written(3, 3, &[grade, 0, 0]).end(), 17, BASKET);
    }
}

#[test]
fn refused_6_words_counted_by_m_as_written() {
    for names in [1, 2, 32, 33, 63] {
        let grades = vec![0; names as usize - 1];
        // The end word in the place of the last grade, and no word there.
        refused(&written(1, names, &grades).end(), 6, BASKET);
        refused(&written(1, names, &grades).0, 6, BASKET);
    }
    for amounts in [&[][..], &[0]] {
        refused(&in_set().add(11, 0, amounts).0, 6, BASKET);
        refused(&in_set().add(11, 0, amounts).end(), 6, BASKET);
    }
    for place in BASKET + 1..=GRADE + 2 {
        for kind in [1, 11, 15] {
            let mut book = written(1, 3, &[0, 0, 0]);
            book.0[place] = word(kind, 0);
            refused(&book.end(), 6, BASKET);
        }
    }
}

#[test]
fn refused_7_bits_above_11() {
    for bit in 12..28 {
        let mut book = written(1, 1, &[0]);
        book.0[BASKET] |= 1 << bit;
        refused(&book.end(), 7, BASKET);
    }
}

#[test]
fn refused_8_amount_faulty() {
    for (place, word) in [
        (BASKET + 1, MINUS),
        (NOTIONAL, MINUS),
        (NOTIONAL, MINUS | 1),
        (GRADE, MINUS),
        (GRADE, MINUS | 1),
        (GRADE + 1, MINUS),
        (GRADE + 1, MINUS | 32),
    ] {
        let mut book = written(1, 2, &[0, 0]);
        book.0[place] = word;
        refused(&book.end(), 8, BASKET);
        // The counts are out of range as well, or another grade.
        for names in [2, 33] {
            let mut book = written(0, names, &vec![32; names as usize]);
            book.0[place] = word;
            refused(&book.end(), 8, BASKET);
        }
    }
}

#[test]
fn causes_go_in_their_order() {
    let above_11 = 1 << 12;
    let faulty = |names: u32, amounts: &[i32]| in_set().add(11, above_11 | names << 6, amounts);
    // All of 6, 7, 8 and 17; then one less each time.
    refused(&faulty(2, &[0, -1, 32]).end(), 6, BASKET);
    refused(&faulty(2, &[0, -1, 32, 0]).end(), 7, BASKET);
    refused(&faulty(2, &[0, 0, 32, 0]).end(), 7, BASKET);
    refused(&written(0, 2, &[-1, 32]).end(), 8, BASKET);
    refused(&written(0, 2, &[1, 32]).end(), 17, BASKET);
    // 5 goes before them all.
    let outside = Book::new(0, 0).add(11, above_11 | 2 << 6, &[0, -1, 32]);
    refused(&outside.end(), 5, FIRST_RECORD);
}

#[test]
fn refused_5_outside_a_derivative_set() {
    let good = |book: Book| book.basket(1, [0, 0], &[0]).end();
    refused(&good(Book::new(0, 0)), 5, FIRST_RECORD);
    refused(&good(Book::new(1, 0)), 5, FIRST_RECORD);
    let after_asset = Book::new(0, 0).add(2, 0, &[0, 0, 0]);
    refused(&good(after_asset), 5, SECOND_RECORD);
    let empty_financing = Book::new(0, 0).add(8, 0, &[]);
    refused(&good(empty_financing), 5, FIRST_RECORD + 1);
    let financing = in_set().add(8, 0, &[]).add(9, 0, &[0; 7]);
    refused(&good(financing), 5, BASKET + 9);
    let set_is_over = in_set().basket(1, [0, 0], &[0]).add(10, 0, &[0]);
    refused(&good(set_is_over), 5, BASKET + 6);
}

#[test]
fn refused_5_cover_behind_a_basket() {
    let cover = |book: Book| book.add(7, 0, &[1]);
    let basket = |book: Book| book.basket(1, [0, 0], &[0]);
    let credit = |book: Book| book.add(6, 5, &[0, 50, 30, 400, 0]);
    let basket_words = 4;
    refused(&cover(basket(in_set())).end(), 5, BASKET + basket_words);
    // The basket closes the credit, whether that has a cover already or not.
    let between = cover(basket(credit(in_set())));
    refused(&between.end(), 5, COVER + basket_words);
    let between_covers = cover(basket(cover(credit(in_set()))));
    refused(&between_covers.end(), 5, COVER + 2 + basket_words);
    // Another credit may follow, with its own.
    let rows = cover(credit(basket(cover(credit(in_set()))))).rows();
    assert_eq!(rows.pair(9, 10), (40_000, -2_000));
}
