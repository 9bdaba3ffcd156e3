//! Covers keep of a written credit's add-on what is in proportion to its
//! effective notional; the remainder goes out in row 10.

use super::*;

const TOTAL_RETURN: u32 = 1 << 21;
const LARGEST: i32 = (1 << 27) - 1;

/// Marks of a default swap whose add-on is 1,000 times its premiums, as long as
/// that is no more than 50 times its notional.
const SWAP: u32 = QUALIFYING | CLOSE_OUT;

/// A set with these marks, behind a protection that suits all covers.
fn in_set(marks: u32) -> Book {
    let book = Book::new(1, 0).add(3, 0, &[LARGEST, 0, 0]);
    book.add(4, marks, &[0, 0, 0])
}

impl Book {
    /// A written credit of value 0 with these covers.
    fn sold(self, marks: u32, [notional, loss, premiums]: [i32; 3], covers: &[i32]) -> Self {
        let credit = self.add(6, marks, &[0, notional, loss, 0, premiums]);
        let cover = |book: Book, &amount: &i32| book.add(7, 0, &[amount]);
        covers.iter().fold(credit, cover)
    }
}

/// Rows 5, 9 and 10 of a set without marks that has this credit alone.
fn rows_of(marks: u32, amounts: [i32; 3], covers: &[i32]) -> [i64; 3] {
    let rows = in_set(0).sold(marks, amounts, covers).rows();
    [5, 9, 10].map(|row| rows.row(row))
}

#[test]
fn from_no_cover_to_the_whole_notional() {
    let row_10 = |covers: &[i32]| rows_of(SWAP, [100, 0, 3], covers)[2];
    // 30 of 3,000 stay in for each unit covered.
    assert_eq!(row_10(&[]), -3_000);
    assert_eq!(row_10(&[1]), -1_000 - 2_970);
    assert_eq!(row_10(&[99]), -99_000 - 30);
    assert_eq!(row_10(&[100]), -100_000);
    assert_eq!(row_10(&[60, 40]), -100_000);
}

#[test]
fn rounded_up_once_for_each_credit() {
    let row_10 = |covers: &[i32]| rows_of(SWAP, [3_000, 0, 1], covers)[2];
    // A third of a thousandth for each unit covered: 1 of 1,000 stays in.
    assert_eq!(row_10(&[1]), -1_000 - 999);
    // Two thirds, though each cover by itself would keep 1; then just 1.
    assert_eq!(row_10(&[1, 1]), -2_000 - 999);
    assert_eq!(row_10(&[1, 1, 1]), -3_000 - 999);
    // One and a third.
    assert_eq!(row_10(&[2, 1, 1]), -4_000 - 998);
    // Two credits keep a third each, so that 1 of each stays in, not 1 of both.
    let rows = in_set(0)
        .sold(SWAP, [3_000, 0, 1], &[1])
        .sold(SWAP, [3_000, 0, 1], &[1])
        .rows();
    assert_eq!(rows.pair(5, 10), (2_000, -2_000 - 998 - 1_000));
}

#[test]
fn loss_stays_in_the_notional() {
    // 1,000 · 10 / 3,000 is 3 and a third, so that 4 stay in.
    let rows = rows_of(SWAP, [3_000, 2_990, 1], &[10]);
    assert_eq!(rows, [1_000, 10_000, -10_000 - 996]);
    assert_eq!(rows_of(SWAP, [3_000, 2_990, 1], &[4, 6]), rows);
}

#[test]
fn every_sort_of_add_on() {
    // 100 per thousand of 7, of which 700 · 2 / 7 = 200 stay in.
    let swap = rows_of(TOTAL_RETURN, [7, 0, 0], &[2]);
    assert_eq!(swap, [700, 7_000, -2_000 - 500]);
    // 50 per thousand of 100 are less than the premiums; 50 stay in.
    let few = rows_of(SWAP, [100, 0, 1_000], &[1]);
    assert_eq!(few, [5_000, 100_000, -1_000 - 4_950]);
    // No close-out, so no add-on.
    let none = rows_of(QUALIFYING, [100, 0, 3], &[1]);
    assert_eq!(none, [0, 100_000, -1_000]);
    // No notional, so no add-on, and no room for a cover.
    assert_eq!(rows_of(SWAP, [0, 0, 3], &[]), [0; 3]);
}

#[test]
fn covers_are_those_of_their_credit() {
    // The add-ons are 3,000, 10,000 and 1,000. Of the first 3,000 · 8 / 100 = 240
    // stay in and of the last nothing; the trade's is none to be left out.
    let covered = |book: Book| book.sold(SWAP, [100, 0, 3], &[5, 3]);
    let uncovered = |book: Book| book.sold(SWAP, [3_000, 0, 1], &[]);
    let trade = |book: Book| book.trade(1, 0, 1_000, 365);
    let expected = (14_000, -8_000 - 2_760 - 1_000);
    let first = uncovered(trade(covered(in_set(0))));
    assert_eq!(first.rows().pair(5, 10), expected);
    let last = covered(trade(uncovered(in_set(0))));
    assert_eq!(last.rows().pair(5, 10), expected);
    let before_another_set = trade(covered(in_set(0))).add(4, 0, &[0, 0, 0]);
    assert_eq!(uncovered(before_another_set).rows().pair(5, 10), expected);
}

#[test]
fn what_stays_in_is_weighted() {
    // Add-ons of 1,000 and 10,000. Of the credit's 1,000 · 1,000 / 3,000 = 333
    // and a third, so that 334 stay in and 666 do not. V is 20 and G is 30, so
    // that four fifths count: 8,800 of 11,000, and of 10,334 just over 8,267.
    let section = |marks: u32| {
        let rows = in_set(marks)
            .add(6, SWAP, &[30, 3_000, 0, 0, 1])
            .add(7, 0, &[1_000])
            .trade(1, -10, 1_000, 365)
            .rows();
        [4, 5, 8, 10, 11].map(|row| rows.row(row))
    };
    let row_10 = -1_000_000 - (8_800 - 8_268);
    let netted = [20_000, 8_800, 0, row_10, 2_028_268];
    assert_eq!(section(NETTING), netted);
    // Exempt: what stays in goes out in row 8, and the open 2,000 remain.
    let exempt = [20_000, 8_800, -20_000 - 8_268, row_10, 2_000_000];
    assert_eq!(section(NETTING | EXEMPT), exempt);
    // Exempt and not netted: the gain of 30, and the add-ons as they are.
    let gross = [
        30_000,
        11_000,
        -30_000 - 10_334,
        -1_000_000 - 666,
        2_000_000,
    ];
    assert_eq!(section(EXEMPT), gross);
}

#[test]
fn largest_amounts() {
    // An add-on of 13,421,771,000, which is 1,700 less than 100 notionals. All
    // but one unit is covered, so that 100 less 1,700 / 134,217,727 do not stay
    // in, rounded down 99.
    let premiums = 13_421_771;
    let rows = rows_of(CLOSE_OUT, [LARGEST, 0, premiums], &[LARGEST - 1]);
    let expected = [13_421_771_000, 134_217_727_000, -134_217_726_000 - 99];
    assert_eq!(rows, expected);
    // 100 notionals, of which a unit's 100 do not stay in.
    let rows = rows_of(TOTAL_RETURN, [LARGEST, 0, 0], &[LARGEST - 1]);
    assert_eq!(rows[2], -134_217_726_000 - 100);
}
