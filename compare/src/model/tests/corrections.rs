//! How far one amount moves row 21: request A.4 and its own pair of books, and the
//! exact effects of request A.13.

use super::*;

const AGENT: u32 = 1 << 1;
const FURTHER_EXPOSURE: u32 = 1 << 2;

/// Row 21 of a book in which one amount is another.
fn moved(book: impl Fn(i32) -> Book, before: i32, after: i32) -> i64 {
    book(after).rows().row(21) - book(before).rows().row(21)
}

fn set(marks: u32) -> Book {
    Book::new(0, 0).add(4, marks, &[0, 0, 0])
}

#[test]
fn netted_value_has_no_ceiling() {
    let row_21 = |second: i32| {
        let trade = set(NETTING).trade(1, 1, 100_000, 365);
        trade.trade(1, second, 0, 365).rows().row(21)
    };
    assert_eq!([row_21(-1), row_21(0)], [400_000, 1_001_000]);
    // Back from a gain to nothing, the whole add-on counts: G is 0.
    let gain = |value: i32| set(NETTING).trade(1, value, 100_000, 365);
    let beside_a_loss = |value: i32| gain(value).trade(1, -9, 0, 365);
    assert_eq!(moved(beside_a_loss, 1, 0), 600_000);
}

#[test]
fn value_without_netting() {
    let by_kind: [fn(Book, i32) -> Book; 3] = [
        |set, value| set.trade(1, value, 100_000, 365),
        |set, value| set.add(6, 0, &[value, 100_000, 0, 365, 0]),
        |set, value| set.basket(1, [value, 100_000], &[9, 10]),
    ];
    for member in by_kind {
        // Margin marks mean nothing without netting.
        for marks in [0, ALL_MARGIN_MARKS & !NETTING] {
            let beside_a_gain = |value: i32| member(set(marks), value).trade(1, 7, 0, 0);
            assert_eq!(moved(beside_a_gain, 5, 8), 3_000);
            assert_eq!(moved(beside_a_gain, -5, 5), 5_000);
            assert_eq!(moved(beside_a_gain, 5, -5), -5_000);
            assert_eq!(moved(beside_a_gain, -5, -1), 0);
        }
        assert_eq!(moved(|value| member(set(EXEMPT), value), -5, 5), 0);
    }
}

/// By hand: 20 less 3, and nothing of the fiduciary one; half of 30, and twice a
/// tenth of it, the lower of a credit substitute's and a cancellable commitment's.
#[test]
fn carrying_amounts_and_off_balance_notionals() {
    let row_21 = |raised: usize, by: i32| {
        let mut amounts = [20, 20, 30, 30, 30];
        amounts[raised] += by;
        let [asset, fiduciary, long, substitute, cancellable] = amounts;
        let book = Book::new(0, 0).add(2, 0, &[asset, 2, 1]);
        let book = book.add(2, 1, &[fiduciary, 2, 1]).add(10, 1, &[long]);
        let book = book.add(10, 3 | (2 + 1) << 4, &[substitute]);
        let book = book.add(10, 2 | (3 + 1) << 4, &[cancellable]);
        book.rows().row(21)
    };
    for (amount, figure) in [1_000, 0, 500, 100, 100].into_iter().enumerate() {
        // Down to provision and deduction.
        for by in [0, 1, 7, -17] {
            let exact = 38_000 + figure * i64::from(by);
            assert_eq!(row_21(amount, by), exact);
        }
    }
    let in_full = |notional: i32| Book::new(0, 0).add(10, 3, &[notional]);
    assert_eq!(moved(in_full, 8, 5), -3_000);
}

#[test]
fn value_lent() {
    for netting in [0, NETTING] {
        let lent = |marks: u32| {
            move |lent: i32| {
                let set = Book::new(0, 0).add(8, netting | marks, &[]);
                set.add(9, 0, &[0, 0, 0, 0, lent, 6, 0])
            }
        };
        for marks in [0, AGENT] {
            assert_eq!(moved(lent(marks), 6, 9), 3_000);
            assert_eq!(moved(lent(marks), 9, 5), -3_000);
            assert_eq!(moved(lent(marks), 6, 3), 0);
        }
        let further = lent(AGENT | FURTHER_EXPOSURE);
        assert_eq!(moved(further, 6, 9), 6_000);
        assert_eq!(moved(further, 9, 5), -7_000);
        assert_eq!(moved(further, 3, 6), 3_000);
    }
}
