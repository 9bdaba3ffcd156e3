//! The paper's samples and its printed case.

use super::*;
use crate::text::words;

#[test]
fn printed_case() {
    let book = words(include_str!("../../../books/printed.txt")).unwrap();
    let mut rows = [0; ROWS];
    assert_eq!(file(&book, &mut rows, &mut []).verdict, 0);
    let mut expected = [0; ROWS];
    expected[..3].copy_from_slice(&[980_000, -10_000, 970_000]);
    expected[19..].copy_from_slice(&[50_000, 970_000, 515]);
    assert_eq!(rows, expected);
}

#[test]
fn fiduciary_and_deducted() {
    let rows_of = |fiduciary, amounts: &[i32]| {
        let rows = Book::new(0, 1).add(2, fiduciary, amounts).rows();
        [1, 2, 3, 21].map(|row| rows.row(row))
    };
    // The provision plays no part where the mark is set.
    for provision in [0, 20, 90] {
        let amounts = &[100, provision, 10];
        assert_eq!(rows_of(1, amounts), [10_000, -10_000, 0, 0]);
    }
    assert_eq!(rows_of(1, &[100, 20, 0]), [0; 4]);
    assert_eq!(rows_of(1, &[100, 0, 100]), [100_000, -100_000, 0, 0]);
    assert_eq!(
        rows_of(0, &[100, 20, 10]),
        [80_000, -10_000, 70_000, 70_000]
    );
}

#[test]
fn rates_by_band() {
    for (days, add_on) in [(365, 0), (366, 5_000), (1_825, 5_000), (1_826, 15_000)] {
        let book = Book::new(0, 0).add(4, 0, &[0, 0, 0]);
        assert_eq!(book.trade(0, 0, 1_000, days).rows().row(5), add_on);
    }
}

#[test]
fn resetting_rates() {
    for (days, add_on) in [(365, 0), (400, 5_000)] {
        let book = Book::new(0, 0).add(4, 0, &[0, 0, 0]);
        let book = book.add(5, 1 << 3 | RESETS, &[0, 1_000, days, 30]);
        assert_eq!(book.rows().row(5), add_on);
    }
}

fn two_currency_trades(marks: u32, margin: i32, values: [i32; 2]) -> (i64, i64) {
    Book::new(0, 0)
        .add(4, marks, &[margin, 0, 0])
        .trade(1, values[0], 1_000, 365)
        .trade(1, values[1], 1_000, 365)
        .rows()
        .pair(4, 5)
}

#[test]
fn netting_of_two_trades() {
    assert_eq!(two_currency_trades(NETTING, 0, [30, -10]), (20_000, 16_000));
    assert_eq!(two_currency_trades(NETTING, 5, [30, -10]), (20_000, 16_000));
    let all = ALL_MARGIN_MARKS;
    assert_eq!(two_currency_trades(all, 5, [30, -10]), (15_000, 16_000));
    assert_eq!(two_currency_trades(0, 5, [30, -10]), (30_000, 20_000));
    assert_eq!(two_currency_trades(all - 1, 5, [30, -10]), (30_000, 20_000));
    assert_eq!(two_currency_trades(NETTING, 0, [30, -40]), (0, 8_000));
    assert_eq!(two_currency_trades(NETTING, 0, [0, -10]), (0, 20_000));
}

#[test]
fn weighted_add_on_rounds_up_once() {
    let book = Book::new(0, 0).add(4, NETTING, &[0, 0, 0]);
    let rows = book.trade(1, 7, 1, 365).trade(1, -6, 0, 365).rows();
    assert_eq!(rows.row(5), 5);
}

#[test]
fn financing_exposure() {
    for (marks, exposure) in [(1, 0), (0, 10_000)] {
        let book = Book::new(0, 0).add(8, marks, &[]);
        let book = book.add(9, 0, &[0, 0, 0, 0, 100, 90, 0]);
        let rows = book.add(9, 0, &[0, 0, 0, 0, 50, 70, 0]).rows();
        assert_eq!(rows.row(14), exposure);
    }
}

fn netted_cash(marks: [u32; 2], days: [i32; 2]) -> i64 {
    Book::new(0, 0)
        .add(8, 0, &[])
        .add(9, marks[0], &[40, 0, 40, 0, 0, 0, days[0]])
        .add(9, marks[1], &[0, 0, 0, 25, 0, 0, days[1]])
        .rows()
        .row(13)
}

#[test]
fn cash_is_netted_by_mark_and_day() {
    assert_eq!(netted_cash([1, 1], [7, 7]), -25_000);
    assert_eq!(netted_cash([1, 1], [0, 0]), -25_000);
    assert_eq!(netted_cash([1, 0], [7, 7]), 0);
    assert_eq!(netted_cash([1, 1], [7, 8]), 0);
}

#[test]
fn agent_with_further_exposure() {
    for (marks, exposure) in [(2, 10_000), (3, 0), (6, 160_000), (7, 150_000)] {
        let book = Book::new(0, 0).add(8, marks, &[]);
        let book = book.add(9, 0, &[0, 0, 0, 0, 100, 90, 0]);
        let rows = book.add(9, 0, &[0, 0, 0, 0, 50, 70, 0]).rows();
        assert_eq!(rows.pair(14, 15), (0, exposure));
    }
}

#[test]
fn sold_swap_with_a_cover() {
    let sold = |book: Book| {
        book.add(3, 0, &[5, 0, 0]).add(4, 0, &[0, 0, 0]).add(
            6,
            QUALIFYING | CLOSE_OUT,
            &[0, 100, 0, 0, 3],
        )
    };
    let total = |rows: Rows| rows.row(5) + rows.row(9) + rows.row(10);
    assert_eq!(total(sold(Book::new(1, 0)).rows()), 100_000);
    let covered = sold(Book::new(1, 0)).add(7, 0, &[1]);
    // Of the add-on 3,000 · 1 / 100 = 30 stay in: 30 + 100,000 − 1,000.
    assert_eq!(total(covered.rows()), 99_030);
}

#[test]
fn exempt_set_leaves_the_written_notional() {
    let rows = Book::new(0, 0)
        .add(4, 1 << 5, &[0, 4, 2])
        .trade(1, 30, 1_000, 365)
        .add(6, QUALIFYING | CLOSE_OUT, &[0, 100, 10, 0, 3])
        .rows();
    let section: Vec<i64> = (4..=11).map(|row| rows.row(row)).collect();
    let expected = [30_000, 13_000, 2_000, 0, -40_000, 90_000, -3_000, 92_000];
    assert_eq!(section, expected);
    assert_eq!(rows.row(1), 4_000);
}

#[test]
fn margin_paid_is_taken_off_with_its_receivable() {
    let rows = Book::new(0, 0).add(4, 31, &[0, 4, 0]).rows();
    assert_eq!((rows.row(1), rows.row(7), rows.row(21)), (4_000, -4_000, 0));
}

#[test]
fn off_balance_conversion() {
    let figures = [200, 500, 100, 1_000, 1_000, 500, 500, 200, 1_000, 500, 100];
    for (class, &own) in (0..).zip(&figures) {
        let rows = Book::new(0, 0).add(10, class, &[3]).rows();
        assert_eq!(rows.pair(17, 19), (3_000, 3 * own));
        for (other, &second) in (0..).zip(&figures) {
            let payload = class | (other + 1) << 4;
            let rows = Book::new(0, 0).add(10, payload, &[1]).rows();
            assert_eq!(rows.row(19), own.min(second));
        }
    }
}

#[test]
fn ratio_and_verdict() {
    for (tier1, exposure, ratio, verdict) in
        [(3, 100, 300, 0), (3, 101, 297, 1), (-1, 3, -3_334, 1)]
    {
        let rows = Book::new(0, tier1).add(2, 0, &[exposure, 0, 0]).rows();
        assert_eq!((rows.row(22), rows.1), (ratio, verdict));
    }
    let mut rows = [1; ROWS];
    let empty = [0x1000_0000, 0, 35_124, 0xF000_0003];
    let answer = file(&empty, &mut rows, &mut []);
    assert_eq!((answer.number, answer.verdict), (0, 2));
    assert_eq!(rows, [0; ROWS]);
}

#[test]
fn equal_rank_and_days_cover() {
    let mut rows = [0; ROWS];
    let mut register = [DIRT; 2];
    let answer = file(&covered(2, 400, &[5, 15]).end(), &mut rows, &mut register);
    assert_eq!(answer.number, 0);
    let left = Entry {
        entity: 5,
        rank: 2,
        days: 400,
        left: 10,
    };
    assert_eq!(register, [left, DIRT]);
    // The protection is one rank more senior than what is written.
    refused(&covered(3, 400, &[1]).end(), 12, COVER);
}
