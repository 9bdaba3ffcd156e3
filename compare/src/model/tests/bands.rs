//! The bands of a book end on calendar days.

use super::*;
use crate::model::calendar::Date;
use crate::text::words;

/// A date, and the days to the same day one and five years later: 365 for each
/// year, and one for every 29 February on the way.
const DATES: [([i64; 3], [i32; 2]); 12] = [
    ([2000, 1, 1], [366, 1_827]),
    ([2003, 2, 28], [365, 1_826]),
    ([2003, 3, 1], [366, 1_827]),
    ([2004, 2, 28], [366, 1_827]),
    ([2004, 2, 29], [365, 1_826]),
    ([2004, 3, 1], [365, 1_826]),
    ([2095, 3, 1], [366, 1_826]),
    ([2096, 2, 28], [366, 1_826]),
    ([2096, 2, 29], [365, 1_825]),
    ([2096, 3, 1], [365, 1_825]),
    ([2099, 3, 1], [365, 1_826]),
    ([2099, 12, 31], [365, 1_826]),
];

/// The add-on of one trade with a notional of 1,000 in a book of this date.
fn add_on([year, month, day]: [i64; 3], payload: u32, days: i32, reset: i32) -> i64 {
    let date = Date { year, month, day }.number();
    Book::dated(0, 0, u32::try_from(date).unwrap())
        .add(4, 0, &[0, 0, 0])
        .add(5, payload | 1 << 3, &[0, 1_000, days, reset])
        .rows()
        .row(5)
}

#[test]
fn last_day_is_in_the_band() {
    for (date, [one_year, five_years]) in DATES {
        for (days, expected) in [
            (0, 10_000),
            (one_year - 1, 10_000),
            (one_year, 10_000),
            (one_year + 1, 50_000),
            (five_years, 50_000),
            (five_years + 1, 75_000),
            (65_535, 75_000),
        ] {
            let currency = 1;
            assert_eq!(add_on(date, currency, days, days), expected, "{date:?}");
            let resetting = add_on(date, currency | RESETS, 65_535, days);
            assert_eq!(resetting, expected, "{date:?}");
        }
    }
}

#[test]
fn floor_goes_by_the_same_end() {
    for (date, [one_year, five_years]) in DATES {
        let rates = |days, reset| add_on(date, RESETS, days, reset);
        assert_eq!(rates(one_year, 30), 0, "{date:?}");
        assert_eq!(rates(one_year, one_year), 0, "{date:?}");
        assert_eq!(rates(one_year + 1, 30), 5_000, "{date:?}");
        assert_eq!(rates(five_years + 1, one_year), 5_000, "{date:?}");
        assert_eq!(rates(five_years + 1, five_years + 1), 15_000, "{date:?}");
    }
}

#[test]
fn book_over_a_leap_year() {
    let book = words(include_str!("../../../books/leap_year.txt")).unwrap();
    let mut rows = [0; ROWS];
    assert_eq!(file(&book, &mut rows, &mut []).number, 0);
    assert_eq!(rows[4], 190_000);
}
