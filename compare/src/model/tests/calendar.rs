//! The calendar by itself: days that anyone can look up, and all dates against
//! a walk through the calendar day by day.

use std::collections::HashMap;

use crate::model::calendar::{days_of_years, Date};
use crate::model::LAST_DATE;

fn date(year: i64, month: i64, day: i64) -> Date {
    Date { year, month, day }
}

fn all_dates() -> impl Iterator<Item = i64> {
    0..=i64::from(LAST_DATE)
}

#[test]
fn numbers_of_named_days() {
    for (number, day) in [
        (0, date(2000, 1, 1)),
        (59, date(2000, 2, 29)),
        (35_124, date(2096, 3, 1)),
        (36_524, date(2099, 12, 31)),
    ] {
        assert_eq!(day.number(), number);
        assert_eq!(Date::numbered(number), day);
    }
    assert_eq!(i64::from(LAST_DATE), date(2099, 12, 31).number());
}

#[test]
fn days_of_one_year() {
    for (day, days) in [
        (date(2003, 2, 28), 365),
        (date(2003, 3, 1), 366),
        (date(2004, 2, 28), 366),
        (date(2004, 2, 29), 365),
        (date(2004, 3, 1), 365),
        (date(2096, 3, 1), 365),
        (date(2099, 12, 31), 365),
    ] {
        assert_eq!(days_of_years(day.number(), 1), days, "{day:?}");
    }
}

#[test]
fn ends_of_five_years() {
    for (day, days, end) in [
        (date(2096, 2, 28), 1_826, date(2101, 2, 28)),
        (date(2096, 2, 29), 1_825, date(2101, 2, 28)),
        (date(2096, 3, 1), 1_825, date(2101, 3, 1)),
        (date(2099, 12, 31), 1_826, date(2104, 12, 31)),
    ] {
        let number = day.number();
        assert_eq!(days_of_years(number, 5), days, "{day:?}");
        assert_eq!(Date::numbered(number + days), end);
    }
}

#[test]
fn counts_are_those_of_the_paper() {
    for number in all_dates() {
        assert!(matches!(days_of_years(number, 1), 365 | 366));
        assert!(matches!(days_of_years(number, 5), 1_825..=1_827));
    }
}

#[test]
fn both_directions_are_inverse() {
    for number in all_dates() {
        let day = Date::numbered(number);
        assert_eq!(day.number(), number);
        assert!(day.exists());
    }
}

#[test]
fn days_that_no_calendar_has() {
    for (year, month, day) in [
        (2099, 2, 29),
        (2100, 2, 29),
        (2096, 2, 30),
        (2096, 4, 31),
        (2096, 1, 0),
        (2096, 1, 32),
        (2096, 0, 1),
        (2096, 13, 1),
    ] {
        assert!(!date(year, month, day).exists());
    }
}

fn length_of_month(year: i64, month: i64) -> i64 {
    let leap = year % 400 == 0 || year % 4 == 0 && year % 100 != 0;
    match month {
        2 if leap => 29,
        2 => 28,
        4 | 6 | 9 | 11 => 30,
        _ => 31,
    }
}

/// Every day from 1 January 2000 to 31 December 2104 in its order.
fn walk() -> Vec<Date> {
    let mut days = Vec::new();
    for year in 2000..=2104 {
        for month in 1..=12 {
            let length = length_of_month(year, month);
            days.extend((1..=length).map(|day| date(year, month, day)));
        }
    }
    days
}

#[test]
fn all_dates_are_those_of_a_walk() {
    let days = walk();
    let key = |day: &Date| (day.year, day.month, day.day);
    let places: HashMap<_, usize> = days.iter().map(key).zip(0..).collect();
    let place = |key| places.get(&key).copied();
    for (number, day) in all_dates().zip(&days) {
        assert_eq!(Date::numbered(number), *day);
        for years in [1, 5] {
            let same = place((day.year + years, day.month, day.day));
            let end = same.or(place((day.year + years, 2, 28))).unwrap();
            assert_eq!(number + days_of_years(number, years), end as i64);
        }
    }
}
