//! The civil calendar as day numbers and back, by years that begin in March.
//!
//! Counted from 1 March a leap day is the last of its year, so that no month
//! before it moves. Four hundred such years are an era, in which the calendar
//! repeats itself whole.

const YEAR_DAYS: i64 = 365;
const ERA_YEARS: i64 = 400;
/// An era has 97 leap days: every fourth year one, less three of the hundredth.
const ERA_DAYS: i64 = ERA_YEARS * YEAR_DAYS + 97;

/// The days of four years, a century and an era that come before the leap day
/// at the end of each; a century but the last of an era lacks that day.
const BEFORE_FOURTH_LEAP_DAY: i64 = 4 * YEAR_DAYS;
const BEFORE_HUNDREDTH_LEAP_DAY: i64 = 100 * YEAR_DAYS + 24;
const BEFORE_LAST_LEAP_DAY: i64 = ERA_DAYS - 1;

/// A day of the civil calendar, or what looks like one: see `exists`.
#[derive(Clone, Copy, PartialEq, Eq, Debug)]
pub struct Date {
    pub year: i64,
    pub month: i64,
    pub day: i64,
}

/// The day that reporting dates are counted from.
const DAY_0: Date = Date {
    year: 2000,
    month: 1,
    day: 1,
};

impl Date {
    /// The day with this number, counted from 1 January 2000 as 0.
    pub fn numbered(number: i64) -> Self {
        let days = number + DAY_0.days_since_march_0();
        let (era, day_of_era) = (days.div_euclid(ERA_DAYS), days.rem_euclid(ERA_DAYS));
        let year_of_era = year_in_era(day_of_era);
        let day_of_year = day_of_era - days_before_year(year_of_era);
        let month_from_march = month_in_year(day_of_year);

        let month = (month_from_march + 2) % 12 + 1;
        let year = ERA_YEARS * era + year_of_era;
        Date {
            // January and February belong to the year that began in March.
            year: if month <= 2 { year + 1 } else { year },
            month,
            day: day_of_year - days_before_month(month_from_march) + 1,
        }
    }

    /// The number of this day, counted from 1 January 2000 as 0.
    pub fn number(self) -> i64 {
        self.days_since_march_0() - DAY_0.days_since_march_0()
    }

    fn days_since_march_0(self) -> i64 {
        let year = if self.month <= 2 {
            self.year - 1
        } else {
            self.year
        };
        let month_from_march = (self.month + 9) % 12;
        ERA_DAYS * year.div_euclid(ERA_YEARS)
            + days_before_year(year.rem_euclid(ERA_YEARS))
            + days_before_month(month_from_march)
            + self.day
            - 1
    }

    /// A day that the calendar has: its number leads back to it.
    pub fn exists(self) -> bool {
        Date::numbered(self.number()) == self
    }

    /// The same calendar day so many years later, 29 February going to 28
    /// February where there is none.
    fn years_later(self, years: i64) -> Self {
        let same = Date {
            year: self.year + years,
            ..self
        };
        if same.exists() {
            same
        } else {
            Date { day: 28, ..same }
        }
    }
}

/// The days from a date to the same calendar day so many years later.
pub fn days_of_years(date: i64, years: i64) -> i64 {
    Date::numbered(date).years_later(years).number() - date
}

/// Every fourth year has ended with a leap day, but no hundredth of an era.
fn days_before_year(year_of_era: i64) -> i64 {
    YEAR_DAYS * year_of_era + year_of_era / 4 - year_of_era / 100
}

/// The other way round: without their leap days all years are of one length.
fn year_in_era(day_of_era: i64) -> i64 {
    let leap_days = day_of_era / BEFORE_FOURTH_LEAP_DAY - day_of_era / BEFORE_HUNDREDTH_LEAP_DAY
        + day_of_era / BEFORE_LAST_LEAP_DAY;
    (day_of_era - leap_days) / YEAR_DAYS
}

/// From March on, five months together have 153 days: 31, 30, 31, 30, 31.
fn days_before_month(month_from_march: i64) -> i64 {
    (153 * month_from_march + 2) / 5
}

/// The other way round.
fn month_in_year(day_of_year: i64) -> i64 {
    (5 * day_of_year + 2) / 153
}
