//! The reporting dates of accepted books, and the trades at the ends of their
//! bands.

use super::{Feature, Reached, Record, MOST_DAYS};
use crate::model::calendar::{days_of_years, Date};

/// Where the bands of a book end.
pub struct Bands {
    date: Date,
    one_year: u32,
    five_years: u32,
}

impl Bands {
    pub fn at(date: u32) -> Self {
        let days = |years| u32::try_from(days_of_years(date.into(), years));
        Bands {
            date: Date::numbered(date.into()),
            one_year: days(1).expect("days up to a later year"),
            five_years: days(5).expect("days up to a later year"),
        }
    }
}

/// Days of one year and of five that go together. One year has a day more over
/// a 29 February; five years have one or two of them, less that of 2100.
const COUNTS: [[u32; 2]; 4] = [[365, 1_825], [365, 1_826], [366, 1_826], [366, 1_827]];

/// The ends of the bands at all dates, and of what days may be.
const DAYS: [u32; 7] = [0, 365, 366, 1_825, 1_826, 1_827, MOST_DAYS];

/// Classes that have a figure of their own for each band, and no floor: with
/// these a day too many or too few shows in row 5.
const TELLING_CLASSES: [u32; 3] = [1, 2, 4];

/// Dates at which a calendar is easily wrong: whether the year is a leap year,
/// month and day.
const SORTS: [(&str, (bool, i64, i64)); 9] = [
    ("28 February, leap: years, past", (true, 2, 28)),
    ("29 February: years, past", (true, 2, 29)),
    ("1 March, leap: years, past", (true, 3, 1)),
    ("28 February, common: years, past", (false, 2, 28)),
    ("1 March, common: years, past", (false, 3, 1)),
    ("31 December, leap: years, past", (true, 12, 31)),
    ("31 December, common: years, past", (false, 12, 31)),
    ("1 January, leap: years, past", (true, 1, 1)),
    ("1 January, common: years, past", (false, 1, 1)),
];

/// Of the years 2000 to 2099 every fourth is a leap year.
fn is_leap_year(year: i64) -> bool {
    year % 4 == 0
}

pub fn list() -> Vec<Feature> {
    let mut list = Vec::new();
    list.extend(COUNTS.map(|[one, five]| ("days of one year and of five", [one, five, 0])));
    list.extend((0..7).map(|class| ("class", [class, 0, 0])));
    for resets in 0..2 {
        for class in 0..5 {
            list.extend((0..3).map(|band| ("class, resets, band", [class, resets, band])));
        }
        list.extend(DAYS.map(|days| ("days that decide the band", [days, resets, 0])));
    }
    list.push(("floor of 5", [0; 3]));
    // On the last day of a band, and a day past it.
    for past in 0..2 {
        list.extend([365, 366].map(|days| ("floor of 5 at the end: days, past", [days, past, 0])));
        for resets in 0..2 {
            let days = [365, 366, 1_825, 1_826, 1_827];
            list.extend(days.map(|days| ("band's end: days, past, resets", [days, past, resets])));
        }
        for years in [1, 5] {
            list.extend(SORTS.map(|(name, _)| (name, [years, past, 0])));
            let numbers = (2095..=2099).map(|year| [year, years, past]);
            list.extend(numbers.map(|numbers| ("year of the date, years, past", numbers)));
        }
    }
    list
}

impl Reached {
    pub(super) fn counts(&mut self, bands: &Bands) {
        let numbers = [bands.one_year, bands.five_years, 0];
        self.came("days of one year and of five", numbers);
    }

    pub(super) fn trade(&mut self, trade: &Record, bands: &Bands) {
        let class = trade.field(0, 3);
        let resets = trade.field(11, 1);
        let (remaining, reset) = (trade.amounts[2], trade.amounts[3]);
        let deciding = if resets == 1 { reset } else { remaining };
        let band = u32::from(deciding > bands.one_year) + u32::from(deciding > bands.five_years);
        self.came("class", [class, 0, 0]);
        self.came("class, resets, band", [class, resets, band]);
        self.came("days that decide the band", [deciding, resets, 0]);
        if trade.amounts[1] == 0 {
            return;
        }
        if class == 0 && resets == 1 && band == 0 {
            self.floor(remaining, bands.one_year);
        }
        if TELLING_CLASSES.contains(&class) {
            self.end(1, bands.one_year, deciding, resets, &bands.date);
            self.end(5, bands.five_years, deciding, resets, &bands.date);
        }
    }

    /// A rates trade whose reset is in the first band: the remaining days decide.
    fn floor(&mut self, remaining: u32, one_year: u32) {
        if remaining > one_year {
            self.came("floor of 5", [0; 3]);
        }
        let past = remaining.wrapping_sub(one_year);
        self.came("floor of 5 at the end: days, past", [one_year, past, 0]);
    }

    fn end(&mut self, years: u32, end: u32, deciding: u32, resets: u32, date: &Date) {
        let past = deciding.wrapping_sub(end);
        if past > 1 {
            return;
        }
        self.came("band's end: days, past, resets", [end, past, resets]);
        let sort = (is_leap_year(date.year), date.month, date.day);
        for (name, _) in SORTS.iter().filter(|(_, listed)| *listed == sort) {
            self.came(name, [years, past, 0]);
        }
        let year = u32::try_from(date.year).expect("a year after 2000");
        self.came("year of the date, years, past", [year, years, past]);
    }
}
