//! Reporting dates, and days to where the bands end for them.

use super::Random;
use crate::model::calendar::{days_of_years, Date};
use crate::model::LAST_DATE;

/// The first year of the reporting dates, and the last.
const YEARS: (u32, u32) = (2000, 2099);

/// The first year from which five years reach into 2100, which is no leap year.
const NEAR_2100: u32 = 2095;

/// Days before 2100 on which a count changes, or would if that were a leap year,
/// and the days before them.
const TURNING_DAYS: [(u32, u32, u32); 7] = [
    (2095, 2, 28),
    (2095, 3, 1),
    (2096, 2, 28),
    (2096, 2, 29),
    (2096, 3, 1),
    (2099, 2, 28),
    (2099, 3, 1),
];

fn number((year, month, day): (u32, u32, u32)) -> u32 {
    let date = Date {
        year: year.into(),
        month: month.into(),
        day: day.into(),
    };
    u32::try_from(date.number()).expect("a day that is not before 2000")
}

/// A reporting date, often one that is easily got wrong.
pub fn date(random: &mut Random) -> u32 {
    let year = random.between(YEARS.0, YEARS.1);
    let leap_year = year / 4 * 4;
    match random.below(13) {
        0..=2 => random.below(LAST_DATE + 1),
        // 28 and 29 February and 1 March.
        3 | 4 => number((leap_year, 2, 28)) + random.below(3),
        // 28 February and 1 March, in most years.
        5 | 6 => number((year, 2, 28)) + random.below(2),
        7 | 8 => {
            let year = random.pick(&[year, leap_year]);
            number(random.pick(&[(year, 1, 1), (year, 12, 31)]))
        }
        9 | 10 => random.between(number((NEAR_2100, 1, 1)), LAST_DATE),
        11 => number(random.pick(&TURNING_DAYS)),
        _ => random.pick(&[0, LAST_DATE]),
    }
}

/// The last day of either band at this date, the day before it or behind it.
pub fn days_near_an_end(date: u32, random: &mut Random) -> u32 {
    let years = random.pick(&[1, 5]);
    let end = days_of_years(date.into(), years);
    u32::try_from(end).expect("days up to a later year") + random.below(3) - 1
}
