//! Where the bands end, from the reporting date without any calendar date.

/// The last day of the first and of the second band, in days from the date.
#[derive(Clone, Copy, PartialEq, Debug)]
pub struct Bands {
    pub one_year: u32,
    pub five_years: u32,
}

/// From one 29 February to the next, where four years lie between them.
const FOUR_YEARS: u32 = 1_461;
/// 29 February 2000.
const LEAP_DAY: u32 = 59;
/// 1 March 2095 and 2099: from these dates on the five years and the one year
/// reach past 28 February 2100, which no 29 February follows.
const MARCH_2095: u32 = 34_758;
const MARCH_2099: u32 = 36_219;

/// Years have 365 days each, and one for every 29 February after the date up to
/// their end. The 365 dates before a 29 February have it in their one year, and
/// in their five years the next one as well; all other dates have none in the
/// one year and one in the five. All this as if 2100 had one, which then goes.
#[inline]
pub fn bands(date: u32) -> Bands {
    let ahead = u32::from((date + 365 - LEAP_DAY) % FOUR_YEARS < 365);
    Bands {
        one_year: 365 + ahead - u32::from(date >= MARCH_2099),
        five_years: 5 * 365 + 1 + ahead - u32::from(date >= MARCH_2095),
    }
}

#[cfg(test)]
mod tests {
    use super::{bands, Bands};
    use crate::model::calendar::days_of_years;
    use crate::model::LAST_DATE;

    #[test]
    fn every_date_has_the_bands_of_the_calendar() {
        for date in 0..=LAST_DATE {
            let days = |years| days_of_years(i64::from(date), years) as u32;
            let counted = Bands {
                one_year: days(1),
                five_years: days(5),
            };
            assert_eq!(bands(date), counted, "{date}");
        }
    }
}
