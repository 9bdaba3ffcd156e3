//! Reporting dates as they are written: year, month and day.

use crate::model::calendar::Date;
use crate::model::LAST_DATE;

/// The word of a date such as 2096-03-01.
pub fn date(text: &str) -> Result<u32, String> {
    let date = parts(text).ok_or(format!("{text} is no date like 2096-03-01"))?;
    if !date.exists() {
        return Err(format!("the calendar has no {text}"));
    }
    match u32::try_from(date.number()) {
        Ok(number) if number <= LAST_DATE => Ok(number),
        _ => Err(format!("{text} is not in 2000-01-01 to 2099-12-31")),
    }
}

/// Four digits, two and two, whatever they say.
fn parts(text: &str) -> Option<Date> {
    let digits = |part: &str, count| {
        let plain = part.len() == count && part.bytes().all(|byte| byte.is_ascii_digit());
        part.parse().ok().filter(|_| plain)
    };
    let (year, rest) = text.split_once('-')?;
    let (month, day) = rest.split_once('-')?;
    Some(Date {
        year: digits(year, 4)?,
        month: digits(month, 2)?,
        day: digits(day, 2)?,
    })
}
