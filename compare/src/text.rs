//! A readable form of a book: one record per line, a keyword, then marks by
//! their name and fields as name=value, the grades of a basket as a list. `#`
//! begins a comment. Amounts left out are 0. The first two lines are the head's
//! amounts: `tier1` and its amount, `date` and the reporting date as 2096-03-01.
//! The head's count of protections, a basket's count of names and the end word
//! are written here.
//!
//! The order of the lines is that of the book, right or wrong, so that faulty
//! books can be written as well.

mod date;
mod forms;
#[cfg(any(feature = "library", test))]
pub mod set;
#[cfg(any(feature = "library", test))]
pub mod settings;
#[cfg(test)]
mod tests;

use crate::model::FIRST_RECORD;
use date::date;
use forms::{Form, FORMS};

/// A line of the head: its keyword and one value.
struct HeadLine {
    keyword: &'static str,
    standing: &'static str,
    read: fn(&str) -> Result<u32, String>,
}

/// In the order of the words behind the head's own.
const HEAD_LINES: [HeadLine; FIRST_RECORD - 1] = [
    HeadLine {
        keyword: "tier1",
        standing: "first",
        read: amount,
    },
    HeadLine {
        keyword: "date",
        standing: "second",
        read: date,
    },
];

/// The words of a book written as text.
pub fn words(source: &str) -> Result<Vec<u32>, String> {
    // The head's own word needs the count of protections and comes last.
    let mut words = vec![0];
    let mut protections = 0;
    for (number, line) in (1..).zip(source.lines()) {
        let line = line.split('#').next().unwrap_or_default();
        let parts: Vec<&str> = line.split_whitespace().collect();
        let Some((&keyword, parts)) = parts.split_first() else {
            continue;
        };
        let at_line = |error| format!("line {number}: {error}");
        match head_word(words.len(), keyword, parts).map_err(at_line)? {
            Some(word) => words.push(word),
            None => words.extend(record(keyword, parts).map_err(at_line)?),
        }
        protections += u32::from(keyword == "protection");
    }
    if let Some(missing) = HEAD_LINES.get(words.len() - 1) {
        return Err(format!("no {}", missing.keyword));
    }
    words[0] = 1 << 28 | protections;
    let count = u32::try_from(words.len()).map_err(|error| error.to_string())?;
    words.push(15 << 28 | count & 0x0FFF_FFFF);
    Ok(words)
}

/// The word of a line of the head, none where a record is due at this place.
fn head_word(place: usize, keyword: &str, values: &[&str]) -> Result<Option<u32>, String> {
    let due = (place < FIRST_RECORD).then(|| place - 1);
    let found = HEAD_LINES.iter().position(|line| line.keyword == keyword);
    let Some(index) = due.or(found) else {
        return Ok(None);
    };
    let line = &HEAD_LINES[index];
    if due != found {
        let (standing, keyword) = (line.standing, line.keyword);
        return Err(format!(
            "the {standing} record, and only that, is {keyword}"
        ));
    }
    match values {
        [value] => (line.read)(value).map(Some),
        _ => Err(format!("{keyword} has one value")),
    }
}

fn record(keyword: &str, parts: &[&str]) -> Result<Vec<u32>, String> {
    let form = FORMS
        .iter()
        .find(|form| form.keyword == keyword)
        .ok_or(format!("no record is called {keyword}"))?;
    let mut payload = 0;
    let mut fields: Vec<Option<u32>> = vec![None; form.fields.len()];
    let mut amounts: Vec<Option<u32>> = vec![None; form.amounts.len()];
    let mut listed = None;
    for part in parts {
        let Some((name, value)) = part.split_once('=') else {
            payload |= mark(form, part)?;
            continue;
        };
        if let Some(index) = form.fields.iter().position(|field| field.name == name) {
            set(&mut fields[index], form.fields[index].read(value)?, name)?;
        } else if let Some(index) = form.amounts.iter().position(|&known| known == name) {
            set(&mut amounts[index], amount(value)?, name)?;
        } else if let Some(list) = form.list.as_ref().filter(|list| list.name == name) {
            set(&mut listed, list.read(value)?, name)?;
        } else {
            return Err(format!("{keyword} has no field {name}"));
        }
    }
    for (field, value) in form.fields.iter().zip(fields) {
        payload |= value.unwrap_or(field.left_out) << field.low;
    }
    if keyword == "trade" {
        amounts[3] = amounts[3].or(amounts[2]);
    }
    let listed = listed.unwrap_or_default();
    if let Some(list) = &form.list {
        payload |= (listed.len() as u32) << list.low;
    }
    let mut words = vec![form.kind << 28 | payload];
    words.extend(amounts.iter().map(|amount| amount.unwrap_or(0)));
    words.extend(listed);
    Ok(words)
}

fn mark(form: &Form, name: &str) -> Result<u32, String> {
    let known = form.marks.iter().find(|(known, _)| *known == name);
    let no_mark = || format!("{} has no mark {name}", form.keyword);
    known.map(|(_, bits)| *bits).ok_or_else(no_mark)
}

fn set<T>(place: &mut Option<T>, value: T, name: &str) -> Result<(), String> {
    match place.replace(value) {
        None => Ok(()),
        Some(_) => Err(format!("{name} is given twice")),
    }
}

/// An amount: sign in bit 27, size below it.
fn amount(text: &str) -> Result<u32, String> {
    let (sign, size) = match text.strip_prefix('-') {
        Some(size) => (1 << 27, size),
        None => (0, text),
    };
    match size.parse::<u32>() {
        Ok(size) if size < 1 << 27 => Ok(sign | size),
        _ => Err(format!("{text} is no amount below 2^27")),
    }
}
