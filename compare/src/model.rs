//! The filing of a leverage book, written to be read beside the paper.
//!
//! Clarity goes before speed here: one pass reads record after record, checks
//! each in the order of the table of causes, and adds it to the template.

mod audit;
mod basket;
pub mod calendar;
mod factors;
mod head;
mod records;
mod refusal;
mod sets;
mod settings;
mod template;
#[cfg(test)]
mod tests;
mod weighing;
mod words;

pub use sets::{show, Shown};
pub use settings::{counted, set_to, verdicts, Counted, Verdicts, SETTINGS, SET_MARKS, VERDICTS};
pub use words::kinds;

use std::ops::Range;

use audit::Audit;
use head::Head;
use refusal::{Cause, Refusal};
use template::Template;

/// Rows of the template.
pub const ROWS: usize = 22;

/// The longest book, in words.
pub const LONGEST_BOOK: usize = 1_048_576;

/// Where the first record begins: behind the head's word of kind 1, its Tier 1
/// and its reporting date.
pub const FIRST_RECORD: usize = 3;

/// The last reporting date, 31 December 2099, in days since 1 January 2000.
pub const LAST_DATE: u32 = 36_524;

/// The verdict that goes with every refusal.
pub const NO_VERDICT: u32 = 3;

/// A bought protection in the lent register.
#[repr(C)]
#[derive(Clone, Copy, Default, PartialEq, Debug)]
pub struct Entry {
    pub entity: u32,
    pub rank: u32,
    pub days: u32,
    pub left: u32,
}

/// What a filing returns: number 0 on acceptance, otherwise the cause.
#[derive(Clone, Copy, PartialEq, Debug)]
pub struct Answer {
    pub number: u32,
    pub place: usize,
    pub verdict: u32,
}

/// Files a book: on acceptance the first 22 rows are written and the register
/// tells what is left of each protection; on refusal the rows stay.
pub fn file(book: &[u32], rows: &mut [i64], register: &mut [Entry]) -> Answer {
    match try_file(book, rows, register) {
        Ok(verdict) => Answer {
            number: 0,
            place: 0,
            verdict,
        },
        Err(refusal) => Answer {
            number: refusal.cause.number(),
            place: refusal.place,
            verdict: NO_VERDICT,
        },
    }
}

fn try_file(book: &[u32], rows: &mut [i64], register: &mut [Entry]) -> Result<u32, Refusal> {
    let rows = rows.get_mut(..ROWS).ok_or(Cause::RowsTooShort.at_start())?;
    let template = audited(book, register, &mut |_| {})?;
    rows.copy_from_slice(&template.rows());
    Ok(template.verdict())
}

/// All that a filing does but for the rows, with word of each set's stretch as
/// it is passed.
fn audited(
    book: &[u32],
    register: &mut [Entry],
    passed_set: &mut dyn FnMut(Range<usize>),
) -> Result<Template, Refusal> {
    if book.len() > LONGEST_BOOK {
        return Err(Cause::BookTooLong.at_start());
    }
    let head = Head::read(book).map_err(Cause::at_start)?;
    let register = register
        .get_mut(..head.protections)
        .ok_or(Cause::RegisterTooShort.at_start())?;

    let audited = Audit::new(book, &head, register).run(passed_set);
    if audited.is_err() {
        // A refused book leaves no trace of its protections.
        register.fill(Entry::default());
    }
    audited
}
