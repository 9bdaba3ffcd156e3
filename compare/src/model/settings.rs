//! Request A.12: how many settings of a derivative set's marks lead to each verdict.

use super::refusal::{Cause, Refusal};
use super::sets::try_show;
use super::words::{kind, kinds};
use super::{file, Entry, ROWS};

/// The marks of a derivative set, which are the lowest bits of its head's word: each
/// set or not, they have so many settings.
const MARKS: usize = 6;
pub const SETTINGS: usize = 1 << MARKS;
pub const SET_MARKS: u32 = SETTINGS as u32 - 1;

/// An accepted book has one of so many verdicts, from 0 on.
pub const VERDICTS: usize = 3;

/// What the call that counts settings returns: number 0 with the counts by verdict,
/// or the cause with all of them 0.
#[derive(Clone, Copy, PartialEq, Debug)]
pub struct Counted {
    pub number: u32,
    pub place: usize,
    pub counts: [u32; VERDICTS],
}

impl Counted {
    pub fn refused(number: u32, place: usize) -> Self {
        Counted {
            number,
            place,
            counts: [0; VERDICTS],
        }
    }
}

/// The word of a set's head with this setting of its marks.
pub fn set_to(head: u32, marks: u32) -> u32 {
    head & !SET_MARKS | marks
}

/// The verdict of each setting, in the order of the marks as a number; or why there
/// is none.
pub type Verdicts = Result<[u32; SETTINGS], Counted>;

/// How many settings of the derivative set with this ordinal lead to each verdict is
/// `counted` of these. The register is left as by a filing of the book as it stands,
/// also where only this call refuses.
pub fn verdicts(book: &[u32], ordinal: usize, register: &mut [Entry]) -> Verdicts {
    let refused = |refusal: Refusal| Counted::refused(refusal.cause.number(), refusal.place);
    let head = derivative_head(book, ordinal, register).map_err(refused)?;
    Ok(verdicts_at(book, head, register.len()))
}

pub fn counted(verdicts: &Verdicts) -> Counted {
    let verdicts = match verdicts {
        Ok(verdicts) => verdicts,
        Err(refused) => return *refused,
    };
    let mut counts = [0; VERDICTS];
    for &verdict in verdicts {
        counts[verdict as usize] += 1;
    }
    Counted {
        number: 0,
        place: 0,
        counts,
    }
}

/// Where the head of the set with this ordinal stands, if it is a derivative set.
fn derivative_head(book: &[u32], ordinal: usize, register: &mut [Entry]) -> Result<usize, Refusal> {
    let set = try_show(book, ordinal, register)?;
    match kind(book[set.start]) {
        kinds::DERIVATIVE_SET => Ok(set.start),
        _ => Err(Cause::NoSuchSet.at_start()),
    }
}

/// By the definition: the book is written with each setting and filed, in a register
/// of its own.
fn verdicts_at(book: &[u32], head: usize, entries: usize) -> [u32; SETTINGS] {
    let mut other = book.to_vec();
    let mut register = vec![Entry::default(); entries];
    let mut verdicts = [0; SETTINGS];
    for (marks, verdict) in (0..).zip(&mut verdicts) {
        other[head] = set_to(book[head], marks);
        *verdict = file(&other, &mut [0; ROWS], &mut register).verdict;
    }
    verdicts
}
