//! Request A.1: one set of an accepted book, as it stands there.

use std::fmt;
use std::ops::Range;
use std::ptr;

use super::refusal::{Cause, Refusal};
use super::{audited, Entry};

/// What the call that shows a set returns: number 0 with the set's stretch, which
/// is a part of the book, or the cause with an empty one.
#[derive(Clone, Copy)]
pub struct Shown<'a> {
    pub number: u32,
    pub place: usize,
    pub stretch: &'a [u32],
}

impl<'a> Shown<'a> {
    /// An empty stretch stands at the book's first word.
    pub fn refused(book: &'a [u32], number: u32, place: usize) -> Self {
        Shown {
            number,
            place,
            stretch: &book[..0],
        }
    }

    /// How many words of the book stand before the stretch, if it is a part of it.
    pub fn begin(&self, book: &[u32]) -> Option<usize> {
        let [stretch, book_start] = [self.stretch, book].map(|words| words.as_ptr() as usize);
        let begin = stretch.checked_sub(book_start)? / size_of::<u32>();
        let left = book.len().checked_sub(begin)?;
        (self.stretch.len() <= left).then_some(begin)
    }
}

/// The stretch must be the same part of the same book: equal words elsewhere are
/// another set.
impl PartialEq for Shown<'_> {
    fn eq(&self, other: &Self) -> bool {
        (self.number, self.place) == (other.number, other.place)
            && ptr::eq(self.stretch, other.stretch)
    }
}

/// Without the words, which may be many; nor are they read, whatever another
/// implementation says of where they are.
impl fmt::Debug for Shown<'_> {
    fn fmt(&self, to: &mut fmt::Formatter<'_>) -> fmt::Result {
        to.debug_struct("Shown")
            .field("number", &self.number)
            .field("place", &self.place)
            .field("words", &self.stretch.len())
            .field("at", &self.stretch.as_ptr())
            .finish()
    }
}

/// Shows the set with this ordinal from 0, sets of both kinds counted together.
/// The register is left as by a filing, also where only this call refuses.
pub fn show<'a>(book: &'a [u32], ordinal: usize, register: &mut [Entry]) -> Shown<'a> {
    match try_show(book, ordinal, register) {
        Ok(stretch) => Shown {
            number: 0,
            place: 0,
            stretch: &book[stretch],
        },
        Err(refusal) => Shown::refused(book, refusal.cause.number(), refusal.place),
    }
}

/// Where that set stands, by what the audit passed, and not by a look at the words.
pub(super) fn try_show(
    book: &[u32],
    ordinal: usize,
    register: &mut [Entry],
) -> Result<Range<usize>, Refusal> {
    let mut sets = Vec::new();
    audited(book, register, &mut |stretch| sets.push(stretch))?;
    match sets.get(ordinal) {
        Some(stretch) => Ok(stretch.clone()),
        None => Err(Cause::NoSuchSet.at_start()),
    }
}
