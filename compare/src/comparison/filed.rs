//! The filing that a call about a set of the same book is held against.

use crate::filing::Lengths;
use crate::model::{self, Answer, Entry, ROWS};

/// Entries that are lent beyond those that the book uses, and entries behind them
/// that are not lent: all are compared at each call, so they are few.
const FURTHER: usize = 4;
const NOT_LENT: usize = 2;

/// A book, how much of a register with which contents it is lent, and what its
/// filing makes of that. The filing is lent all rows, as no call about a set is
/// refused for them.
pub struct Filed<'a> {
    pub book: &'a [u32],
    pub before: &'a [Entry],
    pub lent: usize,
    pub answer: Answer,
    pub after: Vec<Entry>,
}

impl<'a> Filed<'a> {
    pub fn new(book: &'a [u32], lengths: Lengths, before: &'a [Entry]) -> Self {
        let head = book.first().map_or(0, |word| word & 0x0FFF_FFFF);
        let lent = lengths.register.min(head as usize + FURTHER);
        let before = &before[..(lent + NOT_LENT).min(before.len())];
        Filed::in_register(book, before, lent)
    }

    /// Another book with as many protections, in a register with the same contents.
    pub fn with<'b>(&self, book: &'b [u32]) -> Filed<'b>
    where
        'a: 'b,
    {
        Filed::in_register(book, self.before, self.lent)
    }

    fn in_register(book: &'a [u32], before: &'a [Entry], lent: usize) -> Self {
        let mut after = before.to_vec();
        let answer = model::file(book, &mut [0; ROWS], &mut after[..lent]);
        Filed {
            book,
            before,
            lent,
            answer,
            after,
        }
    }
}
