//! The call that shows a set, by kinds alone: the amounts of an accepted book are
//! of kind 0, so that its other words are those that begin a record.

use super::file;
use crate::filing::NO_SUCH_SET;
use crate::model::{Entry, Shown, ROWS};

pub fn show<'a>(book: &'a [u32], ordinal: usize, register: &mut [Entry]) -> Shown<'a> {
    let answer = file(book, &mut [0; ROWS], register);
    if answer.number != 0 {
        return Shown::refused(book, answer.number, answer.place);
    }
    let is_head = |word: u32| matches!(word >> 28, 4 | 8);
    let is_item_or_end = |word: u32| matches!(word >> 28, 2 | 4 | 8 | 10 | 15);
    let mut heads = (0..book.len()).filter(|&place| is_head(book[place]));
    let Some(begin) = heads.nth(ordinal) else {
        return Shown::refused(book, NO_SUCH_SET, 0);
    };
    let behind_head = &book[begin + 1..];
    let members = behind_head
        .iter()
        .take_while(|&&word| !is_item_or_end(word));
    Shown {
        number: 0,
        place: 0,
        stretch: &book[begin..][..1 + members.count()],
    }
}
