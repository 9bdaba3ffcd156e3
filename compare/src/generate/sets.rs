//! The same book with one of its sets doubled, so that two are equal, or with that
//! set longer or further behind, by just so much that a search in steps of 32 words
//! or more would end one of them there.

use std::ops::Range;

use super::{correct_count, protections_end, word, Random};
use crate::model::kinds;

/// Steps are powers of two, from 32 to 1,024 words.
const STEPS: [u32; 2] = [5, 10];

/// A book with a set that stands here, all accepted. Only by the covers of a copy
/// can the second one be refused.
pub fn around_a_set(book: &[u32], set: Range<usize>, random: &mut Random) -> Vec<u32> {
    let step = 1 << random.between(STEPS[0], STEPS[1]);
    let about = step + random.index(5) - 2;
    let mut words = match random.below(6) {
        0 => lengthened(book, set, about),
        1 => put_off(book, set.start, about, random),
        _ => with(book, set.end, &book[set]),
    };
    correct_count(&mut words);
    words
}

fn with(book: &[u32], place: usize, words: &[u32]) -> Vec<u32> {
    let (before, behind) = book.split_at(place);
    [before, words, behind].concat()
}

/// With members that weigh nothing behind the others, up to so many words: a few
/// less where no member is as short as what is missing.
pub(super) fn lengthened(book: &[u32], set: Range<usize>, words: usize) -> Vec<u32> {
    let mut members = Vec::new();
    let financing = book[set.start] >> 28 == kinds::FINANCING_SET;
    loop {
        let missing = words.saturating_sub(set.len() + members.len());
        match (financing, missing) {
            // No other trade settles later.
            (true, 8..) => members.extend([word(9, 0), 0, 0, 0, 0, 0, 0, 65_535]),
            (false, 36..) => members.extend([word(5, 1 << 3), 0, 0, 0, 0]),
            (false, 4..) => {
                let names = missing - 3;
                members.extend([word(11, 1 | (names as u32) << 6), 0, 0]);
                members.extend(vec![0; names]);
            }
            _ => break,
        }
    }
    with(book, set.end, &members)
}

/// With items before all others, so that so many words go before what stands here.
pub(super) fn put_off(book: &[u32], place: usize, words: usize, random: &mut Random) -> Vec<u32> {
    let first_item = protections_end(book);
    let missing = words.saturating_sub(place - first_item);
    let item: &[u32] = match random.below(2) {
        0 => &[word(2, 0), 7, 0, 0],
        _ => &[word(10, 0), 7],
    };
    let mut items = item.repeat(missing / item.len());
    // Empty financing sets are single words.
    items.resize(missing, word(8, 0));
    with(book, first_item, &items)
}
