//! Which sets of a book are asked for.

use crate::generate::{sets_in, Random};

/// Longer books are asked for only a few of their sets.
pub const LONG: usize = 20_000;

/// So many of the first sets are all asked for, if the book is not too long.
const FIRST: usize = 8;

/// One in so many books is also asked for a set by an ordinal beyond all books.
const EXTREME: u32 = 4;

/// An ordinal that no book has a set for. Some would be those of sets if only their
/// lower bits were read.
fn extreme(sets: usize, random: &mut Random) -> usize {
    let low = random.index(sets + 1);
    let bit = |place: u32| 1usize.checked_shl(place).unwrap_or_default() | low;
    random.pick(&[
        usize::MAX,
        usize::MAX,
        usize::MAX - low,
        u32::MAX as usize,
        bit(32),
        bit(31),
        bit(usize::BITS - 1),
    ])
}

/// Of an accepted book: the first ones, some behind them, the last one, and the
/// first that has no set. They rise.
pub fn of_accepted(book: &[u32], random: &mut Random) -> Vec<usize> {
    let sets = sets_in(book);
    let mut ordinals = vec![sets.saturating_sub(1), sets];
    if sets > 0 {
        ordinals.extend([(); 2].map(|()| random.index(sets)));
    }
    if book.len() <= LONG {
        ordinals.extend(0..sets.min(FIRST));
    }
    if random.one_in(EXTREME) {
        ordinals.push(extreme(sets, random));
    }
    ordinals.sort_unstable();
    ordinals.dedup();
    ordinals
}

/// Of a refused book, whose sets nobody counts.
pub fn of_refused(random: &mut Random) -> Vec<usize> {
    let mut ordinals = vec![random.index(3)];
    if random.one_in(EXTREME) {
        ordinals.push(extreme(2, random));
    }
    ordinals
}
