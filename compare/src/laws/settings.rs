//! What holds of every call that counts the settings of a set, and of two such calls
//! for books that differ in marks. It follows from the request, from what kinds the
//! words of an accepted book have, and from the two-desk result.

#[cfg(test)]
mod tests;

use super::ensure;
use super::sets::{beside_a_filing, ACCEPTED};
use crate::model::{kinds, Answer, Counted, Entry, SETTINGS, VERDICTS};

/// All that the settings of a set can come to, by verdict. Those that are alike stay
/// together: 16 without netting, 15 with it, one with margin, and with an exempt leg,
/// of which only margin paid is left, 31 without margin and one with it. No mark more
/// raises the exposure, so that those with fewer marks are too little first, and those
/// with more marks are without exposure first.
pub const ALL_COUNTS: [[u32; VERDICTS]; 27] = [
    [64, 0, 0],
    [48, 16, 0],
    [33, 31, 0],
    [32, 32, 0],
    [2, 62, 0],
    [1, 63, 0],
    [0, 64, 0],
    // Margin is paid, and nothing is left where there are all marks.
    [63, 0, 1],
    [47, 16, 1],
    [32, 31, 1],
    [31, 32, 1],
    [1, 62, 1],
    [0, 63, 1],
    // Nor with margin and no exempt leg.
    [62, 0, 2],
    [46, 16, 2],
    [31, 31, 2],
    [0, 62, 2],
    // None is paid, and nothing is left of an exempt leg.
    [32, 0, 32],
    [16, 16, 32],
    [1, 31, 32],
    [0, 32, 32],
    // Nor with margin.
    [31, 0, 33],
    [15, 16, 33],
    [0, 31, 33],
    // Nor with netting.
    [16, 0, 48],
    [0, 16, 48],
    // Nor otherwise.
    [0, 0, 64],
];

/// A call that counts the settings of a set, beside a filing of the same book in a
/// register of the same length and the same earlier contents, which is lent rows
/// enough.
pub fn counted(
    book: &[u32],
    ordinal: usize,
    counted: &Counted,
    register: &[Entry],
    filed: &Answer,
    register_filed: &[Entry],
) -> Result<(), String> {
    let answer = (counted.number, counted.place);
    beside_a_filing(answer, register, filed, register_filed)?;
    if filed.number == ACCEPTED {
        let derivatives = is_derivative_set(book, ordinal);
        let [missed, other] = ["15 for a derivative set", "counts for no derivative set"];
        let accepted = counted.number == ACCEPTED;
        ensure(accepted || !derivatives, missed)?;
        ensure(derivatives || !accepted, other)?;
    }
    counts(counted, filed)
}

/// By kinds: only the heads of sets have theirs in an accepted book.
fn is_derivative_set(book: &[u32], ordinal: usize) -> bool {
    let is_head = |kind: &u32| matches!(*kind, kinds::DERIVATIVE_SET | kinds::FINANCING_SET);
    let mut heads = book.iter().map(|word| word >> 28).filter(is_head);
    heads.nth(ordinal) == Some(kinds::DERIVATIVE_SET)
}

fn counts(counted: &Counted, filed: &Answer) -> Result<(), String> {
    let counts = counted.counts;
    if counted.number != ACCEPTED {
        return ensure(counts == [0; VERDICTS], "a refusal with counts");
    }
    // Wide enough for any counts, right or wrong.
    let sum: u64 = counts.into_iter().map(u64::from).sum();
    ensure(sum == SETTINGS as u64, "counts that do not sum to 64")?;
    let own = counts[filed.verdict as usize];
    ensure(own > 0, "no setting with the filed verdict")?;
    ensure(ALL_COUNTS.contains(&counts), "counts that no set comes to")
}

/// Answers for a book and for the same with more marks, whatever words these are in:
/// no fewer settings are enough or leave no exposure.
pub fn counted_with_more_marks(first: &Counted, second: &Counted) -> Result<(), String> {
    let [ours, theirs] = [first, second].map(|counted| (counted.number, counted.place));
    ensure(ours == theirs, "another number or place")?;
    let [_, few_too_little, few_empty] = first.counts;
    let [_, too_little, empty] = second.counts;
    ensure(too_little <= few_too_little, "more settings too little")?;
    ensure(empty >= few_empty, "fewer settings without exposure")
}

/// Answers for a book and for the same with another setting of that very set.
pub fn counted_with_other_marks(first: &Counted, second: &Counted) -> Result<(), String> {
    ensure(first == second, "another answer by the set's own marks")
}
