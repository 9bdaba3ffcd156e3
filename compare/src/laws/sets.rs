//! What holds of every call that shows a set, and of several that show sets of the
//! same book. All of it follows from the request and from what kinds the words of
//! an accepted book have.

#[cfg(test)]
mod tests;

use std::ptr;

use super::ensure;
use crate::filing::{same_entries, NO_SUCH_SET};
use crate::generate::{protections_end, sets_in};
use crate::model::{kinds, Answer, Entry, Shown};

pub(super) const ACCEPTED: u32 = 0;

/// Number and place of a call about a set, and the register that it leaves, beside a
/// filing of the same book in a register of the same length and the same earlier
/// contents, which is lent rows enough.
pub(super) fn beside_a_filing(
    answer: (u32, usize),
    register: &[Entry],
    filed: &Answer,
    register_filed: &[Entry],
) -> Result<(), String> {
    match filed.number {
        ACCEPTED => {
            let allowed = [(ACCEPTED, 0), (NO_SUCH_SET, 0)];
            ensure(allowed.contains(&answer), "another refusal than 15 at 0")?;
        }
        number => {
            let own = (number, filed.place);
            ensure(answer == own, "not the book's own number and place")?;
        }
    }
    let same = same_entries(register, register_filed);
    ensure(same, "the register is not as a filing leaves it")
}

/// A call that shows a set, beside a filing.
pub fn shown(
    book: &[u32],
    shown: &Shown,
    register: &[Entry],
    filed: &Answer,
    register_filed: &[Entry],
) -> Result<(), String> {
    let answer = (shown.number, shown.place);
    beside_a_filing(answer, register, filed, register_filed)?;
    let empty = ptr::eq(shown.stretch, &book[..0]);
    ensure(
        empty || shown.number == ACCEPTED,
        "a refusal has no empty stretch at the first word",
    )
}

fn is_head(word: u32) -> bool {
    matches!(word >> 28, kinds::DERIVATIVE_SET | kinds::FINANCING_SET)
}

/// Words that only ever stand in a set.
fn is_member(word: u32) -> bool {
    matches!(
        word >> 28,
        kinds::TRADE
            | kinds::WRITTEN_CREDIT
            | kinds::COVER
            | kinds::BASKET
            | kinds::FINANCING_TRADE
    )
}

fn is_amount(word: u32) -> bool {
    word >> 28 == kinds::AMOUNT
}

/// Answers of one accepted book, by rising ordinals: the stretches stand in this
/// order and apart, each is one whole set, and between them are just those sets
/// that were not asked for.
pub fn sets(book: &[u32], shown: &[(usize, Shown)]) -> Result<(), String> {
    // Where the words begin that are not accounted for, and the next set in them.
    let mut place = protections_end(book);
    let mut next = 0;
    for (ordinal, shown) in shown {
        let not_asked_for = ordinal - next;
        if shown.number == NO_SUCH_SET {
            let sets = sets_in(&book[place..]);
            ensure(sets <= not_asked_for, "15 for a set that is there")?;
            passed_over(&book[place..], sets)?;
            continue;
        }
        let begin = shown.begin(book).ok_or("a stretch beside the book")?;
        ensure(begin >= place, "not behind the sets before it")?;
        passed_over(&book[place..begin], not_asked_for)?;
        place = begin + shown.stretch.len();
        one_set(shown.stretch, book.get(place).copied())?;
        next = ordinal + 1;
    }
    Ok(())
}

/// Words with so many sets in them.
fn passed_over(words: &[u32], sets: usize) -> Result<(), String> {
    ensure(sets_in(words) == sets, "another count of sets before it")?;
    let member = sets == 0 && words.iter().any(|&word| is_member(word));
    ensure(!member, "a member outside of the stretches")
}

/// A head with members of its sort; what is behind begins another item or ends the
/// book.
fn one_set(stretch: &[u32], behind: Option<u32>) -> Result<(), String> {
    let [head, members @ ..] = stretch else {
        return Err("an empty stretch for a set".to_string());
    };
    ensure(is_head(*head), "a stretch that begins with no set")?;
    let financing = head >> 28 == kinds::FINANCING_SET;
    let own = |&word: &u32| {
        let of_financing = word >> 28 == kinds::FINANCING_TRADE;
        is_amount(word) || is_member(word) && of_financing == financing
    };
    ensure(members.iter().all(own), "a stretch beyond its set")?;
    let whole = behind.is_some_and(|word| !is_amount(word) && !is_member(word));
    ensure(whole, "a stretch that ends within its set")
}
