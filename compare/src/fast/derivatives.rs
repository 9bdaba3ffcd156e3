//! Derivative sets: their members in turn, and what they come to.

use super::bands::Bands;
use super::baskets::{basket, names};
use super::credits::written_credits;
use super::sums::Sums;
use super::trades::trades;
use super::{amounts, check, Outcome, SIGN};
use crate::model::Entry;

/// Values in units, add-ons in thousandths.
#[derive(Default)]
pub struct Tally {
    pub value: i64,
    pub positive: u64,
    pub add_on: u64,
    pub uncovered: u64,
}

impl Tally {
    #[inline(always)]
    pub fn value(&mut self, value: i64) {
        self.value += value;
        self.positive += value.max(0) as u64;
    }

    #[inline(always)]
    fn join(&mut self, run: &Tally) {
        self.value += run.value;
        self.positive += run.positive;
        self.add_on += run.add_on;
        self.uncovered += run.uncovered;
    }
}

pub fn derivative_set(
    book: &[u32],
    head: usize,
    marks: u32,
    bands: Bands,
    register: &mut [Entry],
    sums: &mut Sums,
) -> Outcome<usize> {
    let &[received, paid, posted] = amounts(book, head)?;
    check(marks & 0x0FFF_FFC0 == 0, 7, head)?;
    check((received | paid | posted) < SIGN, 8, head)?;

    let mut place = head + 4;
    let mut tally = Tally::default();
    while let Some(&word) = book.get(place) {
        match word >> 28 {
            5 => place = trades(book, place, bands, &mut tally)?,
            6 => {
                let (next, run) = written_credits(book, place, register, sums)?;
                tally.join(&run);
                place = next;
            }
            11 => {
                let (value, add_on) = basket(book, place, word)?;
                tally.value(value);
                tally.add_on += add_on;
                place += 3 + names(word);
            }
            _ => break,
        }
    }
    sums.margin_paid += u64::from(paid);
    sums.posted += u64::from(posted);
    weigh(&tally, marks, received, paid, sums);
    Ok(place)
}

/// Adds what a set comes to. Marks are as good as random in a book, so that numbers
/// are multiplied by them; asked is only whether netting takes anything off.
#[inline(always)]
fn weigh(tally: &Tally, marks: u32, received: u32, paid: u32, sums: &mut Sums) {
    let netting = u64::from(marks & 1);
    let margin_counts = u64::from(marks & 0x1F == 0x1F);
    let exempt = u64::from(marks >> 5 & 1);
    let net = tally.value.max(0) as u64;
    // What netting takes off the positive values. Margin counts with netting alone.
    let netted = netting * (tally.positive - net);
    let replacement = (tally.positive - netted).saturating_sub(margin_counts * u64::from(received));
    let add_on = weighted(tally.add_on, tally.positive, netted);
    let kept = match tally.uncovered {
        0 => add_on,
        uncovered => weighted(tally.add_on - uncovered, tally.positive, netted),
    };
    sums.replacement += replacement;
    sums.add_on += add_on;
    sums.released += add_on - kept;
    sums.margin_counted += margin_counts * u64::from(paid);
    sums.exempted += exempt * (1000 * replacement + kept);
}

/// A gross add-on times (2G + 3N) / 5G, rounded up, or all of it where netting takes
/// nothing off G. Where N is 0 it is two fifths, but half of all sets are so: to ask
/// for that costs more than the division.
#[inline(always)]
fn weighted(add_on: u64, positive: u64, netted: u64) -> u64 {
    if netted == 0 {
        return add_on;
    }
    let whole = 5 * positive;
    let parts = whole - 3 * netted;
    match add_on.checked_mul(parts) {
        Some(product) => product.div_ceil(whole),
        None => (u128::from(add_on) * u128::from(parts)).div_ceil(u128::from(whole)) as u64,
    }
}
