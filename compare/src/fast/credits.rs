//! Written credits of derivative sets, with their covers.

use super::derivatives::Tally;
use super::sums::Sums;
use super::{amounts, check, good_value, of_kind, run_end, signed, Fault, Outcome, SIGN};
use crate::model::Entry;

/// A run of written credits with their covers; returns where it ends. In a call
/// of its own it leaves the loop over trades the registers that it needs.
#[inline(never)]
pub fn written_credits(
    book: &[u32],
    from: usize,
    register: &mut [Entry],
    sums: &mut Sums,
) -> Outcome<(usize, Tally)> {
    let mut tally = Tally::default();
    let mut behind = &book[from..];
    let (mut written, mut covered) = (0, 0);
    while let Some((&credit, rest)) = behind.split_first_chunk() {
        if !good_credit(credit) {
            break;
        }
        behind = rest;
        let [word, value, notional, loss, days, premiums] = credit;
        let add_on = written_add_on(word, notional, premiums);
        tally.value(signed(value));
        tally.add_on += add_on;
        written += u64::from(notional - loss);
        if of_kind(rest, 0, 7).is_none() {
            tally.uncovered += add_on;
            continue;
        }
        let uncovered = covers(book, &mut behind, [word, notional, loss, days], register)?;
        tally.uncovered += left_out(add_on, uncovered, notional);
        covered += u64::from(notional - uncovered);
    }
    sums.written += written;
    sums.covered += covered;
    let end = book.len() - behind.len();
    run_end(book, end, 6, |word| credit_fault(book, end, word))?;
    Ok((end, tally))
}

/// None of the causes that a written credit can be faulty for, in few tests.
#[inline(always)]
fn good_credit([word, value, notional, loss, days, premiums]: [u32; 6]) -> bool {
    word >> 23 == 6 << 5
        && good_value(value)
        && (notional | loss | premiums) < SIGN
        && days <= 0xFFFF
        && loss <= notional
}

/// Why a written credit is not good.
#[cold]
fn credit_fault(book: &[u32], place: usize, word: u32) -> Outcome<()> {
    let &[value, notional, loss, days, premiums] = amounts(book, place)?;
    check(word & 0x0F80_0000 == 0, 7, place)?;
    let plain = value != SIGN && (notional | loss | premiums) < SIGN && days <= 0xFFFF;
    check(plain, 8, place)?;
    check(loss <= notional, 9, place)
}

/// Moves behind the covers of a written credit; returns what they leave of its
/// notional, the loss included. A quick test of all that a cover must be is slower
/// here than one check after the other.
#[inline(always)]
fn covers(
    book: &[u32],
    behind: &mut &[u32],
    [word, notional, loss, days]: [u32; 4],
    register: &mut [Entry],
) -> Outcome<u32> {
    let entity = word & 0xFFFF;
    let rank = word >> 16 & 0xF;
    let mut uncovered = notional;
    while let Some((&[cover, amount], rest)) = behind.split_first_chunk() {
        if cover >> 28 != 7 {
            return Ok(uncovered);
        }
        let place = book.len() - behind.len();
        check(amount >> 28 == 0, 6, place)?;
        check(cover & 0x0FFF_F000 == 0, 7, place)?;
        check((1..SIGN).contains(&amount), 8, place)?;
        let Some(entry) = register.get_mut((cover & 0xFFF) as usize) else {
            return Err(Fault { number: 11, place });
        };
        let fit = entry.entity == entity && entry.rank >= rank && entry.days >= days;
        check(fit, 12, place)?;
        let within = amount <= entry.left && amount + loss <= uncovered;
        check(within, 13, place)?;
        entry.left -= amount;
        uncovered -= amount;
        *behind = rest;
    }
    // One word is left at most, so that a cover has no amount.
    let without_amount = of_kind(behind, 0, 7).is_some();
    check(!without_amount, 6, book.len() - behind.len())?;
    Ok(uncovered)
}

/// The factor of the notional, which a qualifying reference halves. A default swap
/// has no more than its unpaid premiums, and these only with close-out.
#[inline(always)]
fn written_add_on(word: u32, notional: u32, premiums: u32) -> u64 {
    let mark = |place: u32| u64::from(word >> place & 1);
    let [qualifying, total_return, close_out] = [20, 21, 22].map(mark);
    let full = (100 - 50 * qualifying) * u64::from(notional);
    full.min(total_return * full + close_out * 1000 * u64::from(premiums))
}

/// The part of an add-on for what the covers leave of the notional. What they
/// keep in is rounded up, so this is rounded down.
///
/// Compilers for x86 divide 64 bits behind a branch on whether 32 are enough, and
/// that is as good as random where add-ons of 0 stand among others. With 2^32
/// notionals more to divide they never are. Add-ons are below 2^34 and notionals
/// below 2^27, so that nothing overflows.
#[inline(always)]
fn left_out(add_on: u64, uncovered: u32, notional: u32) -> u64 {
    const MORE: u64 = 1 << 32;
    let notional = u64::from(notional);
    (add_on * u64::from(uncovered) + MORE * notional) / notional - MORE
}
