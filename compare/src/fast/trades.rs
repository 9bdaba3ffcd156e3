//! Trades of derivative sets.

use super::bands::Bands;
use super::derivatives::Tally;
use super::{amounts, check, good_value, run_end, signed, Outcome, SIGN};

/// Add-on factors by class and band, and eight places later the same with a
/// qualifying reference, which only bought credit has. The fourth band is none: it
/// makes a row four bytes long.
const ADD_ON: [[u8; 4]; 16] = [
    [0, 5, 15, 0],
    [10, 50, 75, 0],
    [60, 80, 100, 0],
    [70, 70, 80, 0],
    [100, 120, 150, 0],
    [100, 100, 100, 0],
    [0; 4],
    [0; 4],
    [0; 4],
    [0; 4],
    [0; 4],
    [0; 4],
    [0; 4],
    [50, 50, 50, 0],
    [0; 4],
    [0; 4],
];

/// The most payments of a trade, in the same order: 0 where there is no such class,
/// or it has no qualifying reference.
const MOST_PAYMENTS: [u8; 16] = [255, 255, 255, 255, 255, 1, 255, 0, 0, 0, 0, 0, 0, 1, 0, 0];

/// What a rates trade of more than a year has in the first band, whose figure is 0:
/// only a reset can have chosen that for it.
const FLOOR: u32 = 5;

/// A run of trades; returns where it ends.
#[inline(always)]
pub fn trades(book: &[u32], from: usize, bands: Bands, tally: &mut Tally) -> Outcome<usize> {
    let mut behind = &book[from..];
    let (mut total, mut positive, mut add_on) = (0, 0, 0);
    while let Some((&trade, rest)) = behind.split_first_chunk() {
        if !good_trade(trade) {
            break;
        }
        behind = rest;
        let [word, value, notional, days, reset] = trade;
        let value = signed(value);
        total += value;
        positive += value.max(0) as u64;
        let factor = u64::from(factor(word, days, reset, bands));
        add_on += factor * u64::from(payments(word)) * u64::from(notional);
    }
    tally.value += total;
    tally.positive += positive;
    tally.add_on += add_on;
    let end = book.len() - behind.len();
    run_end(book, end, 5, |word| trade_fault(book, end, word))
}

/// The class of a trade, and eight places later that with a qualifying reference.
#[inline(always)]
fn class(word: u32) -> usize {
    (word & 7 | word >> 9 & 8) as usize
}

#[inline(always)]
fn payments(word: u32) -> u32 {
    word >> 3 & 0xFF
}

/// None of the causes that a trade can be faulty for, in few tests.
#[inline(always)]
fn good_trade([word, value, notional, days, reset]: [u32; 5]) -> bool {
    let most = u32::from(MOST_PAYMENTS[class(word)]);
    // The reset days may be fewer than the days where there is a reset at all.
    let most_apart = (word >> 11 & 1) * 0xFFFF;
    word >> 13 == 5 << 15
        && payments(word).wrapping_sub(1) < most
        && good_value(value)
        && notional < SIGN
        && (days | reset) <= 0xFFFF
        && days.wrapping_sub(reset) <= most_apart
}

/// Per thousand. The reset days choose the band; without a reset they are the days.
#[inline(always)]
fn factor(word: u32, days: u32, reset: u32, bands: Bands) -> u32 {
    let above_one = u32::from(reset > bands.one_year);
    let above_five = u32::from(reset > bands.five_years);
    let is_rates = u32::from(word & 7 == 0);
    let floor = FLOOR * is_rates * u32::from(days > bands.one_year) * (1 - above_one);
    let figure = ADD_ON[class(word)][(above_one + above_five) as usize];
    u32::from(figure) + floor
}

/// Why a trade is not good.
#[cold]
fn trade_fault(book: &[u32], place: usize, word: u32) -> Outcome<()> {
    let &[value, notional, days, reset] = amounts(book, place)?;
    let most = u32::from(MOST_PAYMENTS[class(word)]);
    let good_payments = (1..=most).contains(&payments(word));
    check(good_payments && word & 0x0FFF_E000 == 0, 7, place)?;
    let plain = value != SIGN && notional < SIGN && (days | reset) <= 0xFFFF;
    check(plain, 8, place)?;
    let resets = word & 1 << 11 != 0;
    check(reset == days || resets && reset < days, 9, place)
}
