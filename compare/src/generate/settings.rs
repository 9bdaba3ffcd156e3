//! The same book with Tier 1 at the edge of one setting of a derivative set's marks,
//! so that the settings lead to several verdicts; now and then with two equal sets,
//! or with one set alone and nothing in it that its marks cannot take out.

use std::ops::Range;

use super::corrections::{signed, word_of, LARGEST};
use super::{amounts, around_a_set, correct_count, protections_end, sets_in, word, Random};
use crate::model::{file, kinds, set_to, Entry, ROWS};

/// Amounts by their place behind the word of their record: of a set, of the records
/// with a notional, and of a written credit.
const RECEIVED: usize = 1;
const PAID: usize = 2;
const POSTED: usize = 3;
const NOTIONAL: usize = 2;
const LOSS: usize = 3;

/// The place of Tier 1 in a book.
const TIER_1: usize = 1;

/// Without netting, with it, and with margin; the same for an exempt client's leg.
/// The other settings weigh as one of these.
const WEIGHED_APART: [u32; 6] = [0, 0b1, 0b1_1111, 0b10_0000, 0b10_0001, 0b11_1111];

/// Qualifying, total return swap and close-out: without them a written credit has no
/// add-on.
const CREDIT_MARKS: u32 = 0b111 << 20;

/// Rows are in thousandths of the unit, and Tier 1 is enough from 3 for every 100 on.
const UNIT: u64 = 1_000;
const PART: u64 = 3;
const WHOLE: u64 = 100;

/// A book with the set that it was made for: where its head stands, and its ordinal.
pub struct OnAnEdge {
    pub book: Vec<u32>,
    pub head: usize,
    pub ordinal: usize,
}

/// Of an accepted book; none where it has no derivative set.
pub fn on_an_edge(book: &[u32], random: &mut Random) -> Option<OnAnEdge> {
    let mut head = derivative_set(book, random)?;
    let mut book = book.to_vec();
    if random.one_in(6) {
        book = around(book, head, random);
        head = derivative_set(&book, random)?;
    } else {
        if random.one_in(2) {
            (book, head) = alone(&book, head, random);
        }
        margin_received(&mut book, head, random);
    }
    tier_1(&mut book, head, random);
    let ordinal = sets_in(&book[..head]);
    Some(OnAnEdge {
        book,
        head,
        ordinal,
    })
}

/// Where the head of any derivative set of an accepted book stands.
fn derivative_set(book: &[u32], random: &mut Random) -> Option<usize> {
    let is_head = |place: &usize| book[*place] >> 28 == kinds::DERIVATIVE_SET;
    let heads: Vec<usize> = (0..book.len()).filter(is_head).collect();
    (!heads.is_empty()).then(|| random.pick(&heads))
}

/// Where the members of a derivative set begin.
pub fn members(book: &[u32], head: usize) -> Vec<usize> {
    let mut members = Vec::new();
    let mut place = behind(book, head);
    while matches!(
        book[place] >> 28,
        kinds::TRADE | kinds::WRITTEN_CREDIT | kinds::COVER | kinds::BASKET
    ) {
        members.push(place);
        place = behind(book, place);
    }
    members
}

/// The place behind the record that begins here.
fn behind(book: &[u32], place: usize) -> usize {
    place + 1 + amounts(book[place])
}

/// Where a derivative set stands, from its head to its last member.
pub fn stretch(book: &[u32], head: usize) -> Range<usize> {
    let last = members(book, head).last().copied().unwrap_or(head);
    head..behind(book, last)
}

/// The values of the members; covers have none.
pub fn values(book: &[u32], head: usize) -> impl Iterator<Item = i64> + '_ {
    let members = members(book, head).into_iter();
    let valued = members.filter(|&place| book[place] >> 28 != kinds::COVER);
    valued.map(|place| signed(book[place + 1]).into())
}

/// With a set doubled, lengthened or put off, if there is enough of the protections
/// for the covers of a copy.
fn around(book: Vec<u32>, head: usize, random: &mut Random) -> Vec<u32> {
    let changed = around_a_set(&book, stretch(&book, head), random);
    match filed(&changed) {
        Some(_) => changed,
        None => book,
    }
}

/// The set as the only item that weighs anything, with the place of its head.
fn alone(book: &[u32], head: usize, random: &mut Random) -> (Vec<u32>, usize) {
    let set = &book[stretch(book, head)];
    let mut words = book[..protections_end(book)].to_vec();
    if random.one_in(3) {
        words.push(word(kinds::FINANCING_SET, 0));
    }
    let head = words.len();
    words.extend(set);
    words.push(word(kinds::END, 0));
    nothing_stays(&mut words, head, random);
    correct_count(&mut words);
    (words, head)
}

/// Takes out of a set what stays with all marks: collateral, and what no cover takes
/// out of a written credit, as a loss. Mostly no margin is paid, which stays without
/// margin marks. Half of these sets have no add-on, so that nothing is left
/// where values net to 0 or margin takes all.
pub(super) fn nothing_stays(book: &mut [u32], head: usize, random: &mut Random) {
    book[head + POSTED] = 0;
    if !random.one_in(3) {
        book[head + PAID] = 0;
    }
    let no_add_ons = random.one_in(2);
    for place in members(book, head) {
        match book[place] >> 28 {
            kinds::WRITTEN_CREDIT => {
                let covers = book[behind(book, place)..].chunks(2);
                let covers = covers.take_while(|cover| cover[0] >> 28 == kinds::COVER);
                let covered: u32 = covers.map(|cover| cover[1]).sum();
                book[place + LOSS] = book[place + NOTIONAL] - covered;
                if no_add_ons {
                    book[place] &= !CREDIT_MARKS;
                }
            }
            kinds::TRADE | kinds::BASKET if no_add_ons => book[place + NOTIONAL] = 0,
            _ => {}
        }
    }
}

/// Mostly about as much margin as the net value, or far beyond it.
fn margin_received(book: &mut [u32], head: usize, random: &mut Random) {
    let net = values(book, head).sum::<i64>().max(0);
    let largest = i64::from(LARGEST);
    let received = match random.below(6) {
        0 => net,
        1 => net + 1,
        2 => net - 1,
        3 => largest,
        4 => net / 2,
        _ => return,
    };
    book[head + RECEIVED] = received.clamp(0, largest) as u32;
}

/// Tier 1 that is just enough in one of the settings, or one unit to either side.
/// Every other book, if it has no parts of a unit, is filled up so that just enough is
/// just 3 for every 100.
fn tier_1(book: &mut Vec<u32>, head: usize, random: &mut Random) {
    // Each exposure once, so that none is chosen for being that of several.
    let mut exposures = WEIGHED_APART
        .map(|marks| exposure_with(book, head, marks))
        .to_vec();
    exposures.retain(|&exposure| exposure > 0);
    exposures.sort_unstable();
    exposures.dedup();
    let mut exposure = match exposures.len() {
        0 => 0,
        _ => random.pick(&exposures),
    };
    if random.one_in(2) && exposure > 0 && exposure % UNIT == 0 {
        let units = exposure / UNIT;
        let missing = units.next_multiple_of(WHOLE) - units;
        with_asset(book, missing as u32);
        exposure += missing * UNIT;
    }
    let enough = (PART * exposure).div_ceil(WHOLE * UNIT);
    let largest = i64::from(LARGEST);
    let tier1 = enough.min(largest as u64) as i64 + random.pick(&[-1, 0, 0, 1]);
    let sign = if random.one_in(10) { -1 } else { 1 };
    book[TIER_1] = word_of((sign * tier1).clamp(-largest, largest) as i32);
}

/// With an asset behind all items, so that the sets stay where they are.
fn with_asset(book: &mut Vec<u32>, carrying: u32) {
    let end = book.len() - 1;
    book.splice(end..end, [word(kinds::ASSET, 0), carrying, 0, 0]);
    correct_count(book);
}

/// Row 21 with this setting of a set's marks; all settings are accepted alike.
pub(super) fn exposure_with(book: &[u32], head: usize, marks: u32) -> u64 {
    let mut other = book.to_vec();
    other[head] = set_to(book[head], marks);
    filed(&other).unwrap_or_default()
}

/// Row 21, if the book is accepted.
fn filed(book: &[u32]) -> Option<u64> {
    let mut rows = [0; ROWS];
    let mut register = vec![Entry::default(); (book[0] & 0x0FFF_FFFF) as usize];
    let answer = file(book, &mut rows, &mut register);
    (answer.number == 0).then(|| rows[20].unsigned_abs())
}
