//! Seeded books: valid ones, damaged ones, and the second ones of pairs, with
//! more marks, with further covers, with one amount corrected, with a set doubled,
//! lengthened or put off, or with Tier 1 where the marks of a set decide.

mod corrections;
mod covers;
mod damage;
mod dates;
mod marks;
mod random;
mod sets;
mod settings;
#[cfg(test)]
mod tests;
mod valid;

pub use corrections::{corrections, Amount, Correction};
pub use covers::further_covers;
pub use marks::more_marks;
pub use random::Random;
pub use sets::around_a_set;
pub use settings::{members, on_an_edge, stretch, values, OnAnEdge};

use crate::model::{kinds, FIRST_RECORD, LONGEST_BOOK};

pub const AMOUNT_LIMIT: u32 = 1 << 27;

/// A valid book together with where its records begin.
pub struct Book {
    pub words: Vec<u32>,
    pub records: Vec<Span>,
}

/// A record's first word and kind.
#[derive(Clone, Copy)]
pub struct Span {
    pub start: usize,
    pub kind: u32,
}

pub fn word(kind: u32, payload: u32) -> u32 {
    kind << 28 | payload
}

/// The most names that a basket may have, and the most that its word can count.
pub const MOST_NAMES: u32 = 32;
pub const MOST_COUNTED: u32 = 63;
/// The worst grade that qualifies, and the worst that there is.
pub const LAST_QUALIFYING_GRADE: u32 = 9;
pub const LAST_GRADE: u32 = 31;

/// The count of names that a basket's word has, whether it may or not.
pub fn names(word: u32) -> u32 {
    word >> 6 & MOST_COUNTED
}

/// A record's amounts by its word: by the kind, and for a basket by its count
/// of names.
pub fn amounts(word: u32) -> usize {
    match word >> 28 {
        7 | 10 => 1,
        1 => 2,
        2..=4 => 3,
        5 => 4,
        6 => 5,
        9 => 7,
        11 => 2 + names(word) as usize,
        _ => 0,
    }
}

/// How many sets begin in these words of an accepted book: no other word has the
/// kind of their heads.
pub fn sets_in(words: &[u32]) -> usize {
    let heads = |word: &&u32| matches!(**word >> 28, kinds::DERIVATIVE_SET | kinds::FINANCING_SET);
    words.iter().filter(heads).count()
}

/// The words of a protection.
const PROTECTION: usize = 4;

/// Where the protections of an accepted book have ended.
pub fn protections_end(book: &[u32]) -> usize {
    let protections = (book[0] & 0x0FFF_FFFF) as usize;
    FIRST_RECORD + PROTECTION * protections
}

/// Writes the count into the last word if that is an end word.
pub fn correct_count(words: &mut [u32]) {
    if let Some((last, before)) = words.split_last_mut() {
        if *last >> 28 == 15 {
            *last = word(15, before.len() as u32 & 0x0FFF_FFFF);
        }
    }
}

/// The next book of a sequence: half are valid, half are damaged.
pub fn book(random: &mut Random) -> Vec<u32> {
    if random.one_in(800) {
        return at_the_limit(random);
    }
    if random.one_in(40) {
        return noise(random);
    }
    if random.one_in(100) {
        return near_the_verdict(random);
    }
    let book = valid::book(random);
    if random.one_in(2) {
        book.words
    } else {
        damage::damaged(book, random)
    }
}

/// Books of the greatest length, or one to a few words beyond it.
fn at_the_limit(random: &mut Random) -> Vec<u32> {
    if random.one_in(5) {
        return full(random);
    }
    let mut words = valid::book(random).words;
    let beyond = random.below(6);
    words.resize(LONGEST_BOOK + beyond as usize, random.word());
    words
}

/// A book filled to the last word, or with one too many. Either it has assets
/// only, every other one fiduciary and deducted whole, or one netted set with
/// the largest add-ons there can be.
fn full(random: &mut Random) -> Vec<u32> {
    let largest = AMOUNT_LIMIT - 1;
    let mut words = vec![word(1, 0), 50, dates::date(random)];
    if random.one_in(2) {
        words.extend([word(4, 1), 0, 0, 0]);
        while words.len() + 6 <= LONGEST_BOOK {
            let sign = random.below(2) * AMOUNT_LIMIT;
            let value = sign | random.between(1, largest);
            words.extend([word(5, 4 | 255 << 3), value, largest, 65_535, 65_535]);
        }
    } else {
        while words.len() + 9 <= LONGEST_BOOK {
            words.extend([word(2, 0), largest, 1, 1]);
            words.extend([word(2, 1), largest, 0, largest]);
        }
    }
    // Empty financing sets are single words.
    words.resize(LONGEST_BOOK - 1, word(8, 0));
    if random.one_in(3) {
        words.push(word(8, 0));
    }
    words.push(word(15, words.len() as u32));
    words
}

/// Tier 1 of 3 for every 100 of exposure, or one unit to either side.
fn near_the_verdict(random: &mut Random) -> Vec<u32> {
    let hundreds = random.pick(&[1, 1, 7, 1_000_000]);
    let tier1 = 3 * hundreds + random.below(3) - 1;
    let exposure = 100 * hundreds + random.below(3) - 1;
    let negative = u32::from(random.one_in(4)) * AMOUNT_LIMIT;
    let mut words = vec![word(1, 0), tier1 | negative, dates::date(random)];
    words.extend([word(2, 0), exposure, 0, 0]);
    words.push(word(15, words.len() as u32));
    words
}

/// Words without a plan, behind a head that is mostly good.
fn noise(random: &mut Random) -> Vec<u32> {
    let mut words = Vec::new();
    if !random.one_in(4) {
        let tier1 = random.below(100);
        words.extend([word(1, random.below(3)), tier1, dates::date(random)]);
    }
    for _ in 0..random.below(12) {
        let kind = random.below(16);
        words.push(word(kind, random.below(4)));
        if random.one_in(2) {
            let amounts = random.below(8);
            words.extend((0..amounts).map(|_| random.below(4)));
        }
    }
    if random.one_in(2) {
        words.push(word(15, words.len() as u32));
    }
    words
}
