//! Damage to the head: its word, its Tier 1 and its date.

use super::super::{word, Random};
use super::SIGN;
use crate::model::{FIRST_RECORD, LAST_DATE};

const TIER1: usize = 1;
const DATE: usize = 2;

pub fn damage(words: &mut Vec<u32>, random: &mut Random) {
    match random.below(5) {
        // Too few words for a head, or just a head.
        0 => words.truncate(random.index(FIRST_RECORD + 1)),
        1 => tier1(words, random),
        2 if !words.is_empty() => words[0] = word(random.below(16), 0),
        3 if !words.is_empty() => words[0] = word(1, random.pick(&[4_096, 4_097, 1 << 27])),
        _ => words.insert(0, random.word()),
    }
}

fn tier1(words: &mut [u32], random: &mut Random) {
    if let Some(tier1) = words.get_mut(TIER1) {
        *tier1 = random.pick(&[SIGN, word(2, 0), word(15, 1)]);
    }
}

pub fn protection_count(words: &mut [u32], random: &mut Random) {
    if let Some(first) = words.first_mut() {
        *first = first.wrapping_add(random.pick(&[1, u32::MAX]));
    }
}

/// A date that just is none, or just still is one.
pub fn date(words: &mut [u32], random: &mut Random) {
    let Some(date) = words.get_mut(DATE) else {
        return;
    };
    match random.below(6) {
        0 | 1 => *date |= word(random.between(1, 15), 0),
        2 => *date = SIGN,
        3 => *date |= SIGN,
        4 => *date = LAST_DATE + 1,
        _ => *date = random.pick(&[0, LAST_DATE, LAST_DATE + 2, 65_535, SIGN - 1]),
    }
    // A faulty Tier 1 comes before a faulty date.
    if random.one_in(5) {
        tier1(words, random);
    }
}
