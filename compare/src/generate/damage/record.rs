//! Damage to one record, which begins at `start` and lies wholly in the book.

use super::super::{word, Random};
use super::{amounts_at, basket, SIGN};
use crate::model::FIRST_RECORD;

pub fn damage(words: &mut Vec<u32>, start: usize, kind: u32, random: &mut Random) {
    match random.below(8) {
        0 if random.one_in(2) => {
            let payload = words[start] & 0x0FFF_FFFF;
            words[start] = word(random.below(16), payload);
        }
        0 => amount_kind(words, start, kind, random),
        1 | 2 => payload(&mut words[start], kind, random),
        3 => single_amount(words, start, kind, random),
        _ => match kind {
            7 => cover(words, start, random),
            11 => basket::damage(words, start, random),
            9 if random.one_in(2) => falling_days(words, start, random),
            2 | 3 | 5 | 6 | 9 => relation(words, start, kind, random),
            _ => single_amount(words, start, kind, random),
        },
    }
}

fn amount_kind(words: &mut Vec<u32>, start: usize, kind: u32, random: &mut Random) {
    match amounts_at(words, start, kind) {
        0 => {}
        count if random.one_in(3) => words.truncate(start + 1 + random.index(count)),
        count => {
            let place = start + 1 + random.index(count);
            words[place] |= word(random.between(1, 15), 0);
        }
    }
}

fn payload(first: &mut u32, kind: u32, random: &mut Random) {
    // The bits that have a meaning end here; the one above is the nearest miss.
    let meaning = match kind {
        2 | 9 => 1,
        3 => 20,
        4 => 6,
        5 => 13,
        6 => 23,
        7 | 11 => 12,
        8 => 3,
        _ => 8,
    };
    match (random.below(4), kind) {
        (0, 5) => *first = *first & !7 | random.between(5, 7),
        (1, 5) => *first = *first & !0x7F8 | random.pick(&[0, 1, 2, 255]) << 3,
        (2, 5) => *first = *first & !0x7FF | 5 | random.pick(&[0, 1, 2, 255]) << 3,
        (0, 8) => *first = word(8, random.pick(&[4, 5])),
        (0, 10) => *first = *first & !0xF | random.between(10, 11),
        (1, 10) => *first = *first & !0xF0 | random.between(11, 12) << 4,
        (2, _) => *first |= 1 << meaning,
        (3, 5) => *first |= 1 << random.between(11, 13),
        (3, 11) => *first |= 1 << random.between(12, 27),
        _ => *first ^= 1 << random.below(28),
    }
}

fn single_amount(words: &mut [u32], start: usize, kind: u32, random: &mut Random) {
    let amounts = amounts_at(words, start, kind);
    if amounts == 0 {
        return;
    }
    // Only a value may be negative, so what it may be is tried more often.
    let place = match kind {
        5 | 6 if random.one_in(3) => start + 1,
        // Grades are many, so value and notional are tried more often.
        11 if !random.one_in(3) => start + 1 + random.index(2),
        _ => start + 1 + random.index(amounts),
    };
    let minus_zero = SIGN;
    let edges = [0, 65_535, 65_536, SIGN - 1, SIGN | 1, SIGN | (SIGN - 1)];
    words[place] = if random.one_in(3) {
        minus_zero
    } else {
        random.pick(&edges)
    };
}

/// Pushes one amount just to a limit set by the others, or just past it.
fn relation(words: &mut [u32], start: usize, kind: u32, random: &mut Random) {
    let past = u32::from(!random.one_in(4));
    let agent = words[..start]
        .iter()
        .rfind(|&&before| before >> 28 == 8)
        .is_some_and(|head| head & 2 != 0);
    let words = &mut words[start..];
    let rest = |whole: u32, part: u32| whole.saturating_sub(part);
    let (place, limit) = match kind {
        2 if random.one_in(2) => (3, rest(words[1], words[2])),
        2 => (2, rest(words[1], words[3])),
        3 => (2, words[1]),
        5 if random.one_in(2) => {
            words[4] = rest(words[3], past);
            return;
        }
        5 => (4, words[3]),
        6 => (3, words[2]),
        _ if agent => (1 + random.index(4), 0),
        _ if random.one_in(2) => (2, rest(words[1], words[3])),
        _ => (3, rest(words[1], words[2])),
    };
    words[place] = limit.wrapping_add(past);
}

/// Days that fall by one or two, or stay, from one trade of a set to the next.
fn falling_days(words: &mut [u32], start: usize, random: &mut Random) {
    let trade_at = |place: usize| words.get(place).is_some_and(|word| word >> 28 == 9);
    let second = if start >= 8 && trade_at(start - 8) {
        start
    } else if trade_at(start + 8) && start + 15 < words.len() {
        start + 8
    } else {
        return;
    };
    let (before, own) = (second - 1, second + 7);
    if words[before] == 0 {
        words[before] = 1;
    }
    words[own] = words[before].wrapping_sub(random.below(3));
}

/// A cover of what it may not cover, or of just what it still may.
fn cover(words: &mut [u32], start: usize, random: &mut Random) {
    let protections = words[0] & 0xFFF;
    let Some(credit) = words[..start].iter().rposition(|word| word >> 28 == 6) else {
        return;
    };
    let named = FIRST_RECORD + 4 * (words[start] & 0xFFF) as usize;
    if credit + 5 >= start || named + 3 >= credit {
        return;
    }
    let beyond = random.below(2);
    match random.below(10) {
        0 => words[start] = word(7, protections),
        1 => words[start] = word(7, random.below(protections + 1)),
        2 => words[start + 1] = 0,
        3 => words[start + 1] = words[start + 1].wrapping_add(1),
        // All that earlier covers leave of the protection, or one more.
        4 => {
            let earlier = covers(words, 0, start, |cover| cover == words[start]);
            let available = words[named + 1].saturating_sub(words[named + 2]);
            words[start + 1] = available.saturating_sub(earlier).saturating_add(beyond);
            words[credit + 2] = SIGN - 1;
        }
        // All that earlier covers leave of the credit, or one more.
        5 => {
            let earlier = covers(words, credit, start, |_| true);
            let whole = words[credit + 2].saturating_sub(words[credit + 3]);
            words[start + 1] = whole.saturating_sub(earlier).saturating_add(beyond);
            words[named + 1] = SIGN - 1;
        }
        // As long as the protection, or a day longer.
        6 => words[credit + 4] = words[named + 3].saturating_add(beyond),
        // Of the protection's rank, or one more junior.
        7 => {
            let rank = (words[named] >> 16 & 0xF) + beyond;
            words[credit] = words[credit] & !0xF_0000 | rank.min(15) << 16;
        }
        // Room in both, so that only the fit can be wrong.
        8 => {
            words[named + 1] = SIGN - 1;
            words[credit + 2] = SIGN - 1;
            words[credit] ^= 1 << random.below(20);
        }
        _ => words[credit] ^= 1 << random.below(20),
    }
}

/// The sum of the covers in a stretch of the book that are of this sort.
fn covers(words: &[u32], from: usize, to: usize, sort: impl Fn(u32) -> bool) -> u32 {
    let stretch = &words[from..=to];
    let pairs = stretch.windows(2);
    pairs
        .filter(|pair| pair[0] >> 28 == 7 && sort(pair[0]))
        .take_while(|pair| pair[1] >> 28 == 0)
        .fold(0, |sum, pair| sum.saturating_add(pair[1]))
}
