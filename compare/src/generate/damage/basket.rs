//! Damage to a basket, which begins at `start` and lies wholly in the book: to
//! its counts and grades, and to its place among credits and covers.

use super::super::{names, word, Random, LAST_GRADE, MOST_COUNTED, MOST_NAMES};
use super::SIGN;

/// The words of a basket before its grades.
const BEFORE_GRADES: usize = 3;

pub fn damage(words: &mut Vec<u32>, start: usize, random: &mut Random) {
    match random.below(8) {
        0 | 1 => count_of_names(words, start, random),
        2 => nth(&mut words[start], random),
        3 | 4 => grade(words, start, random),
        5 => missing_grade(words, start, random),
        _ => cover(words, start, random),
    }
}

/// No name or too many, with the grades that are there or with as many as that,
/// at times with the book cut off among them.
fn count_of_names(words: &mut Vec<u32>, start: usize, random: &mut Random) {
    let first = start + BEFORE_GRADES;
    let before = names(words[start]);
    let too_many = random.between(MOST_NAMES + 1, MOST_COUNTED);
    let after = random.pick(&[0, MOST_NAMES + 1, too_many, MOST_COUNTED]);
    words[start] ^= (before ^ after) << 6;
    if random.one_in(2) {
        let grades: Vec<u32> = (0..after).map(|_| random.below(LAST_GRADE + 1)).collect();
        words.splice(first..first + before as usize, grades);
    }
    if after > MOST_NAMES && random.one_in(4) {
        words.truncate(first + random.below(after) as usize);
    }
}

fn nth(first: &mut u32, random: &mut Random) {
    let beyond = names(*first) + 1;
    let too_large = random.between(MOST_NAMES + 1, MOST_COUNTED);
    let nth = random.pick(&[0, beyond, MOST_NAMES + 1, too_large, MOST_COUNTED]);
    *first = *first & !MOST_COUNTED | nth.min(MOST_COUNTED);
}

/// The worst grade that there is, or one that there is not.
fn grade(words: &mut [u32], start: usize, random: &mut Random) {
    let Some(last) = names(words[start]).checked_sub(1) else {
        return;
    };
    let any = random.below(last + 1);
    let index = random.pick(&[0, any, last]);
    let beyond = random.between(LAST_GRADE + 1, SIGN - 1);
    let grades = [LAST_GRADE, LAST_GRADE + 1, LAST_GRADE + 2, beyond, SIGN - 1];
    words[start + BEFORE_GRADES + index as usize] = random.pick(&grades);
}

/// One grade less than there are names, so that what follows stands in for it.
fn missing_grade(words: &mut Vec<u32>, start: usize, random: &mut Random) {
    match names(words[start]) {
        0 => {}
        names => {
            words.remove(start + BEFORE_GRADES + random.below(names) as usize);
        }
    }
}

/// A cover behind the basket; or the basket once more, before a cover or behind
/// it with the same cover once more.
fn cover(words: &mut Vec<u32>, start: usize, random: &mut Random) {
    let end = start + BEFORE_GRADES + names(words[start]) as usize;
    let whole_cover = |place: &usize| words[*place] >> 28 == 7 && place + 1 < words.len();
    let covers: Vec<usize> = (0..words.len()).filter(whole_cover).collect();
    if covers.is_empty() || random.one_in(3) {
        words.splice(end..end, [word(7, 0), 1]);
        return;
    }
    let place = random.pick(&covers);
    let mut inserted = words[start..end].to_vec();
    if random.one_in(2) {
        words.splice(place..place, inserted);
    } else {
        let behind = place + 2;
        inserted.extend_from_slice(&words[place..behind]);
        words.splice(behind..behind, inserted);
    }
}
