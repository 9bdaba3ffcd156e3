//! Valid books with something wrong: blind damage to words, and damage aimed
//! at one cause of refusal so that each occurs often enough.

mod basket;
mod head;
mod record;

use super::{amounts, correct_count, word, Book, Random, AMOUNT_LIMIT};

/// The sign of an amount; alone it is minus zero.
const SIGN: u32 = AMOUNT_LIMIT;

const MEMBERS_AND_ITEMS: [u32; 10] = [2, 3, 4, 5, 6, 7, 8, 9, 10, 11];

pub fn damaged(mut book: Book, random: &mut Random) -> Vec<u32> {
    // Two faults in one book show which of them is named.
    let faults = random.pick(&[1, 1, 1, 2, 3]);
    for _ in 0..faults {
        match random.below(24) {
            0..=3 => blind(&mut book.words, random),
            4 => head::damage(&mut book.words, random),
            5 => head::protection_count(&mut book.words, random),
            6 => head::date(&mut book.words, random),
            7 => end(&mut book.words, random),
            8 => whole_record(&mut book, &MEMBERS_AND_ITEMS, random),
            9 | 10 => one_record(&mut book, &[9], random),
            11..=13 => one_record(&mut book, &[7], random),
            14..=17 => one_record(&mut book, &[11], random),
            18 => whole_record(&mut book, &[11], random),
            _ => one_record(&mut book, &MEMBERS_AND_ITEMS, random),
        }
    }
    // A right count behind the damage lets some of it pass, as it should.
    if random.one_in(2) {
        correct_count(&mut book.words);
    }
    book.words
}

fn blind(words: &mut Vec<u32>, random: &mut Random) {
    if words.is_empty() {
        words.push(random.word());
        return;
    }
    let place = random.index(words.len());
    match random.below(8) {
        0 | 1 => words[place] ^= 1 << random.below(32),
        2 => {
            words.remove(place);
        }
        3 => {
            let inserted = [
                0,
                random.below(100),
                word(random.below(16), 0),
                random.word(),
            ];
            words.insert(place, random.pick(&inserted));
        }
        4 => {
            let other = random.index(words.len());
            words.swap(place, other);
        }
        5 => words.swap(place.saturating_sub(1), place),
        6 => words.truncate(place),
        _ => words[place] = random.word(),
    }
}

fn end(words: &mut Vec<u32>, random: &mut Random) {
    match random.below(4) {
        0 => {
            words.pop();
        }
        1 => words.push(random.pick(&[0, word(2, 0), word(15, 0)])),
        2 => words.push(word(15, words.len() as u32)),
        _ => {
            if let Some(last) = words.last_mut() {
                *last = last.wrapping_add(random.pick(&[1, u32::MAX]));
            }
        }
    }
}

/// The amounts of what begins here, taken for a record of this kind; those of a
/// basket are counted by the word as it stands now.
fn amounts_at(words: &[u32], start: usize, kind: u32) -> usize {
    let payload = words.get(start).map_or(0, |word| word & 0x0FFF_FFFF);
    amounts(word(kind, payload))
}

/// Whether such a record lies wholly in the book.
fn fits(words: &[u32], start: usize, kind: u32) -> bool {
    start + amounts_at(words, start, kind) < words.len()
}

/// A record of one of the kinds, each kind as likely as the others, that
/// earlier damage has not cut off.
fn one_of(book: &Book, kinds: &[u32], random: &mut Random) -> Option<(usize, u32)> {
    let first = random.index(kinds.len());
    for &kind in kinds[first..].iter().chain(&kinds[..first]) {
        let starts: Vec<usize> = book
            .records
            .iter()
            .filter(|span| span.kind == kind)
            .map(|span| span.start)
            .filter(|&start| fits(&book.words, start, kind))
            .collect();
        if !starts.is_empty() {
            return Some((random.pick(&starts), kind));
        }
    }
    None
}

/// One to three faults in one record show in which order its causes go.
fn one_record(book: &mut Book, kinds: &[u32], random: &mut Random) {
    let Some((start, kind)) = one_of(book, kinds, random) else {
        return;
    };
    for _ in 0..random.pick(&[1, 1, 2, 3]) {
        if fits(&book.words, start, kind) {
            record::damage(&mut book.words, start, kind, random);
        }
    }
}

/// Leaves out, repeats or moves a whole record.
fn whole_record(book: &mut Book, kinds: &[u32], random: &mut Random) {
    let Some((start, kind)) = one_of(book, kinds, random) else {
        return;
    };
    let other = one_of(book, &MEMBERS_AND_ITEMS, random);
    let elsewhere = other.map_or(start, |(start, _)| start);
    let end = start + amounts_at(&book.words, start, kind) + 1;
    let record = book.words[start..end].to_vec();
    match random.below(3) {
        0 => {
            book.words.drain(start..end);
        }
        1 => {
            book.words.splice(elsewhere..elsewhere, record);
        }
        _ => {
            book.words.drain(start..end);
            let place = elsewhere.min(book.words.len());
            book.words.splice(place..place, record);
        }
    }
    if random.one_in(2) {
        correct_count(&mut book.words);
    }
}
