//! That further covers are covers and nothing else, and come just where they fit.

use super::super::{correct_count, further_covers, valid, word, Random};
use super::records;
use crate::model::{file, Entry, LONGEST_BOOK, ROWS};

/// The register as the filing of a book leaves it, which must be accepted.
fn filed(book: &[u32]) -> Vec<Entry> {
    let mut register = vec![Entry::default(); 4_096];
    assert_eq!(file(book, &mut [0; ROWS], &mut register).number, 0);
    register
}

#[test]
fn further_covers_are_covers_alone() {
    let mut random = Random::new(15);
    let mut pairs = 0;
    for _ in 0..10_000 {
        let book = valid::book(&mut random).words;
        let register = filed(&book);
        let Some(mut further) = further_covers(&book, &register, &mut random) else {
            continue;
        };
        pairs += 1;
        filed(&further.book);
        // What is left when the covers that were put in are gone is the book
        // before, but for the count of the end.
        let mut before = records(&book[..book.len() - 1]).into_iter().peekable();
        let end = further.book.pop();
        for record in records(&further.book) {
            if before.next_if_eq(&record).is_none() {
                assert_eq!(record[0] >> 28, 7);
                further.drawn[(record[0] & 0xFFF) as usize] -= record[1];
            }
        }
        assert_eq!(before.next(), None);
        assert_eq!(end, Some(word(15, further.book.len() as u32)));
        assert!(further.drawn.iter().all(|&units| units == 0));
    }
    assert!(pairs > 500, "{pairs}");
}

/// A written credit with a cover by a protection of entity 5, rank 2 and 400
/// days that has 30 available, or without one where that is 0.
fn credit(marks: u32, [notional, loss, days]: [u32; 3], cover: u32) -> Vec<u32> {
    let mut book = vec![word(1, 1), 0, 0, word(3, 5 | 2 << 16), 30, 0, 400];
    book.extend([word(4, 0), 0, 0, 0]);
    book.extend([word(6, marks), 0, notional, loss, days, 0]);
    if cover > 0 {
        book.extend([word(7, 0), cover]);
    }
    book
}

/// Whether any further cover fits, however often it is tried; with those that do
/// the book is accepted.
fn fits(mut book: Vec<u32>) -> bool {
    book.push(word(15, 0));
    correct_count(&mut book);
    let register = filed(&book);
    let mut random = Random::new(16);
    let mut tried = || {
        let further = further_covers(&book, &register, &mut random);
        further.map(|further| filed(&further.book)).is_some()
    };
    let first = tried();
    assert!((0..20).all(|_| tried() == first));
    first
}

#[test]
fn further_covers_come_where_they_fit() {
    let same = 5 | 2 << 16;
    for (marks, amounts, cover, expected) in [
        (same, [20, 0, 400], 0, true),
        (same, [20, 0, 400], 19, true),
        (same, [20, 0, 400], 20, false),
        (same, [20, 10, 400], 9, true),
        (same, [20, 10, 400], 10, false),
        (same, [20, 20, 400], 0, false),
        (same, [50, 0, 400], 29, true),
        (same, [50, 0, 400], 30, false),
        (same, [20, 0, 0], 0, true),
        (same, [20, 0, 401], 0, false),
        (5 | 1 << 16, [20, 0, 400], 0, true),
        (5 | 3 << 16, [20, 0, 400], 0, false),
        (6 | 2 << 16, [20, 0, 400], 0, false),
    ] {
        let book = credit(marks, amounts, cover);
        assert_eq!(fits(book), expected, "{marks:X} {amounts:?} {cover}");
    }
}

#[test]
fn further_covers_come_anywhere() {
    // Two credits, of which the first has a cover of 5.
    let same = 5 | 2 << 16;
    let mut book = credit(same, [20, 0, 400], 5);
    book.extend([word(6, same), 0, 20, 0, 400, 0, word(15, 0)]);
    correct_count(&mut book);
    let register = filed(&book);
    let mut random = Random::new(17);
    let mut came = [0; 7];
    for _ in 0..1_000 {
        let further = further_covers(&book, &register, &mut random).unwrap();
        let [first, second] = covers_of_two(&further.book);
        let seen = [
            first.len() == 1,
            second.is_empty(),
            first.len() > 1 && !second.is_empty(),
            first.len() == 4,
            first[0] != 5,
            first.last() != Some(&5),
            first.iter().sum::<u32>() == 20,
        ];
        for (count, seen) in came.iter_mut().zip(seen) {
            *count += u32::from(seen);
        }
    }
    assert!(came.iter().all(|&count| count > 10), "{came:?}");
}

/// The amounts of the covers of two credits.
fn covers_of_two(book: &[u32]) -> [Vec<u32>; 2] {
    let mut credits = 0;
    let mut covers = [Vec::new(), Vec::new()];
    for record in records(book) {
        match record[0] >> 28 {
            6 => credits += 1,
            7 => covers[credits - 1].push(record[1]),
            _ => {}
        }
    }
    covers
}

#[test]
fn further_covers_leave_a_book_within_its_length() {
    for (words, expected) in [(2, true), (1, false), (0, false)] {
        let mut book = credit(5, [20, 0, 0], 1);
        // Empty financing sets are single words, and the end is one more.
        book.resize(LONGEST_BOOK - words - 1, word(8, 0));
        assert_eq!(fits(book), expected);
    }
}
