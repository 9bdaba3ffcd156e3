//! That the books are what they are meant to be, and reach what they should.

mod corrections;
mod covers;
mod sets;
mod settings;

use std::collections::BTreeMap;

use super::{amounts, book, more_marks, valid, Random};
use crate::filing::NUMBERS;
use crate::model::{file, Entry, ROWS};
use crate::reached::Reached;

fn number(words: &[u32]) -> u32 {
    let mut register = vec![Entry::default(); 4_096];
    file(words, &mut [0; ROWS], &mut register).number
}

fn records(mut book: &[u32]) -> Vec<&[u32]> {
    let mut records = Vec::new();
    while let [first, ..] = book {
        let (record, behind) = book.split_at(1 + amounts(*first));
        records.push(record);
        book = behind;
    }
    records
}

#[test]
fn valid_books_are_accepted_and_use_everything() {
    let mut random = Random::new(11);
    let mut reached = Reached::in_accepted();
    for _ in 0..40_000 {
        let book = valid::book(&mut random);
        assert_eq!(number(&book.words), 0);
        reached.accepted(&book.words);
    }
    assert_eq!(reached.complete(), Ok(()));
}

#[test]
fn every_number_is_reached() {
    let mut random = Random::new(13);
    let mut numbers = BTreeMap::new();
    for _ in 0..20_000 {
        *numbers.entry(number(&book(&mut random))).or_insert(0) += 1;
    }
    // Numbers 1 and 4 come from short buffers, which these are not.
    let reached = |number| matches!(number, 1 | 4) || numbers.get(&number) >= Some(&5);
    assert!(NUMBERS.into_iter().all(reached), "{numbers:?}");
}

#[test]
fn more_marks_are_marks_by_kind() {
    let mut random = Random::new(14);
    for kind in 0..16 {
        let marks = match kind {
            2 | 8 | 9 => 1,
            4 => 63,
            _ => 0,
        };
        let words = vec![kind << 28; 500];
        let second = more_marks(&words, &mut random);
        let set = second.iter().fold(0, |all, word| all | word);
        assert_eq!(set, kind << 28 | marks);
    }
}
