//! Books that are changed around one of their sets.

use std::ops::Range;

use super::super::sets::{around_a_set, lengthened, put_off};
use super::super::{correct_count, word};
use super::{number, valid, Random};
use crate::model::{show, Entry};

/// Where the sets of a book stand, none where it is refused.
fn stretches(book: &[u32]) -> Vec<Range<usize>> {
    let mut register = vec![Entry::default(); 4_096];
    let shown = (0..).map(|ordinal| show(book, ordinal, &mut register));
    let sets = shown.take_while(|shown| shown.number == 0);
    let begins = sets.map(|set| (set.begin(book).unwrap(), set.stretch.len()));
    begins.map(|(begin, words)| begin..begin + words).collect()
}

/// An asset, a derivative set of one trade, and an agent's financing set of one that
/// settles late, behind one protection.
fn two_sets() -> Vec<u32> {
    let mut book = vec![word(1, 1), 1, 0, word(3, 5), 9, 0, 30];
    book.extend([word(2, 0), 1, 0, 0, word(4, 0), 0, 0, 0]);
    book.extend([word(5, 1 << 3), 1, 1, 1, 1]);
    book.extend([word(8, 2), word(9, 0), 0, 0, 0, 0, 1, 1, 60_000]);
    book.push(word(15, book.len() as u32));
    book
}

#[test]
fn sets_are_lengthened_to_the_word() {
    let book = two_sets();
    let [derivatives, financing] = [11..20, 20..29];
    assert_eq!(stretches(&book), [derivatives.clone(), financing.clone()]);
    for words in 30..1_100 {
        let mut longer = lengthened(&book, derivatives.clone(), words);
        correct_count(&mut longer);
        assert_eq!(number(&longer), 0, "{words}");
        let set = 11..11 + words;
        assert_eq!(stretches(&longer), [set.clone(), set.end..set.end + 9]);

        let mut longer = lengthened(&book, financing.clone(), words);
        correct_count(&mut longer);
        // A financing trade has eight words.
        let set = 20..21 + (words - 1) / 8 * 8;
        assert_eq!(stretches(&longer), [derivatives.clone(), set]);
    }
}

#[test]
fn sets_are_put_off_to_the_word() {
    let book = two_sets();
    let mut random = Random::new(31);
    for place in [11, 20] {
        for words in 30..1_100 {
            let mut other = put_off(&book, place, words, &mut random);
            correct_count(&mut other);
            let begins: Vec<usize> = stretches(&other).iter().map(|set| set.start).collect();
            // Items begin behind the head and the one protection.
            assert!(begins.contains(&(7 + words)), "{place} {words}");
        }
    }
    // What stands further behind already stays there.
    assert_eq!(put_off(&book, 20, 12, &mut random), book);
}

#[test]
fn changed_books_are_refused_by_their_covers_alone() {
    let mut random = Random::new(32);
    let mut doubled = [0; 2];
    for _ in 0..4_000 {
        let book = valid::book(&mut random).words;
        let sets = stretches(&book);
        if sets.is_empty() {
            continue;
        }
        let set = sets[random.index(sets.len())].clone();
        let other = around_a_set(&book, set.clone(), &mut random);
        assert!(other.len() >= book.len());
        let copied = other[set.end..].starts_with(&book[set.clone()]);
        match number(&other) {
            0 => doubled[0] += usize::from(copied && other.len() == book.len() + set.len()),
            13 => doubled[1] += usize::from(copied),
            number => panic!("refused {number}"),
        }
    }
    assert!(doubled.iter().all(|&count| count > 50), "{doubled:?}");
}
