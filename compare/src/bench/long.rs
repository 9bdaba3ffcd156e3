//! Books of the greatest length, and a call about one of their sets beside a filing of
//! the same book, in turns.

use std::hint::black_box;
use std::slice;

use super::items::{
    any_trade, asset, book, fill, financing_trade, head, netted_set, off_balance, Item, BOOKS,
};
use super::{time, Timing, REPETITIONS};
use crate::generate::{sets_in, word, Random};
use crate::library;
use crate::model::{kinds, Entry, LONGEST_BOOK, ROWS};

/// Further books of one sort of items, as those of the other table are.
const FURTHER: [(&str, Item, Option<usize>); 5] = [
    ("assets, a commitment in 256 words", rare_commitment, None),
    (
        "assets, a commitment in 64 words",
        frequent_commitment,
        None,
    ),
    ("assets, a netted set in 256 words", rare_set, None),
    ("empty derivative sets", empty_derivative_set, None),
    ("empty financing sets", empty_financing_set, None),
];

/// Books that begin with a set and go on with its members or with assets.
const ONE_SET: [(&str, Item, Item); 4] = [
    ("one derivative set", empty_derivative_set, any_trade),
    (
        "one derivative set, equal trades",
        empty_derivative_set,
        equal_trade,
    ),
    ("one financing set", empty_financing_set, |words, random| {
        financing_trade(words, random, 2)
    }),
    ("one set, then assets", netted_set, asset),
];

/// Each of them in turn, with its name.
pub fn each_book(mut once: impl FnMut(&str, &Vec<u32>)) {
    for (name, item, words_per_protection) in BOOKS.into_iter().chain(FURTHER) {
        let mut random = Random::new(7);
        once(
            name,
            &book(LONGEST_BOOK, words_per_protection, item, &mut random),
        );
    }
    for (name, set, then) in ONE_SET {
        let mut random = Random::new(7);
        let mut words = head(0);
        set(&mut words, &mut random);
        once(name, &fill(words, LONGEST_BOOK, then, &mut random));
    }
}

/// The columns of a table of such calls, which has a name for what they do.
pub fn print_columns(done: &str) {
    println!(
        "| book | sets | ordinal | {done} over filed | {done}, ns | filed, ns | noise: {done}, filed |"
    );
    println!("|---|--:|--:|--:|--:|--:|---|");
}

/// A row: the call answers the number that is expected at this ordinal.
pub fn print_beside_filing(
    name: &str,
    book: &Vec<u32>,
    ordinal: usize,
    expected: u32,
    call: impl Fn(&[u32], usize, &mut [Entry]) -> u32,
) {
    let sets = sets_in(book);
    let protections = (book[0] & 0xFFFF) as usize;
    let mut register = vec![Entry::default(); protections];
    let mut rows = [0; ROWS];
    let book = slice::from_ref(book);

    let [mut called, mut filed] = [(); 2].map(|()| Timing::default());
    for _ in 0..REPETITIONS {
        called.times.push(time(book, |book| {
            let number = call(black_box(book), ordinal, &mut register);
            assert_eq!(number, expected, "{name}, set {ordinal}");
        }));
        filed.times.push(time(book, |book| {
            let answer = library::file(black_box(book), &mut rows, &mut register);
            assert_eq!(answer.number, 0, "{name} at {}", answer.place);
            black_box(&rows);
        }));
    }
    println!(
        "| {name} | {sets} | {ordinal} | {:.2} | {:.2} | {:.2} | {:.0}%, {:.0}% |",
        called.ratio(&filed),
        called.best(),
        filed.best(),
        called.noise(),
        filed.noise(),
    );
}

/// Assets, so that about this many words are filled, and another item: a block of
/// words that has neither assets alone nor many sets.
fn among_assets(words: &mut Vec<u32>, random: &mut Random, filled: usize, other: Item) {
    let end = words.len() + filled;
    other(words, random);
    while words.len() + 4 <= end {
        asset(words, random);
    }
}

fn rare_commitment(words: &mut Vec<u32>, random: &mut Random) {
    among_assets(words, random, 256, off_balance);
}

fn frequent_commitment(words: &mut Vec<u32>, random: &mut Random) {
    among_assets(words, random, 64, off_balance);
}

fn rare_set(words: &mut Vec<u32>, random: &mut Random) {
    among_assets(words, random, 256, netted_set);
}

/// Trades without a choice that a processor could guess wrong.
fn equal_trade(words: &mut Vec<u32>, _random: &mut Random) {
    words.extend([word(kinds::TRADE, 1 | 1 << 3), 30, 1_000, 365, 365]);
}

fn empty_derivative_set(words: &mut Vec<u32>, random: &mut Random) {
    words.push(word(kinds::DERIVATIVE_SET, random.below(64)));
    words.extend([(); 3].map(|()| random.below(1 << 20)));
}

/// Of a principal, so that any trade can be in it.
fn empty_financing_set(words: &mut Vec<u32>, random: &mut Random) {
    words.push(word(kinds::FINANCING_SET, random.below(2)));
}
