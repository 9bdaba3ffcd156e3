//! The library and two Rust implementations on the same books, in turns, in
//! one run: the model, which is plain Rust, and `fast`, which is tuned.

use std::hint::black_box;

use super::items::{book, BOOKS};
use super::{time, Timing, REPETITIONS};
use crate::filing::Filing;
use crate::generate::Random;
use crate::model::{Entry, ROWS};
use crate::{fast, library, model};

const SIZES: [usize; 3] = [1 << 10, 1 << 15, 1 << 20];
/// Words per measurement, in as many books as they make: all different, since
/// a processor learns a short book that is filed again and again by heart.
const WORDS_PER_MEASUREMENT: usize = 1 << 20;

const NOTES: &str = "\
Ratios are times of the library over times of Rust, in the middle of all
repetitions; the best times are in ns per word. Noise is how far the middle
lies above the best. Rows and register are not cleared between filings.
";

pub fn run() {
    println!("{NOTES}");
    println!("| book | words | of plain Rust | of tuned Rust | library, ns | plain, ns | tuned, ns | library, M words/s | summing, M words/s | noise: library, plain, tuned |");
    println!("|---|--:|--:|--:|--:|--:|--:|--:|--:|---|");
    for (name, item, words_per_protection) in BOOKS {
        for size in SIZES {
            let mut random = Random::new(7);
            let books: Vec<Vec<u32>> = (0..WORDS_PER_MEASUREMENT / size)
                .map(|_| book(size, words_per_protection, item, &mut random))
                .collect();
            measure(name, size, &books);
        }
    }
}

fn measure(name: &str, size: usize, books: &[Vec<u32>]) {
    let protections = (books[0][0] & 0xFFFF) as usize;
    let mut register = vec![Entry::default(); protections];
    let mut rows = [0; ROWS];
    let mut file = |book: &[u32], filing: Filing| {
        let answer = filing(black_box(book), &mut rows, &mut register);
        assert_eq!(answer.number, 0, "{name} at {}", answer.place);
        black_box(&rows);
    };
    let sum = |book: &[u32]| {
        let sum: u64 = black_box(book).iter().map(|&word| u64::from(word)).sum();
        black_box(sum);
    };

    let [mut library, mut plain, mut tuned, mut summing] = [(); 4].map(|()| Timing::default());
    for _ in 0..REPETITIONS {
        // In turns, so that a change in the machine's pace meets all of them.
        library
            .times
            .push(time(books, |book| file(book, library::file)));
        plain
            .times
            .push(time(books, |book| file(book, model::file)));
        tuned.times.push(time(books, |book| file(book, fast::file)));
        summing.times.push(time(books, sum));
    }
    println!(
        "| {name} | {} | {:.2} | {:.2} | {:.2} | {:.2} | {:.2} | {:.0} | {:.0} | {:.0}%, {:.0}%, {:.0}% |",
        size,
        library.ratio(&plain),
        library.ratio(&tuned),
        library.best(),
        plain.best(),
        tuned.best(),
        library.millions_per_second(),
        summing.millions_per_second(),
        library.noise(),
        plain.noise(),
        tuned.noise(),
    );
}
