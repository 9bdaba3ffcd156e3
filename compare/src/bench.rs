//! How long the library takes: on whole books beside two Rust implementations, to
//! show a set of a book, to count the settings of one, and for the weighted add-on
//! alone in three ways.

mod addons;
mod books;
mod items;
mod long;
mod sets;
mod settings;

use std::time::Instant;

const REPETITIONS: usize = 41;

pub fn run() {
    books::run();
    println!();
    sets::run();
    println!();
    settings::run();
    println!();
    addons::run();
}

/// The times of one implementation, in ns for a word or for an add-on.
#[derive(Default)]
struct Timing {
    times: Vec<f64>,
}

impl Timing {
    fn best(&self) -> f64 {
        self.times.iter().copied().fold(f64::INFINITY, f64::min)
    }

    /// How far the middle repetition lies above the best, in percent.
    fn noise(&self) -> f64 {
        100.0 * (middle(self.times.clone()) / self.best() - 1.0)
    }

    fn millions_per_second(&self) -> f64 {
        1_000.0 / self.best()
    }

    /// The middle of the ratios to another, repetition by repetition.
    fn ratio(&self, other: &Timing) -> f64 {
        let pairs = self.times.iter().zip(&other.times);
        middle(pairs.map(|(own, other)| own / other).collect())
    }
}

/// The time for a word of these books, in ns.
fn time(books: &[Vec<u32>], mut once: impl FnMut(&[u32])) -> f64 {
    let words: usize = books.iter().map(Vec::len).sum();
    let start = Instant::now();
    for book in books {
        once(book);
    }
    start.elapsed().as_nanos() as f64 / words as f64
}

fn middle(mut numbers: Vec<f64>) -> f64 {
    numbers.sort_by(f64::total_cmp);
    numbers[numbers.len() / 2]
}
