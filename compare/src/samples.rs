//! The books that the test program `leverage_samples` files, and the lines
//! that it is to write.

use std::fs;
use std::path::Path;

use crate::filing::Counts;
use crate::generate::{
    self, word, Random, AMOUNT_LIMIT, LAST_GRADE, LAST_QUALIFYING_GRADE, MOST_COUNTED, MOST_NAMES,
};
use crate::model::{self, Answer, Entry, FIRST_RECORD, LAST_DATE, LONGEST_BOOK, ROWS};
use crate::text;

/// The date of the paper's samples, 1 March 2096: one year and five years from
/// it have 365 and 1,825 days.
pub const SAMPLE_DATE: u32 = 35_124;

/// The register of a filing that is lent none.
const ENTRIES: usize = 1_024;
/// The rows that the program lends in part or whole, and what is in them first.
const LENT: usize = 24;
const DIRT: i64 = -1;
/// Generated books that are longer would only make the file large.
const LONG: usize = 1_000;

/// What the paper says of its samples that are not starred: number, place,
/// verdict, row 21 and row 22.
const PAPER: [(&str, [i64; 5]); 3] = [
    (
        include_str!("../books/printed.txt"),
        [0, 0, 0, 970_000, 515],
    ),
    (
        include_str!("../books/cover_equal.txt"),
        [0, 0, 0, 15_000, 6_666],
    ),
    (
        include_str!("../books/cover_senior.txt"),
        [12, 17, 3, DIRT, DIRT],
    ),
];

/// A book, of which the first words are in the file and the others are 0.
struct Sample {
    rows: usize,
    words: usize,
    stored: Vec<u32>,
}

impl Sample {
    fn whole(book: Vec<u32>) -> Self {
        Sample::filled(ROWS, book.len(), book)
    }

    fn filled(rows: usize, words: usize, stored: Vec<u32>) -> Self {
        Sample {
            rows,
            words,
            stored,
        }
    }

    fn file(&self, rows: &mut [i64]) -> Answer {
        let mut book = self.stored.clone();
        book.resize(self.words, 0);
        let mut register = [Entry::default(); ENTRIES];
        model::file(&book, &mut rows[..self.rows], &mut register)
    }

    fn bytes(&self) -> Vec<u8> {
        let heading = [self.rows, self.words, self.stored.len()].map(|count| count as u32);
        let words = heading.iter().chain(&self.stored);
        words.flat_map(|word| word.to_le_bytes()).collect()
    }
}

/// Writes the books to `data/books` and the lines to `stdout`.
pub fn write(books: u64, seed: u64, folder: &Path) -> Result<(), String> {
    let mut samples = from_the_paper()?;
    samples.extend(at_the_edges());
    samples.extend(by_head());
    samples.extend(by_basket());
    samples.extend(generated(books, seed));

    let mut rows = [DIRT; LENT];
    let mut counts = Counts::default();
    let mut lines = String::new();
    for sample in &samples {
        let answer = sample.file(&mut rows);
        counts.add(&answer);
        lines.push_str(&line(&answer, &rows));
    }
    lines.push_str(&format!("{} books\n", samples.len()));
    counts.complete()?;

    let words: Vec<u8> = samples.iter().flat_map(Sample::bytes).collect();
    save(&folder.join("data/books"), &words)?;
    save(&folder.join("stdout"), lines.as_bytes())
}

fn line(answer: &Answer, rows: &[i64]) -> String {
    let rows: Vec<String> = rows.iter().map(i64::to_string).collect();
    let rows = rows.join(" ");
    format!(
        "{} {} {} {rows}\n",
        answer.number, answer.place, answer.verdict
    )
}

fn save(file: &Path, bytes: &[u8]) -> Result<(), String> {
    let failed = |error| format!("{}: {error}", file.display());
    if let Some(folder) = file.parent() {
        fs::create_dir_all(folder).map_err(failed)?;
    }
    fs::write(file, bytes).map_err(failed)
}

/// The paper's samples, where the model answers what the paper says, the book
/// that has every kind of record, the one over a leap year and that of baskets.
fn from_the_paper() -> Result<Vec<Sample>, String> {
    let mut samples = Vec::new();
    for (source, expected) in PAPER {
        let sample = Sample::whole(text::words(source)?);
        let mut rows = [DIRT; LENT];
        let answer = sample.file(&mut rows);
        let [number, verdict] = [answer.number, answer.verdict].map(i64::from);
        let found = [number, answer.place as i64, verdict, rows[20], rows[21]];
        if found != expected {
            return Err(format!(
                "{source}the paper has {expected:?}, the model {found:?}"
            ));
        }
        samples.push(sample);
    }
    for source in [
        include_str!("../books/sample.txt"),
        include_str!("../books/leap_year.txt"),
        include_str!("../books/baskets.txt"),
    ] {
        samples.push(Sample::whole(text::words(source)?));
    }
    Ok(samples)
}

/// The lengths and counts at which the numbers 1 to 4 begin.
fn at_the_edges() -> Vec<Sample> {
    let cut = |words| Sample::whole([word(1, 0), 7, SAMPLE_DATE][..words].to_vec());
    let counted = |protections| Sample::whole(head_and_end(protections, 7, SAMPLE_DATE));
    let long = |rows, words, kind| Sample::filled(rows, words, vec![word(kind, 0), 7, SAMPLE_DATE]);
    vec![
        cut(0),
        cut(1),
        cut(2),
        cut(FIRST_RECORD),
        Sample::whole(all_entries()),
        counted(1_024),
        counted(1_025),
        counted(4_096),
        counted(4_097),
        long(ROWS, LONGEST_BOOK, 1),
        long(ROWS, LONGEST_BOOK, 2),
        long(ROWS, LONGEST_BOOK + 1, 1),
        long(ROWS, LONGEST_BOOK + 1, 2),
        long(ROWS - 1, LONGEST_BOOK + 1, 1),
        Sample::filled(0, 0, vec![]),
    ]
}

fn head_and_end(protections: u32, tier1: u32, date: u32) -> Vec<u32> {
    vec![
        word(1, protections),
        tier1,
        date,
        word(15, FIRST_RECORD as u32),
    ]
}

/// Dates that are good or just not, each with a Tier 1 that is faulty or not
/// and with more protections than there are entries or none.
fn by_head() -> Vec<Sample> {
    let sign = AMOUNT_LIMIT;
    let another_kind = word(2, SAMPLE_DATE);
    let mut samples = Vec::new();
    for date in [0, LAST_DATE, LAST_DATE + 1, sign, sign | 1, another_kind] {
        for tier1 in [7, sign] {
            for protections in [0, ENTRIES as u32 + 1] {
                samples.push(Sample::whole(head_and_end(protections, tier1, date)));
            }
        }
    }
    samples
}

/// Baskets whose n and m are at the ends of what they may be or beyond, with as
/// many grades as that or one less.
fn by_basket() -> Vec<Sample> {
    let counts = [0, 1, 2, MOST_NAMES, MOST_NAMES + 1, MOST_COUNTED];
    let (good, faulty, minus_zero) = (LAST_QUALIFYING_GRADE, LAST_GRADE + 1, AMOUNT_LIMIT);
    let mut samples = Vec::new();
    for (names, nth) in counts.iter().flat_map(|m| counts.map(|n| (*m, n))) {
        for last in [good, good + 1, faulty, minus_zero] {
            samples.push(Sample::whole(one_basket(nth, names, names, last)));
        }
        if names > 0 {
            samples.push(Sample::whole(one_basket(nth, names, names - 1, good)));
        }
    }
    samples
}

/// A basket with so many grades, all but the last of which do not qualify.
fn one_basket(nth: u32, names: u32, grades: u32, last: u32) -> Vec<u32> {
    let mut book = vec![word(1, 0), 7, SAMPLE_DATE, word(4, 1), 0, 0, 0];
    book.extend([word(11, nth | names << 6), 5, 1_000]);
    book.extend((1..grades).map(|_| LAST_QUALIFYING_GRADE + 1));
    book.extend((grades > 0).then_some(last));
    book.push(word(15, book.len() as u32));
    book
}

/// As many protections as there are entries; the last one covers a credit.
fn all_entries() -> Vec<u32> {
    let count = ENTRIES as u32;
    let mut book = vec![word(1, count), 7, SAMPLE_DATE];
    for rank in (0..count).map(|place| place % 16) {
        book.extend([word(3, 5 | rank << 16), 9, 2, 30]);
    }
    book.extend([word(4, 1), 0, 0, 0]);
    book.extend([word(6, 5 | 15 << 16), 0, 7, 0, 30, 0]);
    book.extend([word(7, count - 1), 7]);
    book.push(word(15, book.len() as u32));
    book
}

fn generated(books: u64, seed: u64) -> Vec<Sample> {
    let mut random = Random::new(seed);
    let mut samples = Vec::new();
    while (samples.len() as u64) < books {
        let book = generate::book(&mut random);
        let rows = match random.below(50) {
            0 => random.index(ROWS),
            _ => random.between(ROWS as u32, LENT as u32) as usize,
        };
        if book.len() <= LONG {
            samples.push(Sample::filled(rows, book.len(), book));
        }
    }
    samples
}
