//! What the tests of the model share: books written record by record.

mod bands;
mod baskets;
mod calendar;
mod corrections;
mod covers;
mod refusals;
mod samples;
mod sets;
mod settings;

use super::{file, Answer, Entry, FIRST_RECORD, LAST_DATE, LONGEST_BOOK, NO_VERDICT, ROWS};
use crate::samples::SAMPLE_DATE;

const ALL_MARGIN_MARKS: u32 = 0b1_1111;
const NETTING: u32 = 1;
const EXEMPT: u32 = 1 << 5;
const MINUS: u32 = 1 << 27;
const RESETS: u32 = 1 << 11;
const QUALIFYING: u32 = 1 << 20;
const CLOSE_OUT: u32 = 1 << 22;

fn word(kind: u32, payload: u32) -> u32 {
    kind << 28 | payload
}

fn amount(value: i32) -> u32 {
    if value < 0 {
        MINUS | value.unsigned_abs()
    } else {
        value.unsigned_abs()
    }
}

/// A book under construction, without its end word.
struct Book(Vec<u32>);

impl Book {
    fn new(protections: u32, tier1: i32) -> Self {
        Book::dated(protections, tier1, SAMPLE_DATE)
    }

    fn dated(protections: u32, tier1: i32, date: u32) -> Self {
        Book(vec![word(1, protections), amount(tier1), date])
    }

    fn add(mut self, kind: u32, payload: u32, amounts: &[i32]) -> Self {
        self.0.push(word(kind, payload));
        self.0.extend(amounts.iter().map(|&value| amount(value)));
        self
    }

    fn trade(self, class: u32, value: i32, notional: i32, days: i32) -> Self {
        self.add(5, class | 1 << 3, &[value, notional, days, days])
    }

    /// A basket with as many names as there are grades.
    fn basket(self, nth: u32, value_and_notional: [i32; 2], grades: &[i32]) -> Self {
        let names = u32::try_from(grades.len()).unwrap();
        let amounts = [&value_and_notional, grades].concat();
        self.add(11, nth | names << 6, &amounts)
    }

    fn end(mut self) -> Vec<u32> {
        let count = u32::try_from(self.0.len()).unwrap();
        self.0.push(word(15, count));
        self.0
    }

    /// The rows of a book that must be accepted, counted from 1.
    fn rows(self) -> Rows {
        let mut rows = [-1; ROWS + 1];
        let mut register = [Entry::default(); 4];
        let answer = file(&self.end(), &mut rows, &mut register);
        assert_eq!((answer.number, answer.place), (0, 0));
        assert_eq!(rows[ROWS], -1);
        Rows(rows, answer.verdict)
    }
}

struct Rows([i64; ROWS + 1], u32);

impl Rows {
    fn row(&self, row: usize) -> i64 {
        self.0[row - 1]
    }

    fn pair(&self, first: usize, second: usize) -> (i64, i64) {
        (self.row(first), self.row(second))
    }
}

const DIRT: Entry = Entry {
    entity: 9,
    rank: 9,
    days: 9,
    left: 9,
};

/// Files with dirty buffers and checks that a refusal leaves what it should.
fn refused(book: &[u32], number: u32, place: usize) {
    let protections = book.first().map_or(0, |head| head & 0xFFFF) as usize;
    let mut rows = [7; ROWS];
    let mut register = vec![DIRT; protections + 2];
    let answer = file(book, &mut rows, &mut register);
    let expected = Answer {
        number,
        place,
        verdict: NO_VERDICT,
    };
    assert_eq!(answer, expected);
    assert_eq!(rows, [7; ROWS]);
    // By the stage: 16 is found before the register is looked at.
    let in_records = !matches!(number, 1..=4 | 16);
    for (index, &entry) in register.iter().enumerate() {
        let cleared = in_records && index < protections;
        assert_eq!(entry, if cleared { Entry::default() } else { DIRT });
    }
}

/// Where the record behind an asset or the head of a derivative set begins.
const SECOND_RECORD: usize = FIRST_RECORD + 4;

/// Where a covered credit and its first cover begin.
const CREDIT: usize = FIRST_RECORD + 8;
const COVER: usize = CREDIT + 6;

/// A covered credit; the protection has rank 2, 400 days and 30 available.
fn covered(rank: u32, days: i32, covers: &[i32]) -> Book {
    let mut book = Book::new(1, 0)
        .add(3, 5 | 2 << 16, &[40, 10, 400])
        .add(4, 0, &[0, 0, 0])
        .add(6, 5 | rank << 16, &[0, 50, 30, days, 0]);
    for &amount in covers {
        book = book.add(7, 0, &[amount]);
    }
    book
}
