//! How baskets are refused, and covers behind them.

use super::{records, Feature, Reached};
use crate::generate::{amounts, names, AMOUNT_LIMIT, LAST_GRADE, MOST_COUNTED, MOST_NAMES};
use crate::model::Answer;

/// The sign of an amount; alone it is minus zero.
const SIGN: u32 = AMOUNT_LIMIT;
const LARGEST: u32 = SIGN - 1;

/// The causes of a basket, in their order.
const CAUSES: [u32; 5] = [5, 6, 7, 8, 17];

/// The amounts of a basket: value, notional, and any grade.
const AMOUNTS: [u32; 3] = [1, 2, 3];

const PATTERNS: [&str; 6] = [
    "basket refused 6, too many names and not their words",
    "basket refused 6, too many names and a word of another kind",
    "basket refused 6, by the word for its last grade alone",
    "basket refused 17, n one above m",
    "basket refused 17, by its last grade alone",
    "basket refused 17, by a grade that does not decide",
];

pub fn list() -> Vec<Feature> {
    let mut list: Vec<Feature> = PATTERNS.iter().map(|&name| (name, [0; 3])).collect();
    for (place, &cause) in CAUSES.iter().enumerate() {
        list.push(("basket refused, alone", [cause, 0, 0]));
        let later = CAUSES[place + 1..].iter();
        list.extend(later.map(|&later| ("basket refused, also", [cause, later, 0])));
    }
    list.extend([1, 2, 3, 8, 9, 10].map(|kind| ("basket refused 5, behind", [kind, 0, 0])));
    let behind = [4, 5, 6, 7, 11];
    list.extend(behind.map(|kind| ("cover behind a basket refused 5, behind", [kind, 0, 0])));
    list.extend(AMOUNTS.map(|amount| ("basket refused 6, kind of one amount", [amount, 0, 0])));
    list.extend((12..28).map(|bit| ("basket refused 7, bit", [bit, 0, 0])));
    list.extend(AMOUNTS.map(|amount| ("basket refused 8, minus zero", [amount, 0, 0])));
    list.extend([2, 3].map(|amount| ("basket refused 8, negative", [amount, 0, 0])));
    let beyond = MOST_NAMES + 1;
    list.extend([0, beyond, MOST_COUNTED].map(|names| ("basket refused 17, m", [names, 0, 0])));
    list.extend([0, beyond, MOST_COUNTED].map(|nth| ("basket refused 17, n", [nth, 0, 0])));
    let grades = [LAST_GRADE + 1, LAST_GRADE + 2, LARGEST];
    list.extend(grades.map(|grade| ("basket refused 17, worst grade", [grade, 0, 0])));
    list
}

/// A basket as it stands in a refused book.
struct Basket<'a> {
    word: u32,
    /// Of the amounts that it counts those that the book has.
    amounts: &'a [u32],
}

impl<'a> Basket<'a> {
    fn at(book: &'a [u32], place: usize) -> Self {
        let word = book[place];
        let behind = &book[place + 1..];
        Basket {
            word,
            amounts: &behind[..amounts(word).min(behind.len())],
        }
    }

    fn nth(&self) -> u32 {
        self.word & MOST_COUNTED
    }

    fn names(&self) -> u32 {
        names(self.word)
    }

    fn bits_without_meaning(&self) -> u32 {
        self.word & 0x0FFF_F000
    }

    fn words_missing(&self) -> bool {
        self.amounts.len() < amounts(self.word)
    }

    fn grades(&self) -> &[u32] {
        self.amounts.get(2..).unwrap_or_default()
    }

    fn good_counts(&self) -> bool {
        (1..=MOST_NAMES).contains(&self.names()) && (1..=self.names()).contains(&self.nth())
    }

    fn good_grades(&self) -> bool {
        self.grades().iter().all(|&grade| grade <= LAST_GRADE)
    }

    /// The amounts for which this holds, each by its place from 1 and its word;
    /// grades are all at place 3.
    fn amounts_that(&self, holds: impl Fn(u32, u32) -> bool) -> Vec<(u32, u32)> {
        let placed = (1..)
            .zip(self.amounts)
            .map(|(place, &word)| (AMOUNTS[2].min(place), word));
        placed.filter(|&(place, word)| holds(place, word)).collect()
    }

    fn of_other_kinds(&self) -> Vec<(u32, u32)> {
        self.amounts_that(|_, word| word >> 28 != 0)
    }

    /// Amounts that are such and faulty by themselves.
    fn faulty(&self) -> Vec<(u32, u32)> {
        let negative = |word| (SIGN..=SIGN | LARGEST).contains(&word);
        self.amounts_that(|place, word| word == SIGN || place > 1 && negative(word))
    }

    /// Whether this cause can be given, whatever goes before it.
    fn has(&self, cause: u32) -> bool {
        match cause {
            6 => self.words_missing() || !self.of_other_kinds().is_empty(),
            7 => self.bits_without_meaning() != 0,
            8 => !self.faulty().is_empty(),
            17 => {
                let beyond = |&grade: &u32| (LAST_GRADE + 1..SIGN).contains(&grade);
                !self.good_counts() || self.grades().iter().any(beyond)
            }
            _ => false,
        }
    }
}

impl Reached {
    pub(super) fn refused_basket(&mut self, book: &[u32], answer: &Answer) {
        let (number, place) = (answer.number, answer.place);
        match (number, book.get(place).map(|word| word >> 28)) {
            (5, Some(7)) => self.cover_behind_basket(&book[..place]),
            (5 | 6 | 7 | 8 | 17, Some(11)) => {
                let basket = Basket::at(book, place);
                self.order_of_causes(&basket, number);
                match number {
                    5 => self.refused_5(&book[..place]),
                    6 => self.refused_6(&basket),
                    7 => self.refused_7(&basket),
                    8 => self.refused_8(&basket),
                    _ => self.refused_17(&basket),
                }
            }
            _ => {}
        }
    }

    /// The records before the refused one are good.
    fn cover_behind_basket(&mut self, before: &[u32]) {
        if let [.., behind, basket] = records(before)[..] {
            if basket.kind == 11 {
                let name = "cover behind a basket refused 5, behind";
                self.came(name, [behind.kind, 0, 0]);
            }
        }
    }

    fn order_of_causes(&mut self, basket: &Basket, number: u32) {
        let place = CAUSES.iter().position(|&cause| cause == number);
        let later = &CAUSES[place.map_or(0, |place| place + 1)..];
        let also: Vec<u32> = later.iter().copied().filter(|&c| basket.has(c)).collect();
        if also.is_empty() {
            self.came("basket refused, alone", [number, 0, 0]);
        }
        for cause in also {
            self.came("basket refused, also", [number, cause, 0]);
        }
    }

    fn refused_5(&mut self, before: &[u32]) {
        if let Some(last) = records(before).last() {
            self.came("basket refused 5, behind", [last.kind, 0, 0]);
        }
    }

    fn refused_6(&mut self, basket: &Basket) {
        let of_other_kinds = basket.of_other_kinds();
        let missing = basket.words_missing();
        let is_last = basket.amounts.last().is_some_and(|word| word >> 28 != 0);
        if basket.names() > MOST_NAMES {
            let name = "basket refused 6, too many names and not their words";
            self.pattern(missing && of_other_kinds.is_empty(), name);
            let name = "basket refused 6, too many names and a word of another kind";
            self.pattern(!missing && !of_other_kinds.is_empty(), name);
        } else if let ([(amount, _)], false) = (&of_other_kinds[..], missing) {
            self.came("basket refused 6, kind of one amount", [*amount, 0, 0]);
            let name = "basket refused 6, by the word for its last grade alone";
            self.pattern(*amount == AMOUNTS[2] && is_last, name);
        }
    }

    fn refused_7(&mut self, basket: &Basket) {
        let bits = basket.bits_without_meaning();
        if bits.is_power_of_two() {
            self.came("basket refused 7, bit", [bits.trailing_zeros(), 0, 0]);
        }
    }

    fn refused_8(&mut self, basket: &Basket) {
        if let [(amount, word)] = basket.faulty()[..] {
            let name = match word {
                SIGN => "basket refused 8, minus zero",
                _ => "basket refused 8, negative",
            };
            self.came(name, [amount, 0, 0]);
        }
    }

    /// One fault at a time, where the others leave room for it.
    fn refused_17(&mut self, basket: &Basket) {
        let (nth, names, grades) = (basket.nth(), basket.names(), basket.grades());
        if !basket.good_grades() {
            if basket.good_counts() {
                self.refused_by_grade(nth as usize, grades);
            }
        } else if (1..=MOST_NAMES).contains(&names) {
            self.came("basket refused 17, n", [nth, 0, 0]);
            let one_above = nth == names + 1 && nth <= MOST_NAMES;
            self.pattern(one_above, "basket refused 17, n one above m");
        } else if (1..=MOST_NAMES).contains(&nth) {
            self.came("basket refused 17, m", [names, 0, 0]);
        }
    }

    fn refused_by_grade(&mut self, nth: usize, grades: &[u32]) {
        let mut worst = grades.to_vec();
        worst.sort_unstable_by(|one, other| other.cmp(one));
        self.came("basket refused 17, worst grade", [worst[0], 0, 0]);
        let (last, before) = (grades[grades.len() - 1], &grades[..grades.len() - 1]);
        let good_before = !before.is_empty() && before.iter().all(|&grade| grade <= LAST_GRADE);
        let last_alone = good_before && last > LAST_GRADE;
        self.pattern(last_alone, "basket refused 17, by its last grade alone");
        let decides_not = worst[nth - 1] <= LAST_GRADE;
        self.pattern(
            decides_not,
            "basket refused 17, by a grade that does not decide",
        );
    }
}
