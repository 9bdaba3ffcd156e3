//! What accepted books make use of, what corrections of them do, which of their sets
//! are shown, what the settings of these come to, and how heads, baskets and calls
//! about sets are refused. Each thing on the list is counted, and one that never came
//! is a fault of the generator.

mod bands;
mod baskets;
mod corrections;
mod covers;
mod heads;
mod kept;
mod refused_baskets;
mod sets;
mod settings;

use std::collections::BTreeMap;

use crate::filing::Lengths;
use crate::generate::{amounts, word, AMOUNT_LIMIT, LAST_GRADE, MOST_NAMES};
use crate::model::{Answer, LAST_DATE};
use bands::Bands;

/// What is reached, with the numbers that tell it from others of its name.
type Feature = (&'static str, [u32; 3]);

const MOST_DAYS: u32 = 65_535;
const LARGEST: u32 = AMOUNT_LIMIT - 1;

/// Bits that are marks, by the kind of their word.
const MARKS: [(u32, std::ops::Range<u32>); 6] = [
    (2, 0..1),
    (4, 0..6),
    (5, 11..13),
    (6, 20..23),
    (8, 0..3),
    (9, 0..1),
];

pub struct Reached(BTreeMap<Feature, u64>);

impl Default for Reached {
    fn default() -> Self {
        let others = [
            corrections::list(),
            heads::list(),
            refused_baskets::list(),
            sets::list(),
            settings::list(),
        ];
        Reached::listing(uses().into_iter().chain(others.concat()))
    }
}

/// A record that was found good.
#[derive(Clone, Copy)]
struct Record<'a> {
    kind: u32,
    payload: u32,
    amounts: &'a [u32],
}

impl<'a> Record<'a> {
    fn at(book: &'a [u32], place: usize) -> Self {
        let word = book[place];
        Record {
            kind: word >> 28,
            payload: word & 0x0FFF_FFFF,
            amounts: &book[place + 1..][..amounts(word)],
        }
    }

    fn field(&self, low: u32, width: u32) -> u32 {
        self.payload >> low & ((1 << width) - 1)
    }
}

fn records(book: &[u32]) -> Vec<Record<'_>> {
    let mut records = Vec::new();
    let mut place = 0;
    while place < book.len() {
        let record = Record::at(book, place);
        place += 1 + record.amounts.len();
        records.push(record);
    }
    records
}

impl Reached {
    fn listing(features: impl Iterator<Item = Feature>) -> Self {
        Reached(features.map(|feature| (feature, 0)).collect())
    }

    /// For accepted books alone.
    #[cfg(test)]
    pub fn in_accepted() -> Self {
        Reached::listing(uses().into_iter())
    }

    /// Counts what a filed book uses, or how its head or a basket is refused.
    pub fn add(&mut self, book: &[u32], answer: &Answer, lengths: Lengths) {
        if answer.number == 0 {
            self.accepted(book);
        } else {
            self.head(book, answer, lengths);
            self.refused_basket(book, answer);
        }
    }

    pub fn accepted(&mut self, book: &[u32]) {
        // Longer books repeat a few records and add nothing here.
        if book.len() > 20_000 {
            return;
        }
        let records = records(book);
        let bands = Bands::at(records[0].amounts[1]);
        self.counts(&bands);
        for record in &records {
            self.record(record, &bands);
        }
        for pair in records.windows(2) {
            self.neighbours(&pair[0], &pair[1]);
        }
        self.covers(&records);
        self.kept_parts(&records);
        self.baskets(&records);
    }

    /// That everything on the list came.
    pub fn complete(&self) -> Result<(), String> {
        let never = |(&(name, numbers), _): (&Feature, &u64)| format!("{name} {numbers:?}");
        let missing: Vec<String> = self
            .0
            .iter()
            .filter(|(_, &count)| count == 0)
            .map(never)
            .collect();
        match missing.len() {
            0 => Ok(()),
            _ => Err(format!("never came: {}", missing.join(", "))),
        }
    }

    pub fn print(&self) {
        let least = self.0.values().min().copied().unwrap_or_default();
        let features = self.0.len();
        println!("records, marks, classes, dates, bands, covers, baskets, amounts, corrections, refused heads and baskets, shown sets, settings: {features} on the list, each {least} times or more");
    }

    fn came(&mut self, name: &'static str, numbers: [u32; 3]) {
        if let Some(count) = self.0.get_mut(&(name, numbers)) {
            *count += 1;
        }
    }

    fn pattern(&mut self, holds: bool, name: &'static str) {
        if holds {
            self.came(name, [0; 3]);
        }
    }

    fn record(&mut self, record: &Record, bands: &Bands) {
        let kind = record.kind;
        self.came("kind", [kind, 0, 0]);
        for (_, bits) in MARKS.iter().filter(|(marked, _)| *marked == kind) {
            for bit in bits.clone() {
                self.came("kind, bit, value", [kind, bit, record.field(bit, 1)]);
            }
        }
        for (place, &amount) in (1..).zip(record.amounts) {
            self.came("kind, amount, extreme", [kind, place, amount]);
        }
        match kind {
            2 => self.asset(record),
            4 => self.came("margin marks", [record.field(0, 5), 0, 0]),
            5 => {
                self.came("principal payments", [record.field(3, 8), 0, 0]);
                self.trade(record, bands);
            }
            10 => self.came("conversion", [record.field(0, 4), record.field(4, 4), 0]),
            _ => {}
        }
    }

    fn asset(&mut self, asset: &Record) {
        let above = |amount: usize| u32::from(asset.amounts[amount] > 0);
        let numbers = [asset.field(0, 1), above(1), above(2)];
        self.came("fiduciary, provision above 0, deduction above 0", numbers);
    }

    fn neighbours(&mut self, before: &Record, record: &Record) {
        let empty = matches!(record.kind, 2 | 4 | 8 | 10 | 15);
        if empty && matches!(before.kind, 4 | 8) {
            self.came("empty set", [before.kind, 0, 0]);
        }
        if (before.kind, record.kind) == (9, 9) {
            let same_day = u32::from(before.amounts[6] == record.amounts[6]);
            let marks = [same_day, before.payload, record.payload];
            self.came("same day, marks of two financing trades", marks);
        }
    }
}

fn uses() -> Vec<Feature> {
    let mut list = Vec::new();
    for kind in (1..=11).chain([15]) {
        list.push(("kind", [kind, 0, 0]));
    }
    for (kind, bits) in MARKS {
        for bit in bits {
            list.extend([0, 1].map(|value| ("kind, bit, value", [kind, bit, value])));
        }
    }
    for numbers in three_bits() {
        list.push(("fiduciary, provision above 0, deduction above 0", numbers));
    }
    list.extend((0..32).map(|marks| ("margin marks", [marks, 0, 0])));
    list.extend(extremes());
    list.extend(bands::list());
    list.extend([1, 2, 255].map(|payments| ("principal payments", [payments, 0, 0])));
    for class in 0..11 {
        list.extend((0..12).map(|other| ("conversion", [class, other, 0])));
    }
    list.extend([4, 8].map(|kind| ("empty set", [kind, 0, 0])));
    for numbers in three_bits() {
        list.push(("same day, marks of two financing trades", numbers));
    }
    list.extend(covers::list());
    list.extend(kept::list());
    list.extend(baskets::list());
    list
}

/// Each way in which three things hold or not.
fn three_bits() -> impl Iterator<Item = [u32; 3]> {
    (0..8).map(|bits| [bits & 1, bits >> 1 & 1, bits >> 2])
}

/// The smallest and the largest that each amount of each kind can be.
fn extremes() -> Vec<Feature> {
    let mut list = Vec::new();
    for kind in 1..=11 {
        let longest = if kind == 11 { MOST_NAMES << 6 } else { 0 };
        for place in 1..=amounts(word(kind, longest)) as u32 {
            let signed = matches!((kind, place), (1 | 5 | 6 | 11, 1));
            let least = u32::from(kind == 7);
            let most = match (kind, place) {
                (1, 2) => LAST_DATE,
                (11, 3..) => LAST_GRADE,
                (3, 3) | (5, 3) | (5, 4) | (6, 4) | (9, 7) => MOST_DAYS,
                _ => LARGEST,
            };
            let mut edges = vec![least, most];
            if signed {
                edges.extend([AMOUNT_LIMIT | 1, AMOUNT_LIMIT | LARGEST]);
            }
            let extreme = |edge| ("kind, amount, extreme", [kind, place, edge]);
            list.extend(edges.into_iter().map(extreme));
        }
    }
    list
}
