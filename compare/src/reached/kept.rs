//! Written credits whose covers keep a part of their add-on in, and what other
//! readings of that part would give.

use super::covers::covers_of;
use super::{three_bits, Feature, Reached, Record};

const PATTERNS: [&str; 10] = [
    "uncovered credit of notional 0",
    "covered credit with an add-on of 0",
    "kept part that is rounded up",
    "whole add-on kept by covers of the whole notional",
    "part of an add-on kept by covers up to the loss",
    "two kept parts of one set that are rounded up",
    "kept part of a product above 2^32",
    "kept part of a product above 2^53",
    // What programs would keep that work the part out otherwise.
    "kept part that changes if each cover is rounded",
    "kept part that changes if the loss is taken off the notional",
];

pub fn list() -> Vec<Feature> {
    let mut list: Vec<Feature> = PATTERNS.iter().map(|&name| (name, [0; 3])).collect();
    for netting in 0..2 {
        let numbers = [0, 1].map(|exempt| [netting, exempt, 0]);
        list.extend(numbers.map(|numbers| ("kept part in a set, netted, exempt", numbers)));
    }
    for marks in three_bits() {
        list.push(("part covered: qualifying, total return, close-out", marks));
    }
    let behind = [2, 4, 5, 6, 8, 10, 11, 15];
    list.extend(behind.map(|kind| ("record behind a credit with a kept part", [kind, 0, 0])));
    list
}

/// A written credit with its covers.
struct Covered {
    add_on: u64,
    notional: u64,
    loss: u64,
    covers: Vec<u64>,
}

impl Covered {
    fn new(credit: &Record, covers: &[&Record]) -> Self {
        let [notional, loss, premiums] = [1, 2, 4].map(|place| u64::from(credit.amounts[place]));
        let full = notional * if credit.field(20, 1) == 1 { 50 } else { 100 };
        let add_on = match (credit.field(21, 1), credit.field(22, 1)) {
            (1, _) => full,
            (_, 1) => full.min(1_000 * premiums),
            _ => 0,
        };
        Covered {
            add_on,
            notional,
            loss,
            covers: covers.iter().map(|c| c.amounts[0].into()).collect(),
        }
    }

    fn covered(&self) -> u64 {
        self.covers.iter().sum()
    }

    /// A part of the add-on and not the whole of it.
    fn has_part(&self) -> bool {
        self.add_on > 0 && 0 < self.covered() && self.covered() < self.notional
    }

    fn product(&self) -> u64 {
        self.add_on * self.covered()
    }

    fn rounded_up(&self) -> bool {
        self.has_part() && !self.product().is_multiple_of(self.notional)
    }

    fn kept(&self) -> u64 {
        self.product().div_ceil(self.notional)
    }

    fn kept_by_each_cover(&self) -> u64 {
        let kept = |cover: &u64| (self.add_on * cover).div_ceil(self.notional);
        self.covers.iter().map(kept).sum()
    }

    fn kept_without_the_loss(&self) -> u64 {
        self.product().div_ceil(self.notional - self.loss)
    }
}

impl Reached {
    pub(super) fn kept_parts(&mut self, records: &[Record]) {
        let mut set = [0; 3];
        let mut rounded_up = 0;
        for (index, record) in records.iter().enumerate() {
            match record.kind {
                4 => {
                    set = [record.field(0, 1), record.field(5, 1), 0];
                    rounded_up = 0;
                }
                6 => {
                    let covers = covers_of(records, index);
                    let behind = records[index + 1 + covers.len()].kind;
                    let credit = Covered::new(record, &covers);
                    self.extent(record, &credit);
                    if credit.has_part() {
                        self.part(&credit);
                        self.came("kept part in a set, netted, exempt", set);
                        let name = "record behind a credit with a kept part";
                        self.came(name, [behind, 0, 0]);
                    }
                    rounded_up += u32::from(credit.rounded_up());
                    let two = credit.rounded_up() && rounded_up > 1;
                    self.pattern(two, "two kept parts of one set that are rounded up");
                }
                _ => {}
            }
        }
    }

    /// How much of a credit is covered, whether a part of an add-on or not.
    fn extent(&mut self, record: &Record, credit: &Covered) {
        let covered = credit.covered();
        if covered == 0 {
            self.pattern(credit.notional == 0, "uncovered credit of notional 0");
            return;
        }
        let nothing = credit.add_on == 0;
        self.pattern(nothing, "covered credit with an add-on of 0");
        let name = "whole add-on kept by covers of the whole notional";
        self.pattern(!nothing && covered == credit.notional, name);
        if covered < credit.notional {
            let marks = [20, 21, 22].map(|bit| record.field(bit, 1));
            self.came("part covered: qualifying, total return, close-out", marks);
        }
    }

    fn part(&mut self, credit: &Covered) {
        let kept = credit.kept();
        self.pattern(credit.rounded_up(), "kept part that is rounded up");
        let up_to_loss = credit.covered() == credit.notional - credit.loss;
        let name = "part of an add-on kept by covers up to the loss";
        self.pattern(up_to_loss && kept < credit.add_on, name);
        let above = |bits: u32| credit.product() > 1 << bits;
        self.pattern(above(32), "kept part of a product above 2^32");
        self.pattern(above(53), "kept part of a product above 2^53");
        let by_each = credit.kept_by_each_cover() != kept;
        let name = "kept part that changes if each cover is rounded";
        self.pattern(by_each, name);
        let without = credit.kept_without_the_loss() != kept;
        let name = "kept part that changes if the loss is taken off the notional";
        self.pattern(without, name);
    }
}
