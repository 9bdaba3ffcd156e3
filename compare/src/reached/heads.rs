//! Heads that are refused: by the date, by what goes before it, by their length.

use super::{Feature, Reached};
use crate::filing::Lengths;
use crate::generate::AMOUNT_LIMIT;
use crate::model::{Answer, FIRST_RECORD, LAST_DATE};

/// The sign of an amount; alone it is minus zero.
const SIGN: u32 = AMOUNT_LIMIT;

const MOST_PROTECTIONS: u32 = 4_096;

const PATTERNS: [&str; 9] = [
    "16 by minus zero",
    "16 by the sign of a good date",
    "16 by the day behind the last date",
    "16 by the largest amount",
    "16 with a register that is too short",
    "3 by the head's own word, with a faulty date",
    "3 by Tier 1 alone, with a faulty date",
    "3 by a missing date alone",
    "14 by a head alone",
];

pub fn list() -> Vec<Feature> {
    let mut list: Vec<Feature> = PATTERNS.iter().map(|&name| (name, [0; 3])).collect();
    list.extend((1..16).map(|kind| ("16 by the kind of a good date", [kind, 0, 0])));
    list
}

fn good_word(head: u32) -> bool {
    head >> 28 == 1 && head & 0x0FFF_FFFF <= MOST_PROTECTIONS
}

impl Reached {
    pub(super) fn head(&mut self, book: &[u32], answer: &Answer, lengths: Lengths) {
        match (answer.number, book) {
            (16, &[head, _, date, ..]) => {
                self.faulty_date(date);
                let short = lengths.register < (head & 0x0FFF_FFFF) as usize;
                self.pattern(short, "16 with a register that is too short");
            }
            (3, &[head, _, date, ..]) if date > LAST_DATE => {
                let good = good_word(head);
                self.pattern(!good, "3 by the head's own word, with a faulty date");
                self.pattern(good, "3 by Tier 1 alone, with a faulty date");
            }
            (3, &[head, tier1]) => {
                let good = good_word(head) && tier1 >> 28 == 0 && tier1 != SIGN;
                self.pattern(good, "3 by a missing date alone");
            }
            (14, _) => self.pattern(book.len() == FIRST_RECORD, "14 by a head alone"),
            _ => {}
        }
    }

    fn faulty_date(&mut self, date: u32) {
        let (kind, payload) = (date >> 28, date & 0x0FFF_FFFF);
        if payload <= LAST_DATE {
            self.came("16 by the kind of a good date", [kind, 0, 0]);
        }
        self.pattern(date == SIGN, "16 by minus zero");
        let signed = date > SIGN && date <= SIGN | LAST_DATE;
        self.pattern(signed, "16 by the sign of a good date");
        self.pattern(date == LAST_DATE + 1, "16 by the day behind the last date");
        self.pattern(date == SIGN - 1, "16 by the largest amount");
    }
}
