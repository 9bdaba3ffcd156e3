//! Books that are to be accepted.

mod baskets;
mod derivatives;

use super::dates::date;
use super::{correct_count, word, Book, Random, Span, AMOUNT_LIMIT};
use crate::model::Entry;

const LARGEST: u32 = AMOUNT_LIMIT - 1;

/// The edges of the bands at all dates, and of what days may be.
const DAYS: [u32; 11] = [0, 1, 30, 365, 366, 400, 1_825, 1_826, 1_827, 65_534, 65_535];

pub fn book(random: &mut Random) -> Book {
    let mut writer = Writer {
        book: Book {
            words: Vec::new(),
            records: Vec::new(),
        },
        register: Vec::new(),
        date: date(random),
        ordinary: !random.one_in(5),
        random,
    };
    writer.head();
    writer.items();
    writer.record(15, 0, &[]);
    correct_count(&mut writer.book.words);
    writer.book
}

struct Writer<'a> {
    book: Book,
    /// What is left of each protection for the covers still to be written.
    register: Vec<Entry>,
    date: u32,
    /// Ordinary books have small amounts, so that netting and rounding show.
    ordinary: bool,
    random: &'a mut Random,
}

impl Writer<'_> {
    fn record(&mut self, kind: u32, payload: u32, amounts: &[u32]) {
        let start = self.book.words.len();
        self.book.records.push(Span { start, kind });
        self.book.words.push(word(kind, payload));
        self.book.words.extend_from_slice(amounts);
    }

    /// An amount from 0 to `most`, with both ends often.
    fn up_to(&mut self, most: u32) -> u32 {
        match self.random.below(8) {
            0 => 0,
            1 => most.min(1),
            2 => most,
            3 | 4 => self.random.between(0, most.min(100)),
            _ => self.random.between(0, most),
        }
    }

    fn size(&mut self) -> u32 {
        if self.ordinary {
            let most = self.random.pick(&[1, 10, 100, 1_000, 100_000]);
            self.up_to(most)
        } else {
            self.up_to(LARGEST)
        }
    }

    fn signed_size(&mut self) -> u32 {
        let size = self.size();
        let negative = size != 0 && self.random.one_in(2);
        size | u32::from(negative) << 27
    }

    fn days(&mut self) -> u32 {
        if self.random.one_in(4) {
            self.random.below(65_536)
        } else {
            self.random.pick(&DAYS)
        }
    }

    fn bit(&mut self, place: u32) -> u32 {
        self.random.below(2) << place
    }

    fn entity(&mut self) -> u32 {
        self.random.pick(&[0, 1, 2, 65_535])
    }

    fn head(&mut self) {
        let protections = match self.random.below(1_000) {
            0 => self.random.pick(&[4_095, 4_096]),
            1..=5 => self.random.between(100, 700),
            6..=299 => 0,
            _ => self.random.between(1, 4),
        };
        let tier1 = match self.random.below(6) {
            0 => 0,
            1 | 2 => self.signed_size(),
            _ => self.size(),
        };
        self.record(1, protections, &[tier1, self.date]);
        for _ in 0..protections {
            self.protection();
        }
    }

    fn protection(&mut self) {
        let notional = self.size();
        let gain = match self.random.below(3) {
            0 => self.up_to(notional),
            _ => 0,
        };
        let entry = Entry {
            entity: self.entity(),
            rank: self.random.below(16),
            days: self.days(),
            left: notional - gain,
        };
        let payload = entry.entity | entry.rank << 16;
        self.record(3, payload, &[notional, gain, entry.days]);
        self.register.push(entry);
    }

    fn items(&mut self) {
        let items = match self.random.below(500) {
            0 => self.random.between(100, 600),
            1..=19 => self.random.between(10, 40),
            _ => self.random.between(0, 5),
        };
        for _ in 0..items {
            match self.random.below(7) {
                0 => self.asset(),
                1..=3 => self.derivative_set(),
                4 | 5 => self.financing_set(),
                _ => self.off_balance(),
            }
        }
    }

    fn asset(&mut self) {
        let carrying = self.size();
        let provision = self.up_to(carrying);
        let deducted = self.up_to(carrying - provision);
        let fiduciary = self.bit(0);
        self.record(2, fiduciary, &[carrying, provision, deducted]);
    }

    fn financing_set(&mut self) {
        let marks = self.random.pick(&[0, 0, 1, 1, 2, 3, 6, 7]);
        self.record(8, marks, &[]);
        let mut days = 0;
        for _ in 0..self.random.pick(&[0, 1, 2, 3, 4, 6]) {
            if !self.random.one_in(2) {
                let later = self.days();
                days = match self.random.below(3) {
                    0 => (days + 1).min(65_535),
                    _ => later.max(days),
                };
            }
            self.financing_trade(marks & 2 != 0, days);
        }
    }

    fn financing_trade(&mut self, agent: bool, days: u32) {
        let mut own = [0; 4];
        if !agent {
            let gross = self.size();
            let securities = self.up_to(gross);
            let receivable = self.up_to(gross - securities);
            own = [gross, securities, receivable, self.size()];
        }
        let [gross, securities, receivable, payable] = own;
        let (lent, received) = (self.size(), self.size());
        // Most trades settle net, so that days with several of them occur.
        let settles_net = u32::from(!self.random.one_in(3));
        self.record(
            9,
            settles_net,
            &[gross, securities, receivable, payable, lent, received, days],
        );
    }

    fn off_balance(&mut self) {
        let class = self.random.below(11);
        let committed = match self.random.below(2) {
            0 => 0,
            _ => self.random.between(1, 11),
        };
        let notional = self.size();
        self.record(10, class | committed << 4, &[notional]);
    }
}
