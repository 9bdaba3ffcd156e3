//! Derivative sets with their trades, written credits and covers.

use super::super::dates::days_near_an_end;
use super::Writer;

impl Writer<'_> {
    pub(super) fn derivative_set(&mut self) {
        let marks = match self.random.below(4) {
            0 => 0b1_1111 | self.bit(5),
            1 => 1,
            _ => self.random.below(64),
        };
        let cash = [self.size(), self.size(), self.size()];
        self.record(4, marks, &cash);
        for _ in 0..self.random.pick(&[0, 1, 1, 2, 2, 3, 5]) {
            match self.random.below(5) {
                0 | 1 => self.trade(),
                2 | 3 => self.written_credit(),
                _ => self.basket(),
            }
        }
    }

    /// The days of a trade, often near where a band of this book ends.
    fn trade_days(&mut self) -> u32 {
        if self.random.one_in(3) {
            days_near_an_end(self.date, self.random)
        } else {
            self.days()
        }
    }

    fn trade(&mut self) {
        let class = self.random.below(7);
        let credit = class == 5;
        let payments = if credit {
            1
        } else {
            let several = self.random.between(1, 255);
            self.random.pick(&[1, 1, 2, 255, several])
        };
        let qualifying = if credit { self.bit(12) } else { 0 };
        let resets = self.bit(11);
        let days = self.trade_days();
        let reset = match (resets, self.random.below(3)) {
            (0, _) | (_, 0) => days,
            (_, 1) => self.trade_days().min(days),
            _ => self.random.between(0, days),
        };
        let amounts = [self.signed_size(), self.size(), days, reset];
        let payload = class | payments << 3 | resets | qualifying;
        self.record(5, payload, &amounts);
    }

    fn written_credit(&mut self) {
        let protection = match self.register.len() {
            0 => None,
            _ if self.random.one_in(4) => None,
            protections => Some(self.random.index(protections)),
        };
        // A credit that is to be covered follows the protection it will name.
        let (entity, rank, days) = match protection.map(|index| self.register[index]) {
            Some(entry) => (
                entry.entity,
                self.up_to(entry.rank),
                self.random.pick(&[0, 365, 365, 65_535]).min(entry.days),
            ),
            None => (self.entity(), self.random.below(16), self.days()),
        };
        let notional = match protection {
            Some(index) if self.random.one_in(3) => self.register[index].left,
            _ => self.size(),
        };
        let loss = match self.random.below(3) {
            0 => self.up_to(notional),
            _ => 0,
        };
        let premiums = match self.random.below(3) {
            0 => notional / 20,
            1 => notional / 10 + 1,
            _ => self.size(),
        };
        let marks = self.random.below(8) << 20;
        let value = self.signed_size();
        let payload = entity | rank << 16 | marks;
        self.record(6, payload, &[value, notional, loss, days, premiums]);
        if let Some(first) = protection {
            self.covers(first, [entity, rank, days], notional - loss);
        }
    }

    /// Several covers by one or more fitting protections.
    fn covers(&mut self, first: usize, [entity, rank, days]: [u32; 3], mut open: u32) {
        let mut index = first;
        for _ in 0..self.random.pick(&[1, 1, 2, 3]) {
            let entry = self.register[index];
            let fit = entry.entity == entity && entry.rank >= rank && entry.days >= days;
            let most = entry.left.min(open);
            if fit && most > 0 {
                let amount = self.up_to(most).max(1);
                self.record(7, index as u32, &[amount]);
                self.register[index].left -= amount;
                open -= amount;
            }
            if self.random.one_in(2) {
                index = self.random.index(self.register.len());
            }
        }
    }
}
