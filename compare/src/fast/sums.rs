//! What a book comes to, and its rows.

use crate::model::ROWS;

/// Sums over the book, all positive; those marked are in thousandths.
#[derive(Default)]
pub struct Sums {
    pub carried: u64,
    pub deducted: u64,
    pub margin_paid: u64,
    pub replacement: u64,
    /// In thousandths.
    pub add_on: u64,
    pub posted: u64,
    pub margin_counted: u64,
    /// In thousandths.
    pub exempted: u64,
    pub written: u64,
    pub covered: u64,
    /// In thousandths.
    pub released: u64,
    pub own_assets: u64,
    pub cash_netted: u64,
    pub principal: u64,
    pub agent: u64,
    pub off_balance: u64,
    /// In thousandths.
    pub converted: u64,
}

impl Sums {
    pub fn rows(&self, tier1: i64) -> ([i64; ROWS], u32) {
        let units = |sum: u64| 1000 * sum as i64;
        let mut rows = [0; ROWS];
        rows[0] = units(self.carried + self.margin_paid);
        rows[1] = -units(self.deducted);
        rows[2] = rows[0] + rows[1];
        rows[3] = units(self.replacement);
        rows[4] = self.add_on as i64;
        rows[5] = units(self.posted);
        rows[6] = -units(self.margin_counted);
        rows[7] = -(self.exempted as i64);
        rows[8] = units(self.written);
        rows[9] = -units(self.covered) - self.released as i64;
        rows[10] = rows[3..10].iter().sum();
        rows[11] = units(self.own_assets);
        rows[12] = -units(self.cash_netted);
        rows[13] = units(self.principal);
        rows[14] = units(self.agent);
        rows[15] = rows[11..15].iter().sum();
        rows[16] = units(self.off_balance);
        rows[17] = self.converted as i64 - units(self.off_balance);
        rows[18] = rows[16] + rows[17];
        rows[19] = 1000 * tier1;
        rows[20] = rows[2] + rows[10] + rows[15] + rows[18];
        let exposure = rows[20];
        if exposure <= 0 {
            return (rows, 2);
        }
        rows[21] = (10_000 * rows[19]).div_euclid(exposure);
        // The largest add-ons of 2^20 words come to 2^60: three times that fits.
        (rows, u32::from(100 * rows[19] < 3 * exposure))
    }
}
