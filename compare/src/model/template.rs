//! The twenty-two rows, in thousandths of the unit, and the verdict.

use super::records::{Asset, DerivativeHead, FinancingHead, OffBalance, WrittenCredit};
use super::weighing::{WeighedDerivatives, WeighedFinancing};
use super::ROWS;

/// The least ratio that passes: 3 for every 100 of exposure.
const PASSING: (i64, i64) = (3, 100);

const BASIS_POINTS: i64 = 10_000;

#[derive(Default)]
pub struct Template {
    rows: [i64; ROWS],
}

impl Template {
    pub fn new(tier1: i64) -> Self {
        let mut template = Template::default();
        template.units(20, tier1);
        template
    }

    /// Adds whole units to a row, counted from 1 as the paper does.
    fn units(&mut self, row: usize, units: i64) {
        self.thousandths(row, 1_000 * units);
    }

    fn thousandths(&mut self, row: usize, thousandths: i64) {
        self.rows[row - 1] += thousandths;
    }

    fn row(&self, row: usize) -> i64 {
        self.rows[row - 1]
    }

    /// The deduction goes first: row 1 has of a fiduciary asset just what row
    /// 2 takes out again, and the mark removes the remainder.
    pub fn asset(&mut self, asset: &Asset) {
        if asset.fiduciary {
            self.units(1, asset.deducted);
        } else {
            self.units(1, asset.carrying - asset.provision);
        }
        self.units(2, -asset.deducted);
    }

    pub fn derivatives(&mut self, head: &DerivativeHead, weighed: &WeighedDerivatives) {
        self.units(1, head.margin_paid);
        self.units(4, weighed.replacement);
        self.thousandths(5, weighed.add_on);
        self.units(6, head.collateral_posted);
        if head.margin_counts {
            self.units(7, -head.margin_paid);
        }
        if head.exempt {
            self.units(8, -weighed.replacement);
            self.thousandths(8, -weighed.kept_add_on);
        }
        self.thousandths(10, -(weighed.add_on - weighed.kept_add_on));
    }

    pub fn written(&mut self, credit: &WrittenCredit) {
        self.units(9, credit.notional - credit.loss);
    }

    pub fn cover(&mut self, amount: i64) {
        self.units(10, -amount);
    }

    pub fn financing(&mut self, head: &FinancingHead, weighed: &WeighedFinancing) {
        self.units(12, weighed.own_assets);
        self.units(13, -weighed.cash_netted);
        self.units(if head.agent { 15 } else { 14 }, weighed.counterparty);
        self.units(15, weighed.further);
    }

    pub fn off_balance(&mut self, item: &OffBalance) {
        self.units(17, item.notional);
        self.thousandths(18, -item.conversion.unconverted(item.notional));
    }

    /// Fills the rows that follow from the others, once all are gathered.
    pub fn close(&mut self) {
        self.rows[2] = self.row(1) + self.row(2);
        self.rows[10] = (4..=10).map(|row| self.row(row)).sum();
        self.rows[15] = (12..=15).map(|row| self.row(row)).sum();
        self.rows[18] = self.row(17) + self.row(18);
        self.rows[20] = self.row(3) + self.row(11) + self.row(16) + self.row(19);
        self.rows[21] = if self.exposure() > 0 {
            // The divisor is positive, so this rounds towards minus infinity.
            (BASIS_POINTS * self.row(20)).div_euclid(self.exposure())
        } else {
            0
        };
    }

    fn exposure(&self) -> i64 {
        self.row(21)
    }

    pub fn rows(&self) -> [i64; ROWS] {
        self.rows
    }

    pub fn verdict(&self) -> u32 {
        let (part, whole) = PASSING;
        if self.exposure() <= 0 {
            2
        } else if i128::from(whole) * i128::from(self.row(20))
            >= i128::from(part) * i128::from(self.exposure())
        {
            0
        } else {
            1
        }
    }
}
