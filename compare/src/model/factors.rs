//! Add-on and conversion factors, per thousand of the notional.

use super::basket::Basket;
use super::calendar::days_of_years;
use super::records::{Trade, WrittenCredit};

#[derive(Clone, Copy, PartialEq, Eq, Debug)]
pub enum Class {
    Rates,
    Currency,
    Equity,
    PreciousMetals,
    Commodities,
    BoughtCredit,
    FloatingAgainstFloating,
}

impl Class {
    pub fn numbered(number: u32) -> Option<Self> {
        Some(match number {
            0 => Class::Rates,
            1 => Class::Currency,
            2 => Class::Equity,
            3 => Class::PreciousMetals,
            4 => Class::Commodities,
            5 => Class::BoughtCredit,
            6 => Class::FloatingAgainstFloating,
            _ => return None,
        })
    }
}

/// The last day of the first and of the second maturity band, in days from the
/// reporting date.
#[derive(Clone, Copy)]
pub struct Bands {
    one_year: i64,
    five_years: i64,
}

impl Bands {
    /// Each ends on the same calendar day that many years after the date.
    pub fn at(date: i64) -> Self {
        Bands {
            one_year: days_of_years(date, 1),
            five_years: days_of_years(date, 5),
        }
    }

    fn choose(&self, days: i64, [short, medium, long]: [i64; 3]) -> i64 {
        if days <= self.one_year {
            short
        } else if days <= self.five_years {
            medium
        } else {
            long
        }
    }
}

/// A resetting rates trade of more than a year has at least this factor.
const RESETTING_RATES_FLOOR: i64 = 5;

fn credit_factor(qualifying: bool) -> i64 {
    if qualifying {
        50
    } else {
        100
    }
}

/// The gross add-on of a trade, in thousandths.
pub fn trade_add_on(trade: &Trade, bands: &Bands) -> i64 {
    let band_days = if trade.resets {
        trade.reset_days
    } else {
        trade.days
    };
    let by_band = |figures| bands.choose(band_days, figures);
    let factor = match trade.class {
        Class::Rates => {
            let factor = by_band([0, 5, 15]);
            if trade.resets && trade.days > bands.one_year {
                factor.max(RESETTING_RATES_FLOOR)
            } else {
                factor
            }
        }
        Class::Currency => by_band([10, 50, 75]),
        Class::Equity => by_band([60, 80, 100]),
        Class::PreciousMetals => by_band([70, 70, 80]),
        Class::Commodities => by_band([100, 120, 150]),
        Class::BoughtCredit => credit_factor(trade.qualifying),
        Class::FloatingAgainstFloating => 0,
    };
    factor * trade.payments * trade.notional
}

/// The gross add-on of a written credit, in thousandths.
pub fn written_add_on(credit: &WrittenCredit) -> i64 {
    let full = credit_factor(credit.qualifying) * credit.notional;
    if credit.total_return {
        full
    } else if credit.close_out {
        full.min(1_000 * credit.premiums)
    } else {
        0
    }
}

/// The gross add-on of a basket, in thousandths: that of bought credit on the
/// name with the n-th worst grade.
pub fn basket_add_on(basket: &Basket) -> i64 {
    credit_factor(basket.qualifying) * basket.notional
}

/// The part of an off-balance notional that counts, per thousand.
pub struct Conversion(i64);

impl Conversion {
    /// `committed` is 0, or one more than the class of the item committed to.
    pub fn of(class: u32, committed: u32) -> Option<Self> {
        let own = Self::figure(class)?;
        match committed {
            0 => Some(Conversion(own)),
            _ => Some(Conversion(own.min(Self::figure(committed - 1)?))),
        }
    }

    fn figure(class: u32) -> Option<i64> {
        Some(match class {
            0 => 200,   // commitment to one year
            1 => 500,   // longer commitment
            2 => 100,   // cancellable commitment
            3 => 1_000, // credit substitute
            4 => 1_000, // forward purchase
            5 => 500,   // transaction contingency
            6 => 500,   // note facility
            7 => 200,   // trade letter
            8 => 1_000, // securitisation
            9 => 500,   // eligible liquidity
            10 => 100,  // servicer advance
            _ => return None,
        })
    }

    /// The part of the notional that does not count, in thousandths.
    pub fn unconverted(&self, notional: i64) -> i64 {
        (1_000 - self.0) * notional
    }
}
