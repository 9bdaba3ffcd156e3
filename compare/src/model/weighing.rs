//! What a set of derivatives or of financing trades comes to.

use super::basket::Basket;
use super::factors::{basket_add_on, trade_add_on, written_add_on, Bands};
use super::records::{DerivativeHead, FinancingHead, FinancingTrade, Trade, WrittenCredit};

/// The sums over a derivative set: values in units, add-ons in thousandths.
#[derive(Default)]
pub struct DerivativeTally {
    value: i64,
    positive_value: i64,
    add_on: i64,
    uncovered_add_on: i64,
}

impl DerivativeTally {
    pub fn trade(&mut self, trade: &Trade, bands: &Bands) {
        self.value(trade.value);
        self.add_on += trade_add_on(trade, bands);
    }

    pub fn basket(&mut self, basket: &Basket) {
        self.value(basket.value);
        self.add_on += basket_add_on(basket);
    }

    /// The covered amount is the sum of all covers of the credit, so that what
    /// they keep in is rounded once.
    pub fn written(&mut self, credit: &WrittenCredit, covered: i64) {
        self.value(credit.value);
        let add_on = written_add_on(credit);
        self.add_on += add_on;
        self.uncovered_add_on += add_on - add_on_kept_in(add_on, covered, credit.notional);
    }

    fn value(&mut self, value: i64) {
        self.value += value;
        self.positive_value += value.max(0);
    }

    pub fn weigh(&self, head: &DerivativeHead) -> WeighedDerivatives {
        WeighedDerivatives {
            replacement: self.replacement(head),
            add_on: self.weighted(head, self.add_on),
            kept_add_on: self.weighted(head, self.add_on - self.uncovered_add_on),
        }
    }

    fn net_value(&self) -> i64 {
        self.value.max(0)
    }

    fn replacement(&self, head: &DerivativeHead) -> i64 {
        if head.margin_counts {
            (self.net_value() - head.margin_received).max(0)
        } else if head.netting {
            self.net_value()
        } else {
            self.positive_value
        }
    }

    /// Under netting a gross add-on counts at two fifths, and at three fifths
    /// times the net over the gross value; margin has no part in that ratio.
    fn weighted(&self, head: &DerivativeHead, gross: i64) -> i64 {
        if !head.netting || self.positive_value == 0 {
            return gross;
        }
        let positive = i128::from(self.positive_value);
        let net = i128::from(self.net_value());
        let dividend = i128::from(gross) * (2 * positive + 3 * net);
        let divisor = 5 * positive;
        let rounded_up = (dividend + divisor - 1) / divisor;
        i64::try_from(rounded_up).expect("a weighted add-on is at most the gross one")
    }
}

/// Covers keep a written credit's add-on in, in proportion to its effective
/// notional, whatever loss was taken of that, and rounded up.
fn add_on_kept_in(add_on: i64, covered: i64, notional: i64) -> i64 {
    if notional == 0 {
        return 0;
    }
    // An add-on is at most 100 notionals, so that the product is below 2^61.
    (add_on * covered + notional - 1) / notional
}

pub struct WeighedDerivatives {
    /// In units.
    pub replacement: i64,
    /// Weighted add-on of the whole set, in thousandths.
    pub add_on: i64,
    /// Weighted add-on without what written credits leave uncovered.
    pub kept_add_on: i64,
}

/// The sums over a financing set, in units.
#[derive(Default)]
pub struct FinancingTally {
    own_assets: i64,
    lent: i64,
    received: i64,
    exposure_by_trade: i64,
    netted_days_before: i64,
    day: SettlementDay,
}

/// Receivables and payables of the marked trades of one settlement day.
#[derive(Default)]
struct SettlementDay {
    days: i64,
    receivable: i64,
    payable: i64,
}

impl SettlementDay {
    fn netted(&self) -> i64 {
        self.receivable.min(self.payable)
    }
}

impl FinancingTally {
    pub fn trade(&mut self, trade: &FinancingTrade) {
        self.own_assets += trade.gross_asset - trade.securities;
        self.lent += trade.lent;
        self.received += trade.received;
        self.exposure_by_trade += (trade.lent - trade.received).max(0);

        // Days never fall, so the trades of one day stand together.
        if trade.days != self.day.days {
            self.netted_days_before += self.day.netted();
            self.day = SettlementDay {
                days: trade.days,
                ..SettlementDay::default()
            };
        }
        if trade.settles_net {
            self.day.receivable += trade.receivable;
            self.day.payable += trade.payable;
        }
    }

    pub fn weigh(&self, head: &FinancingHead) -> WeighedFinancing {
        let counterparty = if head.netting {
            (self.lent - self.received).max(0)
        } else {
            self.exposure_by_trade
        };
        WeighedFinancing {
            own_assets: self.own_assets,
            cash_netted: self.netted_days_before + self.day.netted(),
            counterparty,
            further: if head.further_exposure { self.lent } else { 0 },
        }
    }
}

pub struct WeighedFinancing {
    pub own_assets: i64,
    pub cash_netted: i64,
    /// The paper's E*.
    pub counterparty: i64,
    pub further: i64,
}
