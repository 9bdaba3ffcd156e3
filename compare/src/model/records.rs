//! Records: a word of their kind, then their amounts. Each is checked here as
//! far as it can be by itself: payload first, then each amount, then the
//! amounts against each other.

use super::factors::{Class, Conversion};
use super::refusal::Cause;
use super::words::{days, signed, unsigned, Payload};

/// A record whose amounts, already known to be of kind 0, follow its payload.
pub trait Record<const AMOUNTS: usize>: Sized {
    fn read(payload: Payload, amounts: [u32; AMOUNTS]) -> Result<Self, Cause>;
}

pub struct Protection {
    pub entity: u32,
    pub rank: u32,
    pub days: i64,
    pub available: i64,
}

impl Record<3> for Protection {
    fn read(payload: Payload, amounts: [u32; 3]) -> Result<Self, Cause> {
        payload.only_lowest(20)?;
        let notional = unsigned(amounts[0])?;
        let gain = unsigned(amounts[1])?;
        let days = days(amounts[2])?;
        Cause::AmountsDisagree.unless(gain <= notional)?;
        Ok(Protection {
            entity: payload.field(0, 16),
            rank: payload.field(16, 4),
            days,
            available: notional - gain,
        })
    }
}

pub struct Asset {
    pub fiduciary: bool,
    pub carrying: i64,
    pub provision: i64,
    pub deducted: i64,
}

impl Record<3> for Asset {
    fn read(payload: Payload, amounts: [u32; 3]) -> Result<Self, Cause> {
        payload.only_lowest(1)?;
        let carrying = unsigned(amounts[0])?;
        let provision = unsigned(amounts[1])?;
        let deducted = unsigned(amounts[2])?;
        Cause::AmountsDisagree.unless(provision + deducted <= carrying)?;
        Ok(Asset {
            fiduciary: payload.bit(0),
            carrying,
            provision,
            deducted,
        })
    }
}

pub struct DerivativeHead {
    pub netting: bool,
    /// Netting and the four conditions on cash margin together.
    pub margin_counts: bool,
    pub exempt: bool,
    pub margin_received: i64,
    pub margin_paid: i64,
    pub collateral_posted: i64,
}

impl Record<3> for DerivativeHead {
    fn read(payload: Payload, amounts: [u32; 3]) -> Result<Self, Cause> {
        payload.only_lowest(6)?;
        Ok(DerivativeHead {
            netting: payload.bit(0),
            margin_counts: payload.field(0, 5) == 0b1_1111,
            exempt: payload.bit(5),
            margin_received: unsigned(amounts[0])?,
            margin_paid: unsigned(amounts[1])?,
            collateral_posted: unsigned(amounts[2])?,
        })
    }
}

pub struct Trade {
    pub class: Class,
    pub payments: i64,
    pub resets: bool,
    pub qualifying: bool,
    pub value: i64,
    pub notional: i64,
    pub days: i64,
    pub reset_days: i64,
}

impl Record<4> for Trade {
    fn read(payload: Payload, amounts: [u32; 4]) -> Result<Self, Cause> {
        payload.only_lowest(13)?;
        let class = Class::numbered(payload.field(0, 3)).ok_or(Cause::PayloadFaulty)?;
        let payments = i64::from(payload.field(3, 8));
        let resets = payload.bit(11);
        let qualifying = payload.bit(12);
        let is_credit = class == Class::BoughtCredit;
        Cause::PayloadFaulty.unless(payments >= 1)?;
        Cause::PayloadFaulty.unless(payments == 1 || !is_credit)?;
        Cause::PayloadFaulty.unless(is_credit || !qualifying)?;

        let value = signed(amounts[0])?;
        let notional = unsigned(amounts[1])?;
        let remaining = days(amounts[2])?;
        let reset_days = days(amounts[3])?;
        Cause::AmountsDisagree.unless(reset_days <= remaining)?;
        Cause::AmountsDisagree.unless(resets || reset_days == remaining)?;
        Ok(Trade {
            class,
            payments,
            resets,
            qualifying,
            value,
            notional,
            days: remaining,
            reset_days,
        })
    }
}

pub struct WrittenCredit {
    pub entity: u32,
    pub rank: u32,
    pub qualifying: bool,
    pub total_return: bool,
    pub close_out: bool,
    pub value: i64,
    pub notional: i64,
    pub loss: i64,
    pub days: i64,
    pub premiums: i64,
}

impl Record<5> for WrittenCredit {
    fn read(payload: Payload, amounts: [u32; 5]) -> Result<Self, Cause> {
        payload.only_lowest(23)?;
        let credit = WrittenCredit {
            entity: payload.field(0, 16),
            rank: payload.field(16, 4),
            qualifying: payload.bit(20),
            total_return: payload.bit(21),
            close_out: payload.bit(22),
            value: signed(amounts[0])?,
            notional: unsigned(amounts[1])?,
            loss: unsigned(amounts[2])?,
            days: days(amounts[3])?,
            premiums: unsigned(amounts[4])?,
        };
        Cause::AmountsDisagree.unless(credit.loss <= credit.notional)?;
        Ok(credit)
    }
}

pub struct Cover {
    pub protection: usize,
    pub amount: i64,
}

impl Record<1> for Cover {
    fn read(payload: Payload, amounts: [u32; 1]) -> Result<Self, Cause> {
        payload.only_lowest(12)?;
        let amount = unsigned(amounts[0])?;
        Cause::AmountFaulty.unless(amount >= 1)?;
        Ok(Cover {
            protection: payload.value() as usize,
            amount,
        })
    }
}

pub struct FinancingHead {
    pub netting: bool,
    pub agent: bool,
    pub further_exposure: bool,
}

impl Record<0> for FinancingHead {
    fn read(payload: Payload, _: [u32; 0]) -> Result<Self, Cause> {
        payload.only_lowest(3)?;
        let head = FinancingHead {
            netting: payload.bit(0),
            agent: payload.bit(1),
            further_exposure: payload.bit(2),
        };
        Cause::PayloadFaulty.unless(head.agent || !head.further_exposure)?;
        Ok(head)
    }
}

pub struct FinancingTrade {
    pub settles_net: bool,
    pub gross_asset: i64,
    pub securities: i64,
    pub receivable: i64,
    pub payable: i64,
    pub lent: i64,
    pub received: i64,
    pub days: i64,
}

impl Record<7> for FinancingTrade {
    fn read(payload: Payload, amounts: [u32; 7]) -> Result<Self, Cause> {
        payload.only_lowest(1)?;
        let trade = FinancingTrade {
            settles_net: payload.bit(0),
            gross_asset: unsigned(amounts[0])?,
            securities: unsigned(amounts[1])?,
            receivable: unsigned(amounts[2])?,
            payable: unsigned(amounts[3])?,
            lent: unsigned(amounts[4])?,
            received: unsigned(amounts[5])?,
            days: days(amounts[6])?,
        };
        Cause::AmountsDisagree.unless(trade.securities + trade.receivable <= trade.gross_asset)?;
        Ok(trade)
    }
}

impl FinancingTrade {
    /// An agent books nothing of its own: the first four amounts are 0.
    pub fn fits(&self, head: &FinancingHead) -> bool {
        let own = [
            self.gross_asset,
            self.securities,
            self.receivable,
            self.payable,
        ];
        !head.agent || own == [0; 4]
    }
}

pub struct OffBalance {
    pub conversion: Conversion,
    pub notional: i64,
}

impl Record<1> for OffBalance {
    fn read(payload: Payload, amounts: [u32; 1]) -> Result<Self, Cause> {
        payload.only_lowest(8)?;
        let conversion =
            Conversion::of(payload.field(0, 4), payload.field(4, 4)).ok_or(Cause::PayloadFaulty)?;
        Ok(OffBalance {
            conversion,
            notional: unsigned(amounts[0])?,
        })
    }
}
