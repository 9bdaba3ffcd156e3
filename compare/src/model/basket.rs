//! Baskets: protection bought on several names, which pays at the n-th default
//! among them. Such a record is as long as its own word says.

use super::refusal::Cause;
use super::words::{signed, unsigned, Payload};

/// The most names of a basket.
const MOST_NAMES: usize = 32;
/// The worst grade that qualifies, and the worst that there is.
const LAST_QUALIFYING_GRADE: i64 = 9;
const LAST_GRADE: i64 = 31;

pub struct Basket {
    pub value: i64,
    pub notional: i64,
    /// By the n-th worst grade of its names.
    pub qualifying: bool,
}

impl Basket {
    /// Value and notional, and a grade for each name, counted as written even
    /// where no basket may have so many names.
    pub fn amounts(payload: Payload) -> usize {
        2 + names(payload)
    }

    /// Reads as many amounts as the payload asks for, all known to be of kind 0.
    /// What only a basket can have wrong is judged last.
    pub fn read(payload: Payload, amounts: &[u32]) -> Result<Self, Cause> {
        payload.only_lowest(12)?;
        let value = signed(amounts[0])?;
        let notional = unsigned(amounts[1])?;
        let mut grades = Vec::with_capacity(amounts.len());
        for &grade in &amounts[2..] {
            grades.push(unsigned(grade)?);
        }

        let nth = payload.field(0, 6) as usize;
        let names = names(payload);
        Cause::BasketFaulty.unless((1..=MOST_NAMES).contains(&names))?;
        Cause::BasketFaulty.unless((1..=names).contains(&nth))?;
        Cause::BasketFaulty.unless(grades.iter().all(|&grade| grade <= LAST_GRADE))?;
        Ok(Basket {
            value,
            notional,
            qualifying: nth_worst(nth, grades) <= LAST_QUALIFYING_GRADE,
        })
    }
}

/// The paper's m.
fn names(payload: Payload) -> usize {
    payload.field(6, 6) as usize
}

/// Larger is worse, and equal grades count separately.
fn nth_worst(nth: usize, mut grades: Vec<i64>) -> i64 {
    grades.sort_unstable_by(|one, other| other.cmp(one));
    grades[nth - 1]
}
