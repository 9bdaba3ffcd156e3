//! What holds of a book and the same with one amount corrected: row 21 moves by
//! just the effect, where that is known, by no more than the ceiling, where there
//! is one, and only rows that the amount enters change.

#[cfg(test)]
mod tests;

use super::{ensure, no_worse, others_stay, same_answer, same_register, sums};
use crate::filing::Buffers;
use crate::generate::Amount;
use crate::model::Answer;

/// A unit, in the thousandths that the rows are in.
const UNIT: i64 = 1_000;

/// The most by which row 21 moves for a unit of the correction: the unit itself,
/// and twice that where the value lent counts once more as further exposure.
pub const CEILING: i64 = UNIT;
pub const FURTHER_CEILING: i64 = 2 * UNIT;

/// Conversion figures by class.
pub const CONVERSION: [i64; 11] = [200, 500, 100, 1000, 1000, 500, 500, 200, 1000, 500, 100];

/// The figure of an item: the lower of two where it is committed to another.
pub fn conversion(class: u32, committed: u32) -> i64 {
    let own = CONVERSION[class as usize];
    match committed {
        0 => own,
        _ => own.min(CONVERSION[committed as usize - 1]),
    }
}

impl Amount {
    /// A netted value has none, as it can change the weight of all add-ons of
    /// its set.
    pub fn ceiling(self) -> Option<i64> {
        match self {
            Amount::Carrying { .. } | Amount::OffBalance { .. } => Some(CEILING),
            Amount::Value { netted, .. } => (!netted).then_some(CEILING),
            Amount::Lent { further: false, .. } => Some(CEILING),
            Amount::Lent { further: true, .. } => Some(FURTHER_CEILING),
        }
    }

    /// What each unit by which it is raised adds to row 21, where that is the same
    /// in every book.
    pub fn effect(self) -> Option<i64> {
        match self {
            Amount::Carrying { fiduciary: false } => Some(UNIT),
            Amount::Carrying { fiduciary: true } => Some(0),
            Amount::OffBalance { class, committed } => Some(conversion(class, committed)),
            Amount::Value { .. } | Amount::Lent { .. } => None,
        }
    }

    /// The rows that it can change, counted from 1. Row 8 takes out of an exempt
    /// set whatever a value brings into the other rows.
    fn rows(self) -> &'static [usize] {
        match self {
            Amount::Carrying { fiduciary: false } => &[1, 3, 21, 22],
            Amount::Carrying { fiduciary: true } => &[],
            Amount::OffBalance { .. } => &[17, 18, 19, 21, 22],
            Amount::Value { netted, exempt } => match (netted, exempt) {
                (false, false) => &[4, 11, 21, 22],
                (false, true) => &[4, 8],
                (true, false) => &[4, 5, 10, 11, 21, 22],
                (true, true) => &[4, 5, 8, 10],
            },
            Amount::Lent { agent: false, .. } => &[14, 16, 21, 22],
            Amount::Lent { agent: true, .. } => &[15, 16, 21, 22],
        }
    }
}

/// By just the effect, or within the ceiling where there is no exact one.
fn row_21_moves(amount: Amount, raised: i64, moved: i64) -> Result<(), String> {
    match (amount.effect(), amount.ceiling()) {
        (Some(effect), _) => ensure(moved == effect * raised, "row 21 moves by another figure"),
        (None, Some(ceiling)) => {
            let most = ceiling * raised.abs();
            ensure(moved.abs() <= most, "row 21 moves too far")
        }
        (None, None) => Ok(()),
    }
}

/// A book and the same with this amount raised by so many units, or lowered where
/// they are negative, both accepted.
pub fn correction(
    first: &Answer,
    first_side: &Buffers,
    second: &Answer,
    second_side: &Buffers,
    amount: Amount,
    raised: i64,
) -> Result<(), String> {
    same_answer(first, second)?;
    same_register(first_side, second_side)?;
    let (before, after) = (&first_side.rows, &second_side.rows);
    let moved = after[20] - before[20];
    row_21_moves(amount, raised, moved)?;
    others_stay(before, after, amount.rows())?;
    sums(after)?;
    if moved <= 0 {
        no_worse(first, before, second, after)?;
    }
    if moved >= 0 {
        no_worse(second, after, first, before)?;
    }
    Ok(())
}
