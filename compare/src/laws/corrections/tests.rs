//! That the law of corrections refuses what is beyond it, by one thousandth too.

use super::correction;
use crate::filing::Buffers;
use crate::generate::Amount;
use crate::model::{Answer, Entry, ROWS};

const FIRST: Answer = Answer {
    number: 0,
    place: 0,
    verdict: 1,
};

const RAISED: i64 = 3;

const ANOTHER_FIGURE: &str = "row 21 moves by another figure";

const CARRYING: Amount = Amount::Carrying { fiduciary: false };
const FIDUCIARY: Amount = Amount::Carrying { fiduciary: true };
const VALUE: Amount = value(false, false);
const PRINCIPAL: Amount = lent(false, false);
const AGENT: Amount = lent(true, false);
const FURTHER: Amount = lent(true, true);

const fn value(netted: bool, exempt: bool) -> Amount {
    Amount::Value { netted, exempt }
}

const fn off_balance(class: u32, committed: u32) -> Amount {
    Amount::OffBalance { class, committed }
}

const fn lent(agent: bool, further: bool) -> Amount {
    Amount::Lent { agent, further }
}

/// Buffers with so much more in this row, counted from 1, and in those that are
/// sums of it.
fn with(row: usize, more: i64) -> Buffers {
    let mut rows = vec![0; ROWS + 1];
    rows[3] = 1_000_000;
    rows[row - 1] += more;
    rows[2] += rows[..2].iter().sum::<i64>();
    rows[10] += rows[3..10].iter().sum::<i64>();
    rows[15] += rows[11..15].iter().sum::<i64>();
    rows[18] += rows[16..18].iter().sum::<i64>();
    rows[20] += rows[2] + rows[10] + rows[15] + rows[18];
    Buffers {
        rows,
        register: vec![Entry::default(); 2],
    }
}

fn held(amount: Amount, after: &Buffers) -> Result<(), String> {
    held_by(amount, RAISED, after)
}

fn held_by(amount: Amount, raised: i64, after: &Buffers) -> Result<(), String> {
    correction(&FIRST, &with(1, 0), &FIRST, after, amount, raised)
}

#[test]
fn exact_effects_and_no_others() {
    for (amount, row, effect) in [
        (CARRYING, 1, 1_000),
        (off_balance(1, 0), 17, 500),
        (off_balance(3, 0), 17, 1_000),
        // A credit substitute, and the cancellable commitment, each with the other
        // as its second class; and two of one figure.
        (off_balance(3, 2 + 1), 17, 100),
        (off_balance(2, 3 + 1), 17, 100),
        (off_balance(7, 1), 17, 200),
        (FIDUCIARY, 1, 0),
    ] {
        let exact = effect * RAISED;
        assert_eq!(held(amount, &with(row, exact)), Ok(()), "{amount:?}");
        let lowered = held_by(amount, -RAISED, &with(row, -exact));
        assert_eq!(lowered, Ok(()), "{amount:?}");
        for moved in [exact + 1, exact - 1] {
            let failed = held(amount, &with(row, moved));
            assert_eq!(failed, Err(ANOTHER_FIGURE.to_string()), "{amount:?}");
        }
    }
    // It falls where the amount is raised, and the other way round.
    for (raised, moved) in [(RAISED, -1_000 * RAISED), (-RAISED, 1_000 * RAISED)] {
        let failed = held_by(CARRYING, raised, &with(1, moved));
        assert_eq!(failed, Err(ANOTHER_FIGURE.to_string()));
    }
}

#[test]
fn ceilings_are_attained_and_not_passed() {
    for (amount, row, ceiling) in [
        (VALUE, 4, 1_000),
        (PRINCIPAL, 14, 1_000),
        (AGENT, 15, 1_000),
        (FURTHER, 15, 2_000),
    ] {
        let most = ceiling * RAISED;
        for moved in [most, -most, 0, 1] {
            assert_eq!(held(amount, &with(row, moved)), Ok(()), "{amount:?}");
        }
        for moved in [most + 1, -most - 1] {
            let failed = held(amount, &with(row, moved));
            assert_eq!(failed, Err("row 21 moves too far".to_string()));
        }
    }
}

#[test]
fn netted_values_have_no_ceiling() {
    for moved in [900_000_000, -900_000] {
        assert_eq!(held(value(true, false), &with(5, moved)), Ok(()));
    }
}

#[test]
fn rows_without_the_amount_stay() {
    let carried = 1_000 * RAISED;
    let converted = 200 * RAISED;
    for (amount, row, more, changed) in [
        (CARRYING, 2, carried, 2),
        (off_balance(0, 0), 1, converted, 1),
        (VALUE, 5, 1, 5),
        (VALUE, 8, 1, 8),
        (value(true, false), 8, 1, 8),
        // Rows 4 and 8 of an exempt set move against each other.
        (value(false, true), 4, 1, 11),
        (value(true, true), 5, 1, 11),
        (PRINCIPAL, 15, 1, 15),
        (AGENT, 14, 1, 14),
        (FURTHER, 14, 1, 14),
        (AGENT, 13, 1, 13),
        (AGENT, 20, 1, 20),
    ] {
        let failed = held(amount, &with(row, more));
        let expected = format!("another row {changed}");
        assert_eq!(failed, Err(expected), "{amount:?}");
    }
    let mut shifted = with(1, 1);
    shifted.rows[1] -= 1;
    shifted.rows[2] -= 1;
    shifted.rows[20] -= 1;
    let failed = held(FIDUCIARY, &shifted);
    assert_eq!(failed, Err("another row 1".to_string()));
    let failed = held(VALUE, &with(ROWS + 1, 1));
    assert_eq!(failed, Err("rows behind the last stay".to_string()));
}

#[test]
fn answer_register_and_sums_are_held() {
    let failed = |second: &Answer, after: &Buffers| {
        correction(&FIRST, &with(1, 0), second, after, VALUE, RAISED).unwrap_err()
    };
    let refused = Answer { number: 9, ..FIRST };
    assert_eq!(failed(&refused, &with(1, 0)), "another answer");
    let mut drawn = with(1, 0);
    drawn.register[1].left = 1;
    assert_eq!(failed(&FIRST, &drawn), "another register");
    assert_eq!(failed(&FIRST, &with(21, 1)), "row 21 is 3, 11, 16 and 19");
    let passing = Answer {
        verdict: 0,
        ..FIRST
    };
    assert_eq!(failed(&passing, &with(4, 1)), "verdict 0 lost");
}
