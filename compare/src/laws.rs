//! What holds of every filing, of two filings on two desks, and of two where the
//! second book has further covers or one amount corrected; and of sets that are
//! shown or have their settings counted.

mod corrections;
mod sets;
mod settings;

pub use corrections::{conversion, correction, CEILING, CONVERSION, FURTHER_CEILING};
pub use sets::{sets, shown};
pub use settings::{counted, counted_with_more_marks, counted_with_other_marks, ALL_COUNTS};

use crate::filing::{same_entries, Buffers, Lengths};
use crate::model::{Answer, Entry, FIRST_RECORD, ROWS};

fn ensure(holds: bool, what: &str) -> Result<(), String> {
    if holds {
        Ok(())
    } else {
        Err(what.to_string())
    }
}

/// Refused before any record was read, so that both buffers stay. This goes by
/// the stage and not by the number: 16 comes between 3 and 4.
fn before_the_records(answer: &Answer) -> bool {
    matches!(answer.number, 1..=4 | 16)
}

/// What holds of one filing by itself.
pub fn filing(
    book: &[u32],
    answer: &Answer,
    before: &Buffers,
    after: &Buffers,
    lengths: Lengths,
) -> Result<(), String> {
    let protections = if before_the_records(answer) {
        0
    } else {
        (book[0] & 0x0FFF_FFFF) as usize
    };
    let (lent, beyond) = after.register.split_at(protections);
    ensure(
        same_entries(beyond, &before.register[protections..]),
        "entries from b on stay",
    )?;
    if answer.number != 0 {
        ensure(after.rows == before.rows, "a refusal leaves the rows")?;
        ensure(answer.verdict == 3, "a refusal has verdict 3")?;
        ensure(answer.place <= book.len(), "the place is in the book")?;
        let cleared = lent.iter().all(|entry| *entry == Entry::default());
        return ensure(cleared, "a refusal clears the register");
    }
    ensure(lengths.rows >= ROWS, "short rows are refused")?;
    ensure(
        after.rows[ROWS..] == before.rows[ROWS..],
        "rows behind the last stay",
    )?;
    ensure(answer.place == 0, "an accepted book has place 0")?;
    sums(&after.rows)?;
    conserved(book, lent)
}

fn sums(rows: &[i64]) -> Result<(), String> {
    let sum = |rows: &[i64]| rows.iter().sum::<i64>();
    ensure(rows[2] == sum(&rows[0..2]), "row 3 is 1 and 2")?;
    ensure(rows[10] == sum(&rows[3..10]), "row 11 is 4 to 10")?;
    ensure(rows[15] == sum(&rows[11..15]), "row 16 is 12 to 15")?;
    ensure(rows[18] == sum(&rows[16..18]), "row 19 is 17 and 18")?;
    let exposure = rows[2] + rows[10] + rows[15] + rows[18];
    ensure(rows[20] == exposure, "row 21 is 3, 11, 16 and 19")?;
    ensure(exposure >= 0, "row 21 is not negative")
}

/// For each protection, the covers naming it and what is left of it come to
/// its available amount. In an accepted book only covers are of kind 7.
fn conserved(book: &[u32], register: &[Entry]) -> Result<(), String> {
    let mut accounted: Vec<u64> = register.iter().map(|entry| entry.left.into()).collect();
    for (place, word) in book.iter().enumerate().filter(|(_, word)| *word >> 28 == 7) {
        accounted[(word & 0xFFF) as usize] += u64::from(book[place + 1]);
    }
    let available = |protection: &[u32]| u64::from(protection[1] - protection[2]);
    let all = book[FIRST_RECORD..]
        .chunks(4)
        .zip(&accounted)
        .all(|(protection, sum)| available(protection) == *sum);
    ensure(all, "covers and what is left come to what was available")
}

fn same_answer(first: &Answer, second: &Answer) -> Result<(), String> {
    let ours = (first.number, first.place);
    ensure(ours == (second.number, second.place), "another answer")
}

fn same_register(first_side: &Buffers, second_side: &Buffers) -> Result<(), String> {
    let same = same_entries(&first_side.register, &second_side.register);
    ensure(same, "another register")
}

/// Of two accepted books: that no row changes but these, counted from 1.
fn others_stay(before: &[i64], after: &[i64], rows: &[usize]) -> Result<(), String> {
    let changed = |row: &usize| before[row - 1] != after[row - 1] && !rows.contains(row);
    if let Some(row) = (1..=ROWS).find(changed) {
        return Err(format!("another row {row}"));
    }
    ensure(before[ROWS..] == after[ROWS..], "rows behind the last stay")
}

/// More marks change neither whether a book is refused nor why, and they never
/// raise the exposure.
pub fn two_desks(
    first: &Answer,
    first_side: &Buffers,
    second: &Answer,
    second_side: &Buffers,
) -> Result<(), String> {
    same_answer(first, second)?;
    same_register(first_side, second_side)?;
    if first.number != 0 {
        return Ok(());
    }
    let (fewer, more) = (&first_side.rows, &second_side.rows);
    ensure(more[20] <= fewer[20], "a higher row 21")?;
    no_worse(first, fewer, second, more)?;
    sums(more)
}

/// What follows for verdict and ratio from an exposure that is not higher.
fn no_worse(first: &Answer, before: &[i64], second: &Answer, after: &[i64]) -> Result<(), String> {
    if first.verdict == 0 {
        ensure(second.verdict != 1, "verdict 0 lost")?;
    }
    if before[19] >= 0 && after[20] > 0 {
        ensure(after[21] >= before[21], "a lower row 22")?;
    }
    Ok(())
}

/// Rows that a cover enters: 8 and 10, and through them 11, 21 and 22.
const WITH_COVERS: [usize; 5] = [8, 10, 11, 21, 22];

/// A unit of further cover takes 1,000 thousandths off the exposure and brings
/// back at most 100, since no add-on is above 100 for a unit of its notional.
const LEAST_FALL: i64 = 900;
const MOST_FALL: i64 = 1_000;

/// A book and the same with further covers, both accepted, where these take so
/// much from each protection.
pub fn further_covers(
    first: &Answer,
    first_side: &Buffers,
    second: &Answer,
    second_side: &Buffers,
    drawn: &[u32],
) -> Result<(), String> {
    same_answer(first, second)?;
    let (before, after) = (&first_side.rows, &second_side.rows);
    others_stay(before, after, &WITH_COVERS)?;
    sums(after)?;
    let units: i64 = drawn.iter().copied().map(i64::from).sum();
    let fall = before[20] - after[20];
    ensure(fall >= LEAST_FALL * units, "row 21 falls by too little")?;
    ensure(fall <= MOST_FALL * units, "row 21 falls by too much")?;
    no_worse(first, before, second, after)?;
    drawn_down(&first_side.register, &second_side.register, drawn)
}

/// Each entry has less left by just what was drawn from it.
fn drawn_down(before: &[Entry], after: &[Entry], drawn: &[u32]) -> Result<(), String> {
    let mut expected = before.to_vec();
    for (entry, units) in expected.iter_mut().zip(drawn) {
        entry.left -= units;
    }
    let mut pairs = expected.iter().zip(after);
    match pairs.position(|(expected, entry)| expected != entry) {
        None => Ok(()),
        Some(place) => Err(format!("another entry {place}")),
    }
}
