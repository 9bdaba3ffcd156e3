//! The head stands apart: it is judged before the register and the records,
//! and its faults are two causes, one of them for the date alone.

use super::factors::Bands;
use super::refusal::Cause;
use super::words::{kind, kinds, signed, unsigned, Payload};
use super::{FIRST_RECORD, LAST_DATE};

const MOST_PROTECTIONS: u32 = 4_096;

pub struct Head {
    pub protections: usize,
    pub tier1: i64,
    /// The bands at the reporting date, for all trades of the book.
    pub bands: Bands,
}

impl Head {
    pub fn read(book: &[u32]) -> Result<Self, Cause> {
        let &[head, tier1, date] = book.first_chunk::<FIRST_RECORD>().ok_or(Cause::NoHead)?;
        let count = Payload::of(head).value();
        Cause::NoHead.unless(kind(head) == kinds::HEAD && count <= MOST_PROTECTIONS)?;
        Cause::NoHead.unless(kind(tier1) == kinds::AMOUNT)?;
        let tier1 = signed(tier1).map_err(|_| Cause::NoHead)?;
        Ok(Head {
            protections: count as usize,
            tier1,
            bands: Bands::at(reporting_date(date)?),
        })
    }
}

/// Days since 1 January 2000: a good amount, not negative, and none too late.
fn reporting_date(word: u32) -> Result<i64, Cause> {
    Cause::DateFaulty.unless(kind(word) == kinds::AMOUNT)?;
    let date = unsigned(word).map_err(|_| Cause::DateFaulty)?;
    Cause::DateFaulty.unless(date <= i64::from(LAST_DATE))?;
    Ok(date)
}
