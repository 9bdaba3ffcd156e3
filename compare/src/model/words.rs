//! Single words: kind, payload bits and amounts.

use super::refusal::Cause;

/// The kinds of words, bits 31 to 28.
pub mod kinds {
    pub const AMOUNT: u32 = 0;
    pub const HEAD: u32 = 1;
    pub const ASSET: u32 = 2;
    pub const PROTECTION: u32 = 3;
    pub const DERIVATIVE_SET: u32 = 4;
    pub const TRADE: u32 = 5;
    pub const WRITTEN_CREDIT: u32 = 6;
    pub const COVER: u32 = 7;
    pub const FINANCING_SET: u32 = 8;
    pub const FINANCING_TRADE: u32 = 9;
    pub const OFF_BALANCE: u32 = 10;
    pub const BASKET: u32 = 11;
    pub const END: u32 = 15;
}

/// The most that an amount called days may be.
const MOST_DAYS: i64 = 65_535;

pub fn kind(word: u32) -> u32 {
    word >> 28
}

/// Bits 27 to 0 of a word.
#[derive(Clone, Copy)]
pub struct Payload(u32);

impl Payload {
    pub fn of(word: u32) -> Self {
        Payload(word & 0x0FFF_FFFF)
    }

    pub fn value(self) -> u32 {
        self.0
    }

    /// The sub-field of `width` bits whose lowest bit is `low`.
    pub fn field(self, low: u32, width: u32) -> u32 {
        self.0 >> low & ((1 << width) - 1)
    }

    pub fn bit(self, place: u32) -> bool {
        self.field(place, 1) == 1
    }

    /// Only the lowest `count` bits have a meaning; the others must be 0.
    pub fn only_lowest(self, count: u32) -> Result<(), Cause> {
        Cause::PayloadFaulty.unless(self.0 >> count == 0)
    }
}

/// An amount that may be negative; minus zero is faulty.
pub fn signed(word: u32) -> Result<i64, Cause> {
    let size = i64::from(word & 0x07FF_FFFF);
    let negative = word >> 27 & 1 == 1;
    match (negative, size) {
        (true, 0) => Err(Cause::AmountFaulty),
        (true, size) => Ok(-size),
        (false, size) => Ok(size),
    }
}

/// An amount that may not be negative.
pub fn unsigned(word: u32) -> Result<i64, Cause> {
    let amount = signed(word)?;
    Cause::AmountFaulty.unless(amount >= 0)?;
    Ok(amount)
}

pub fn days(word: u32) -> Result<i64, Cause> {
    let days = unsigned(word)?;
    Cause::AmountFaulty.unless(days <= MOST_DAYS)?;
    Ok(days)
}
