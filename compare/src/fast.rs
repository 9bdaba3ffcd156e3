//! The same filing written for speed: one pass, unsigned sums, no allocation.
//! It shares only the types of the boundary with the model.

mod bands;
mod baskets;
mod credits;
mod derivatives;
mod financing;
mod sets;
mod settings;
mod sums;
mod trades;

pub use sets::show;
pub use settings::settings;

use crate::model::{Answer, Entry, FIRST_RECORD, LAST_DATE, LONGEST_BOOK, NO_VERDICT, ROWS};
use bands::{bands, Bands};
use derivatives::derivative_set;
use financing::financing_set;
use sums::Sums;

/// Conversion figures, each class one place later, as bits 4 to 7 count: at 0 is
/// that of none, which lowers nothing, and 0 stands for a class that is faulty.
const FIGURES: [u16; 17] = [
    1000, 200, 500, 100, 1000, 1000, 500, 500, 200, 1000, 500, 100, 0, 0, 0, 0, 0,
];

/// The lower of both figures, by the lowest eight bits of an off-balance item.
const CONVERSION: [u16; 256] = {
    let mut lower = [0; 256];
    let mut classes = 0;
    while classes < 256 {
        let own = FIGURES[(classes & 0xF) + 1];
        let committed = FIGURES[classes >> 4];
        lower[classes] = if own < committed { own } else { committed };
        classes += 1;
    }
    lower
};

/// The sign of an amount; alone it is minus zero.
const SIGN: u32 = 1 << 27;

struct Fault {
    number: u32,
    place: usize,
}

type Outcome<T> = Result<T, Fault>;

#[inline(always)]
fn check(fine: bool, number: u32, place: usize) -> Outcome<()> {
    if fine {
        Ok(())
    } else {
        Err(Fault { number, place })
    }
}

pub fn file(book: &[u32], rows: &mut [i64], register: &mut [Entry]) -> Answer {
    match filing(book, rows, register) {
        Ok(verdict) => Answer {
            number: 0,
            place: 0,
            verdict,
        },
        Err(Fault { number, place }) => Answer {
            number,
            place,
            verdict: NO_VERDICT,
        },
    }
}

fn filing(book: &[u32], rows: &mut [i64], register: &mut [Entry]) -> Outcome<u32> {
    check(rows.len() >= ROWS, 1, 0)?;
    check(book.len() <= LONGEST_BOOK, 2, 0)?;
    let Some(&[head, tier1, date]) = book.first_chunk::<FIRST_RECORD>() else {
        return Err(Fault {
            number: 3,
            place: 0,
        });
    };
    let protections = (head & 0x0FFF_FFFF) as usize;
    let good_head = head >> 28 == 1 && protections <= 4096 && tier1 >> 28 == 0 && tier1 != SIGN;
    check(good_head, 3, 0)?;
    // Words of other kinds and negative ones are larger still.
    check(date <= LAST_DATE, 16, 0)?;
    check(register.len() >= protections, 4, 0)?;

    let register = &mut register[..protections];
    let mut sums = Sums::default();
    let read = load(book, register)
        .and_then(|items| read_items(book, items, bands(date), register, &mut sums));
    if let Err(fault) = read {
        register.fill(Entry::default());
        return Err(fault);
    }
    let (gathered, verdict) = sums.rows(signed(tier1));
    rows[..ROWS].copy_from_slice(&gathered);
    Ok(verdict)
}

/// Signs are as good as random in a book, so no branch hangs on them.
#[inline(always)]
fn signed(word: u32) -> i64 {
    let size = i64::from(word & (SIGN - 1));
    let sign = -i64::from(word >> 27 & 1);
    (size ^ sign) - sign
}

/// An amount with a sign: neither of another kind nor minus zero.
#[inline(always)]
fn good_value(word: u32) -> bool {
    (word ^ SIGN).wrapping_sub(1) < 2 * SIGN - 1
}

/// The amounts behind the word at `place`, all of kind 0, or cause 6.
#[inline(always)]
fn amounts<const COUNT: usize>(book: &[u32], place: usize) -> Outcome<&[u32; COUNT]> {
    match book[place + 1..].first_chunk::<COUNT>() {
        Some(words) if any_bit(words) >> 28 == 0 => Ok(words),
        _ => Err(Fault { number: 6, place }),
    }
}

#[inline(always)]
fn any_bit(words: &[u32]) -> u32 {
    words.iter().fold(0, |all, word| all | word)
}

/// Reads the protections into the register; returns where the items begin.
fn load(book: &[u32], register: &mut [Entry]) -> Outcome<usize> {
    let mut place = FIRST_RECORD;
    for entry in register {
        let Some(&word) = book.get(place) else {
            return Err(Fault { number: 14, place });
        };
        check(word >> 28 == 3, 5, place)?;
        let &[notional, gain, days] = amounts(book, place)?;
        check(word & 0x0FF0_0000 == 0, 7, place)?;
        let plain = (notional | gain) < SIGN && days <= 0xFFFF;
        check(plain, 8, place)?;
        check(gain <= notional, 9, place)?;
        *entry = Entry {
            entity: word & 0xFFFF,
            rank: word >> 16 & 0xF,
            days,
            left: notional - gain,
        };
        place += 4;
    }
    Ok(place)
}

fn read_items(
    book: &[u32],
    mut place: usize,
    bands: Bands,
    register: &mut [Entry],
    sums: &mut Sums,
) -> Outcome<()> {
    while let Some(&word) = book.get(place) {
        match word >> 28 {
            2 => place = assets(book, place, sums)?,
            4 => place = derivative_set(book, place, word, bands, register, sums)?,
            8 => place = financing_set(book, place, word, sums)?,
            10 => place = off_balance(book, place, sums)?,
            15 => {
                let counted = (word & 0x0FFF_FFFF) as usize == place;
                return check(counted && place + 1 == book.len(), 14, place);
            }
            _ => return Err(Fault { number: 5, place }),
        }
    }
    Err(Fault { number: 14, place })
}

/// The word at `place` if it is there and of this kind.
#[inline(always)]
fn of_kind(book: &[u32], place: usize, kind: u32) -> Option<u32> {
    book.get(place).copied().filter(|word| word >> 28 == kind)
}

/// Where a run of good records of this kind ended: at a word of another kind, or at
/// the record that is not good, and then with its fault.
#[inline(always)]
fn run_end(
    book: &[u32],
    end: usize,
    kind: u32,
    fault: impl FnOnce(u32) -> Outcome<()>,
) -> Outcome<usize> {
    if let Some(word) = of_kind(book, end, kind) {
        fault(word)?;
        unreachable!("a record without a fault ends no run of its kind");
    }
    Ok(end)
}

/// A run of assets; like items stand together, so their sums stay at hand.
fn assets(book: &[u32], from: usize, sums: &mut Sums) -> Outcome<usize> {
    let mut behind = &book[from..];
    let (mut total_kept, mut total_deducted) = (0, 0);
    while let Some((&asset, rest)) = behind.split_first_chunk() {
        if !good_asset(asset) {
            break;
        }
        let [word, carrying, provision, deducted] = asset;
        // Of a fiduciary asset only what row 2 takes out again.
        let kept = carrying - provision - deducted;
        total_kept += u64::from(kept) * u64::from(!word & 1);
        total_deducted += u64::from(deducted);
        behind = rest;
    }
    sums.carried += total_kept + total_deducted;
    sums.deducted += total_deducted;
    let end = book.len() - behind.len();
    run_end(book, end, 2, |word| asset_fault(book, end, word))
}

/// None of the causes that an asset can be faulty for, in few tests: what is below
/// the sign is of kind 0 as well.
#[inline(always)]
fn good_asset([word, carrying, provision, deducted]: [u32; 4]) -> bool {
    word >> 1 == 2 << 27
        && (carrying | provision | deducted) < SIGN
        && provision + deducted <= carrying
}

/// Why an asset is not good.
#[cold]
fn asset_fault(book: &[u32], place: usize, word: u32) -> Outcome<()> {
    let &[carrying, provision, deducted] = amounts(book, place)?;
    check(word & 0x0FFF_FFFE == 0, 7, place)?;
    check((carrying | provision | deducted) < SIGN, 8, place)?;
    check(provision + deducted <= carrying, 9, place)
}

/// A run of off-balance items.
fn off_balance(book: &[u32], from: usize, sums: &mut Sums) -> Outcome<usize> {
    let mut behind = &book[from..];
    let (mut total, mut converted) = (0, 0);
    while let Some((&[word, notional], rest)) = behind.split_first_chunk() {
        let figure = conversion(word);
        if !(word >> 8 == 10 << 20 && notional < SIGN && figure != 0) {
            break;
        }
        total += u64::from(notional);
        converted += figure * u64::from(notional);
        behind = rest;
    }
    sums.off_balance += total;
    sums.converted += converted;
    let end = book.len() - behind.len();
    run_end(book, end, 10, |word| off_balance_fault(book, end, word))
}

/// Per thousand; 0 where a class is faulty.
#[inline(always)]
fn conversion(word: u32) -> u64 {
    u64::from(CONVERSION[(word & 0xFF) as usize])
}

/// Why an off-balance item is not good.
#[cold]
fn off_balance_fault(book: &[u32], place: usize, word: u32) -> Outcome<()> {
    let &[notional] = amounts(book, place)?;
    check(word & 0x0FFF_FF00 == 0 && conversion(word) != 0, 7, place)?;
    check(notional < SIGN, 8, place)
}
