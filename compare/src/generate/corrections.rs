//! The same book with one amount corrected, of those whose effect on the exposure
//! is known or has a ceiling. Now and then it is the value of a netted trade, of
//! which there is neither.

use super::{amounts, Random, AMOUNT_LIMIT};
use crate::model::kinds;

/// The mark of an asset.
const FIDUCIARY: u32 = 1;
/// The two classes of an off-balance item, one behind the other.
const CLASS_BITS: u32 = 4;
const CLASS: u32 = (1 << CLASS_BITS) - 1;
/// Marks of a derivative set.
const NETTING: u32 = 1;
const EXEMPT: u32 = 1 << 5;
/// Marks of a financing set.
const AGENT: u32 = 1 << 1;
const FURTHER_EXPOSURE: u32 = 1 << 2;

/// Amounts by their place behind the word of their record. Those that can be
/// corrected are the first of theirs, but for the value lent.
const FIRST: usize = 1;
const LENT: usize = 5;
const PROVISION: usize = 2;
const DEDUCTED: usize = 3;

pub(super) const LARGEST: i32 = AMOUNT_LIMIT as i32 - 1;

/// One in so many books has a netted value corrected, if there is any.
const NETTED_VALUES: u32 = 4;

/// What an amount is, with the marks and classes that tell how it enters which
/// rows.
#[derive(Clone, Copy, PartialEq, Debug)]
pub enum Amount {
    /// The carrying amount of an asset.
    Carrying { fiduciary: bool },
    /// The notional of an off-balance item, by its class, and 0 or one more than
    /// the class that it is committed to.
    OffBalance { class: u32, committed: u32 },
    /// The value of a trade, a written credit or a basket.
    Value { netted: bool, exempt: bool },
    /// The value lent of a financing trade.
    Lent { agent: bool, further: bool },
}

impl Amount {
    /// The amount of a record that can be corrected, if it has one, by the
    /// record's word and the word of the set that it may be in.
    fn of(word: u32, set: u32) -> Option<Self> {
        let marked = |mark: u32| set & mark != 0;
        Some(match word >> 28 {
            kinds::ASSET => Amount::Carrying {
                fiduciary: word & FIDUCIARY != 0,
            },
            kinds::OFF_BALANCE => Amount::OffBalance {
                class: word & CLASS,
                committed: word >> CLASS_BITS & CLASS,
            },
            kinds::TRADE | kinds::WRITTEN_CREDIT | kinds::BASKET => Amount::Value {
                netted: marked(NETTING),
                exempt: marked(EXEMPT),
            },
            kinds::FINANCING_TRADE => Amount::Lent {
                agent: marked(AGENT),
                further: marked(FURTHER_EXPOSURE),
            },
            _ => return None,
        })
    }

    fn is_netted_value(self) -> bool {
        matches!(self, Amount::Value { netted: true, .. })
    }

    /// All off-balance notionals are of one sort: one for each pair of classes would
    /// crowd the others out.
    fn is_of_sort(self, other: Self) -> bool {
        let off_balance = |amount| matches!(amount, Amount::OffBalance { .. });
        self == other || off_balance(self) && off_balance(other)
    }

    /// Where in its record it stands.
    fn offset(self) -> usize {
        match self {
            Amount::Lent { .. } => LENT,
            _ => FIRST,
        }
    }

    /// The least that it may be in this record.
    fn least(self, record: &[u32]) -> i32 {
        match self {
            Amount::Carrying { .. } => signed(record[PROVISION]) + signed(record[DEDUCTED]),
            Amount::Value { .. } => -LARGEST,
            Amount::OffBalance { .. } | Amount::Lent { .. } => 0,
        }
    }
}

/// An accepted book with one amount that is another than in the first.
pub struct Correction {
    pub book: Vec<u32>,
    pub amount: Amount,
    /// Where the record of the amount begins, and the last set before it, which is
    /// its own if it is in one.
    pub record: usize,
    pub set: usize,
    /// The amount in the first book, and in this one.
    pub before: i64,
    pub after: i64,
}

impl Correction {
    /// Units by which the amount is larger than in the first book, both with their
    /// signs: 10 from -5 to 5, and -10 back.
    pub fn raised(&self) -> i64 {
        self.after - self.before
    }

    fn new(book: &[u32], place: &Place, random: &mut Random) -> Self {
        let index = place.record + place.amount.offset();
        let before = signed(book[index]);
        let least = place.amount.least(&book[place.record..]);
        let after = another(before, least, random);
        let mut book = book.to_vec();
        book[index] = word_of(after);
        Correction {
            book,
            amount: place.amount,
            record: place.record,
            set: place.set,
            before: before.into(),
            after: after.into(),
        }
    }
}

/// Where an amount is that can be corrected.
#[derive(Clone, Copy)]
struct Place {
    amount: Amount,
    record: usize,
    set: usize,
}

/// Of an accepted book: one with an amount that has a ceiling, where it has any,
/// and now and then one with a netted value.
pub fn corrections(book: &[u32], random: &mut Random) -> Vec<Correction> {
    let (netted, bounded): (Vec<Place>, Vec<Place>) = places(book)
        .into_iter()
        .partition(|place| place.amount.is_netted_value());
    let mut chosen = Vec::from_iter(choose(&bounded, random));
    if random.one_in(NETTED_VALUES) {
        chosen.extend(choose(&netted, random));
    }
    let correction = |place| Correction::new(book, place, random);
    chosen.iter().map(correction).collect()
}

fn places(book: &[u32]) -> Vec<Place> {
    let mut places = Vec::new();
    let (mut record, mut set) = (0, 0);
    while record < book.len() {
        let word = book[record];
        if matches!(word >> 28, kinds::DERIVATIVE_SET | kinds::FINANCING_SET) {
            set = record;
        }
        if let Some(amount) = Amount::of(word, book[set]) {
            // An asset can be used up by the largest provision and deduction.
            if amount.least(&book[record..]) < LARGEST {
                places.push(Place {
                    amount,
                    record,
                    set,
                });
            }
        }
        record += 1 + amounts(word);
    }
    places
}

/// What the amount is goes first, so that each sort comes often, however few of
/// it there are among others.
fn choose(places: &[Place], random: &mut Random) -> Option<Place> {
    let mut sorts: Vec<Amount> = Vec::new();
    for place in places {
        if !sorts.iter().any(|sort| sort.is_of_sort(place.amount)) {
            sorts.push(place.amount);
        }
    }
    if sorts.is_empty() {
        return None;
    }
    let sort = random.pick(&sorts);
    let of_sort: Vec<Place> = places
        .iter()
        .filter(|place| place.amount.is_of_sort(sort))
        .copied()
        .collect();
    Some(random.pick(&of_sort))
}

/// Another amount from the least up to the largest, often the next one. There is
/// one, since the least is below the largest.
fn another(amount: i32, least: i32, random: &mut Random) -> i32 {
    loop {
        let tried = match random.below(14) {
            0..=2 => amount + 1,
            3..=5 => amount - 1,
            6 => 0,
            7 | 8 => random.pick(&[least, LARGEST]),
            9 | 10 => -amount,
            11 | 12 => amount + random.below(200) as i32 - 100,
            _ => least + random.below((LARGEST - least + 1) as u32) as i32,
        };
        if tried != amount && (least..=LARGEST).contains(&tried) {
            return tried;
        }
    }
}

/// The amount that a good word has.
pub(super) fn signed(word: u32) -> i32 {
    let size = (word & (AMOUNT_LIMIT - 1)) as i32;
    if word & AMOUNT_LIMIT == 0 {
        size
    } else {
        -size
    }
}

/// The sign goes into the bit above the largest size.
pub(super) fn word_of(amount: i32) -> u32 {
    let sign = if amount < 0 { AMOUNT_LIMIT } else { 0 };
    sign | amount.unsigned_abs()
}
