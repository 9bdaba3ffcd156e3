//! Amounts that were corrected, and how far that moved the exposure.

use super::{Feature, Reached, Record, LARGEST};
use crate::generate::{Amount, Correction};
use crate::laws::{conversion, CEILING, CONVERSION, FURTHER_CEILING};
use crate::model::kinds;

/// How far something moves the way the amount does, against the most that is
/// asked about.
const STAYS: u32 = 0;
const PART: u32 = 1;
const WHOLE: u32 = 2;
const BEYOND: u32 = 3;
const AGAINST: u32 = 4;

/// The amounts that have only a ceiling, with how far they move row 21 against it.
const BOUNDED: [(&str, &[u32]); 3] = [
    (VALUE, &[STAYS, PART, WHOLE]),
    (LENT, &[STAYS, PART, WHOLE]),
    (LENT_FURTHER, &[PART, WHOLE]),
];
const VALUE: &str = "value: rises, row 21 moves";
const LENT: &str = "value lent: rises, row 21 moves";
const LENT_FURTHER: &str = "value lent with further exposure: rises, row 21 moves";

const FIDUCIARY: &str = "carrying amount: fiduciary, rises";
const CONVERTED: &str = "off-balance notional: class, second class, rises";
const SIGN: &str = "change of a value's sign: kind, exempt, rises";
const NETTED_SIGN: &str = "change of a netted value's sign: kind, exempt, rises";
const NETTED: &str = "netted value: rises, row 21 moves";
const NETTED_BEYOND: &str = "netted value that moves row 21 beyond 1,000 a unit: kind, rises";
const E_STAR: &str = "value lent: marks of its set, rises, E* moves";

const PATTERNS: [&str; 8] = [
    "carrying amount down to provision and deduction",
    "loss to another loss, row 21 stays",
    "gain to another gain",
    "value from -1 to 1",
    "value from 1 to -1",
    "value from one end to the other",
    // What E* over a set tells from that of its trades.
    "value lent within its own received that moves E* of a netted set",
    "value lent beyond its own received that leaves E* of a netted set",
];

/// The second class of an off-balance item, against its own.
const NONE: u32 = 0;
const NOT_LOWER: u32 = 1;
const LOWER: u32 = 2;

/// The marks that a financing set can have: netting, agent, further exposure.
const FINANCING_MARKS: [u32; 6] = [0b000, 0b001, 0b010, 0b011, 0b110, 0b111];
const NETTING: u32 = 0b001;

/// The place of the value received among the amounts of a financing trade.
const RECEIVED: usize = 5;

pub fn list() -> Vec<Feature> {
    let mut list: Vec<Feature> = PATTERNS.iter().map(|&name| (name, [0; 3])).collect();
    for rises in 0..2 {
        for (class, figure) in (0..).zip(CONVERSION) {
            list.extend([NONE, NOT_LOWER].map(|second| (CONVERTED, [class, second, rises])));
            let lower = CONVERSION.iter().any(|&other| other < figure);
            list.extend(lower.then_some((CONVERTED, [class, LOWER, rises])));
        }
        for (name, moves) in BOUNDED {
            list.extend(moves.iter().map(|&moves| (name, [rises, moves, 0])));
        }
        list.extend([0, 1].map(|fiduciary| (FIDUCIARY, [fiduciary, rises, 0])));
        for kind in [kinds::TRADE, kinds::WRITTEN_CREDIT, kinds::BASKET] {
            list.extend([0, 1].map(|exempt| (SIGN, [kind, exempt, rises])));
            list.extend([0, 1].map(|exempt| (NETTED_SIGN, [kind, exempt, rises])));
            list.push((NETTED_BEYOND, [kind, rises, 0]));
        }
        let moves = [STAYS, PART, WHOLE, BEYOND, AGAINST];
        list.extend(moves.map(|moves| (NETTED, [rises, moves, 0])));
        for marks in FINANCING_MARKS {
            let moves = [STAYS, PART, WHOLE];
            list.extend(moves.map(|moves| (E_STAR, [marks, rises, moves])));
        }
    }
    list
}

/// A correction, with its record and set as they are in the corrected book.
struct Corrected<'a> {
    record: Record<'a>,
    set: Record<'a>,
    before: i64,
    after: i64,
    distance: i64,
    /// How far row 21 moves the way the amount does.
    along: i64,
}

impl Corrected<'_> {
    fn rises(&self) -> u32 {
        u32::from(self.after > self.before)
    }

    /// How far so many thousandths go, against so many for each unit.
    fn extent(&self, along: i64, ceiling: i64) -> u32 {
        let most = ceiling * self.distance;
        match along {
            0 => STAYS,
            ..0 => AGAINST,
            _ if along < most => PART,
            _ if along == most => WHOLE,
            _ => BEYOND,
        }
    }

    fn both(&self, holds: impl Fn(i64) -> bool) -> bool {
        holds(self.before) && holds(self.after)
    }

    fn changes_sign(&self) -> bool {
        self.before.signum() * self.after.signum() < 0
    }
}

impl Reached {
    /// Counts a correction that moved row 21 by so much.
    pub fn correction(&mut self, correction: &Correction, moved: i64) {
        let (before, after) = (correction.before, correction.after);
        let corrected = Corrected {
            record: Record::at(&correction.book, correction.record),
            set: Record::at(&correction.book, correction.set),
            before,
            after,
            distance: correction.raised().abs(),
            along: moved * correction.raised().signum(),
        };
        match correction.amount {
            Amount::Carrying { fiduciary } => self.carrying(&corrected, fiduciary),
            Amount::OffBalance { class, committed } => {
                self.off_balance(&corrected, class, committed)
            }
            Amount::Value {
                netted: false,
                exempt,
            } => self.value(&corrected, exempt),
            Amount::Value {
                netted: true,
                exempt,
            } => self.netted_value(&corrected, exempt),
            Amount::Lent { further, .. } => self.lent(&corrected, further),
        }
    }

    fn carrying(&mut self, asset: &Corrected, fiduciary: bool) {
        self.came(FIDUCIARY, [fiduciary.into(), asset.rises(), 0]);
        let provision_and_deduction: u32 = asset.record.amounts[1..].iter().sum();
        let name = "carrying amount down to provision and deduction";
        self.pattern(asset.after == provision_and_deduction.into(), name);
    }

    fn off_balance(&mut self, item: &Corrected, class: u32, committed: u32) {
        let second = match committed {
            0 => NONE,
            _ if conversion(class, committed) < conversion(class, 0) => LOWER,
            _ => NOT_LOWER,
        };
        self.came(CONVERTED, [class, second, item.rises()]);
    }

    fn value(&mut self, value: &Corrected, exempt: bool) {
        let moves = value.extent(value.along, CEILING);
        self.came(VALUE, [value.rises(), moves, 0]);
        if value.changes_sign() {
            self.came(SIGN, [value.record.kind, exempt.into(), value.rises()]);
        }
        if exempt {
            return;
        }
        let stays = value.both(|value| value < 0) && value.along == 0;
        self.pattern(stays, "loss to another loss, row 21 stays");
        self.pattern(value.both(|value| value > 0), "gain to another gain");
        let ends = (value.before, value.after);
        self.pattern(ends == (-1, 1), "value from -1 to 1");
        self.pattern(ends == (1, -1), "value from 1 to -1");
        let whole = value.distance == 2 * i64::from(LARGEST);
        self.pattern(whole, "value from one end to the other");
    }

    fn netted_value(&mut self, value: &Corrected, exempt: bool) {
        let (kind, rises) = (value.record.kind, value.rises());
        if value.changes_sign() {
            self.came(NETTED_SIGN, [kind, exempt.into(), rises]);
        }
        let moves = value.extent(value.along, CEILING);
        self.came(NETTED, [rises, moves, 0]);
        if moves == BEYOND {
            self.came(NETTED_BEYOND, [kind, rises, 0]);
        }
    }

    fn lent(&mut self, lent: &Corrected, further: bool) {
        let (name, ceiling) = match further {
            false => (LENT, CEILING),
            true => (LENT_FURTHER, FURTHER_CEILING),
        };
        let moves = lent.extent(lent.along, ceiling);
        self.came(name, [lent.rises(), moves, 0]);
        // Further exposure moves by the whole distance; the remainder is E*.
        let further = i64::from(further) * CEILING * lent.distance;
        let moves = lent.extent(lent.along - further, CEILING);
        let marks = lent.set.payload;
        self.came(E_STAR, [marks, lent.rises(), moves]);
        if marks & NETTING == 0 {
            return;
        }
        let received = i64::from(lent.record.amounts[RECEIVED]);
        let within = lent.both(|lent| lent <= received) && moves != STAYS;
        let name = "value lent within its own received that moves E* of a netted set";
        self.pattern(within, name);
        let beyond = lent.both(|lent| lent >= received) && moves == STAYS;
        let name = "value lent beyond its own received that leaves E* of a netted set";
        self.pattern(beyond, name);
    }
}
