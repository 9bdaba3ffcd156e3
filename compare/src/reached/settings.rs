//! Settings that were counted, and how that was refused.

use super::sets::protections;
use super::{Feature, Reached};
use crate::filing::{NO_SUCH_SET, NUMBERS};
use crate::generate::{members, sets_in, stretch, values, AMOUNT_LIMIT};
use crate::laws::ALL_COUNTS;
use crate::model::{counted, kinds, Entry, Verdicts, SETTINGS, SET_MARKS};

const COUNTS: &str = "settings with verdict 0, 1 and 2";
const DECIDES: &str = "mark that alone changes the verdict: bit, from, to";
const FILED: &str = "settings counted: filed verdict, others beside it";
const MEMBER: &str = "settings counted: kind of a member";
const AMONG: &str = "settings counted: sets before, sets behind";
const BEHIND: &str = "settings counted behind a set: kind";
const TIER_1: &str = "settings counted: Tier 1 of 0, below 0";
const REFUSED: &str = "settings asked for, book refused";

/// The ways in which a mark more can change a verdict.
const CHANGES: [[u32; 2]; 3] = [[1, 0], [1, 2], [0, 2]];

/// Netting with all margin marks, which count together, and with all but one.
const MARGIN: usize = 0b1_1111;
const ONE_MISSING: usize = 0b0_1111;

const PATTERNS: [&str; 23] = [
    "settings counted of an empty set",
    "settings counted of a set with the words of an earlier one",
    "settings counted: G = 0",
    "settings counted: N = 0 below G",
    "settings counted: N = G above 0",
    "settings counted: N between 0 and G",
    "settings counted: margin received below N",
    "settings counted: margin received is N above 0",
    "settings counted: margin received beyond N above 0",
    "margin decides by what is received alone",
    "margin decides by what is paid alone",
    "settings counted, entries behind the protections stay",
    "settings: 15 at a financing set",
    "settings: 15 at a financing set, its ordinal that of a derivative set among these alone",
    "settings: 15 in a book with financing sets alone",
    "settings: 15 in a book without sets",
    "settings: 15 at the ordinal behind the last set's",
    "settings: 15 at the largest ordinal",
    "settings: 15 where the low 32 bits are a derivative set's ordinal",
    "settings: 15 with protections in the register",
    "settings: 15, entries behind the protections stay",
    "settings: refused in the records, earlier contents cleared",
    "settings: refused in the records, entries behind the protections stay",
];

pub fn list() -> Vec<Feature> {
    let mut list: Vec<Feature> = PATTERNS.iter().map(|&name| (name, [0; 3])).collect();
    list.extend(ALL_COUNTS.map(|counts| (COUNTS, counts)));
    for bit in 0..SET_MARKS.count_ones() {
        list.extend(CHANGES.map(|[from, to]| (DECIDES, [bit, from, to])));
    }
    for verdict in 0..3 {
        list.extend([0, 1].map(|others| (FILED, [verdict, others, 0])));
    }
    let members = [
        kinds::TRADE,
        kinds::WRITTEN_CREDIT,
        kinds::COVER,
        kinds::BASKET,
    ];
    list.extend(members.map(|kind| (MEMBER, [kind, 0, 0])));
    list.extend([[0, 0], [0, 1], [1, 0], [1, 1]].map(|[a, b]| (AMONG, [a, b, 0])));
    let sets = [kinds::DERIVATIVE_SET, kinds::FINANCING_SET];
    list.extend(sets.map(|kind| (BEHIND, [kind, 0, 0])));
    list.extend([[0, 0], [1, 0], [0, 1]].map(|[a, b]| (TIER_1, [a, b, 0])));
    // Rows are not lent, so that 1 does not come.
    let refusals = NUMBERS.into_iter().filter(|&number| number > 1);
    list.extend(refusals.map(|number| (REFUSED, [number, 0, 0])));
    list
}

/// Where the sets of an accepted book begin: no other word has the kind of a head.
fn heads(book: &[u32]) -> Vec<usize> {
    let is_head = |&place: &usize| sets_in(&book[place..=place]) == 1;
    (0..book.len()).filter(is_head).collect()
}

/// The kinds of the records that begin here, each once.
fn kinds_at(book: &[u32], places: &[usize]) -> Vec<u32> {
    let mut kinds: Vec<u32> = places.iter().map(|&place| book[place] >> 28).collect();
    kinds.sort_unstable();
    kinds.dedup();
    kinds
}

fn is_derivative_set(book: &[u32], head: usize) -> bool {
    book[head] >> 28 == kinds::DERIVATIVE_SET
}

impl Reached {
    /// Counts a call for the set with this ordinal, in a register with these earlier
    /// contents.
    pub fn settings(
        &mut self,
        book: &[u32],
        ordinal: usize,
        register: &[Entry],
        verdicts: &Verdicts,
    ) {
        let protections = protections(book);
        let further = register.len() > protections;
        match verdicts {
            Ok(verdicts) => {
                let heads = heads(book);
                self.verdicts(book[heads[ordinal]], verdicts);
                self.counted_set(book, &heads, ordinal);
                self.values_and_margin(book, heads[ordinal], verdicts);
                let name = "settings counted, entries behind the protections stay";
                self.pattern(further, name);
            }
            Err(refused) if refused.number == NO_SUCH_SET => {
                self.no_derivative_set(book, ordinal);
                let name = "settings: 15 with protections in the register";
                self.pattern(protections > 0, name);
                self.pattern(further, "settings: 15, entries behind the protections stay");
            }
            Err(refused) => {
                self.came(REFUSED, [refused.number, 0, 0]);
                if !matches!(refused.number, 2..=4 | 16) {
                    self.refused_in_the_records(&register[..protections], further);
                }
            }
        }
    }

    fn verdicts(&mut self, head: u32, verdicts: &[u32; SETTINGS]) {
        let counts = counted(&Ok(*verdicts)).counts;
        self.came(COUNTS, counts);
        let filed = verdicts[(head & SET_MARKS) as usize];
        let others = counts[filed as usize] < SETTINGS as u32;
        self.came(FILED, [filed, others.into(), 0]);
        let mut changes = Vec::new();
        for bit in 0..SET_MARKS.count_ones() {
            let without = (0..SETTINGS).filter(|marks| marks >> bit & 1 == 0);
            changes.extend(without.map(|marks| {
                let [from, to] = [marks, marks | 1 << bit].map(|marks| verdicts[marks]);
                [bit, from, to]
            }));
        }
        changes.retain(|[_, from, to]| from != to);
        changes.sort_unstable();
        changes.dedup();
        for change in changes {
            self.came(DECIDES, change);
        }
    }

    fn counted_set(&mut self, book: &[u32], heads: &[usize], ordinal: usize) {
        let head = heads[ordinal];
        let (before, behind) = (&heads[..ordinal], &heads[ordinal + 1..]);
        let [any_before, any_behind] = [before, behind].map(|sets| u32::from(!sets.is_empty()));
        self.came(AMONG, [any_before, any_behind, 0]);
        for kind in kinds_at(book, before) {
            self.came(BEHIND, [kind, 0, 0]);
        }
        let mut derivatives = before.iter().filter(|&&set| is_derivative_set(book, set));
        let equal = derivatives.any(|&set| book[stretch(book, set)] == book[stretch(book, head)]);
        self.pattern(
            equal,
            "settings counted of a set with the words of an earlier one",
        );

        let members = members(book, head);
        self.pattern(members.is_empty(), "settings counted of an empty set");
        for kind in kinds_at(book, &members) {
            self.came(MEMBER, [kind, 0, 0]);
        }
        let [zero, negative] = [book[1] == 0, book[1] & AMOUNT_LIMIT != 0];
        self.came(TIER_1, [zero.into(), negative.into(), 0]);
    }

    fn values_and_margin(&mut self, book: &[u32], head: usize, verdicts: &[u32; SETTINGS]) {
        let net = values(book, head).sum::<i64>().max(0);
        let gains: i64 = values(book, head).map(|value| value.max(0)).sum();
        let [received, paid] = [1, 2].map(|amount| i64::from(book[head + amount]));
        let decides = verdicts[ONE_MISSING] != verdicts[MARGIN];
        for (holds, name) in [
            (gains == 0, "settings counted: G = 0"),
            (net == 0 && gains > 0, "settings counted: N = 0 below G"),
            (net == gains && gains > 0, "settings counted: N = G above 0"),
            (
                0 < net && net < gains,
                "settings counted: N between 0 and G",
            ),
            (received < net, "settings counted: margin received below N"),
            (
                net > 0 && received == net,
                "settings counted: margin received is N above 0",
            ),
            (
                net > 0 && received > net,
                "settings counted: margin received beyond N above 0",
            ),
            (
                decides && paid == 0,
                "margin decides by what is received alone",
            ),
            (
                decides && received.min(net) == 0,
                "margin decides by what is paid alone",
            ),
        ] {
            self.pattern(holds, name);
        }
    }

    fn no_derivative_set(&mut self, book: &[u32], ordinal: usize) {
        let heads = heads(book);
        let is_derivatives = |head: &&usize| is_derivative_set(book, **head);
        let derivatives = heads.iter().filter(is_derivatives).count();
        let financing = ordinal < heads.len();
        let low_bits = ordinal & u32::MAX as usize;
        let cut_off = ordinal != low_bits
            && heads
                .get(low_bits)
                .is_some_and(|&head| is_derivative_set(book, head));
        for (holds, name) in [
            (financing, "settings: 15 at a financing set"),
            (
                financing && ordinal < derivatives,
                "settings: 15 at a financing set, its ordinal that of a derivative set among these alone",
            ),
            (
                financing && derivatives == 0,
                "settings: 15 in a book with financing sets alone",
            ),
            (heads.is_empty(), "settings: 15 in a book without sets"),
            (
                !heads.is_empty() && ordinal == heads.len(),
                "settings: 15 at the ordinal behind the last set's",
            ),
            (
                ordinal == usize::MAX,
                "settings: 15 at the largest ordinal",
            ),
            (
                cut_off,
                "settings: 15 where the low 32 bits are a derivative set's ordinal",
            ),
        ] {
            self.pattern(holds, name);
        }
    }

    fn refused_in_the_records(&mut self, lent: &[Entry], further: bool) {
        let contents = lent.iter().any(|entry| *entry != Entry::default());
        let name = "settings: refused in the records, earlier contents cleared";
        self.pattern(contents, name);
        let name = "settings: refused in the records, entries behind the protections stay";
        self.pattern(further, name);
    }
}
