//! Sets that were shown, and how that was refused.

use super::{Feature, Reached};
use crate::filing::{NO_SUCH_SET, NUMBERS};
use crate::model::{kinds, Entry, Shown, FIRST_RECORD, LONGEST_BOOK};

const EMPTY: &str = "empty set shown: kind, words";
const MEMBER: &str = "set shown: kind, kind of a member";
const LAST_MEMBER: &str = "set shown: kind, kind of its last member";
const BEFORE: &str = "set shown: kind, kind of the record before it";
const BEHIND: &str = "set shown: kind, kind of the word behind it";
const EQUAL: &str = "set shown with the words of an earlier one: kind, empty";
const LENGTH: &str = "set shown: words";
const ITEMS_BEFORE: &str = "set shown: words of items before it";
const REFUSED: &str = "set asked for, book refused";

const PATTERNS: [&str; 18] = [
    "set shown, the only one",
    "set shown, the first of several",
    "set shown, one between others",
    "set shown, the last of several",
    "set shown behind sets of both kinds",
    "set shown of a book with as many words as there may be",
    "15 in a book without sets",
    "15 at the ordinal behind the last set's",
    "15 at the largest ordinal",
    "15 where the low 32 bits are a set's ordinal",
    "15 with protections in the register",
    "4 with one entry too few",
    "refused before the records, at the largest ordinal",
    "refused in the records, at the largest ordinal",
    "refused in the records, earlier contents cleared",
    "entries behind the protections stay, set shown",
    "entries behind the protections stay, 15",
    "entries behind the protections stay, refused in the records",
];

/// Where a search in steps would end one of them.
const STEPS: [u32; 6] = [32, 64, 128, 256, 512, 1_024];

/// Kinds of sets, with those of their members.
const SETS: [(u32, &[u32]); 2] = [
    (
        kinds::DERIVATIVE_SET,
        &[
            kinds::TRADE,
            kinds::WRITTEN_CREDIT,
            kinds::COVER,
            kinds::BASKET,
        ],
    ),
    (kinds::FINANCING_SET, &[kinds::FINANCING_TRADE]),
];

pub fn list() -> Vec<Feature> {
    let mut list: Vec<Feature> = PATTERNS.iter().map(|&name| (name, [0; 3])).collect();
    list.extend([(EMPTY, [4, 4, 0]), (EMPTY, [8, 1, 0])]);
    for (kind, members) in SETS {
        list.extend(members.iter().map(|&member| (MEMBER, [kind, member, 0])));
        list.extend(members.iter().map(|&last| (LAST_MEMBER, [kind, last, 0])));
        let any_record = (1..=11).map(|before| (BEFORE, [kind, before, 0]));
        list.extend(any_record);
        list.extend([2, 4, 8, 10, 15].map(|behind| (BEHIND, [kind, behind, 0])));
        list.extend([0, 1].map(|empty| (EQUAL, [kind, empty, 0])));
    }
    for words in STEPS.iter().flat_map(|step| [step - 1, *step, step + 1]) {
        list.extend([LENGTH, ITEMS_BEFORE].map(|name| (name, [words, 0, 0])));
    }
    // Rows are not lent, so that 1 does not come.
    let refusals = NUMBERS.into_iter().filter(|&number| number > 1);
    list.extend(refusals.map(|number| (REFUSED, [number, 0, 0])));
    list
}

/// A set as it stands in its book.
struct Set<'a> {
    ordinal: usize,
    /// How many sets the book has.
    of: usize,
    before: &'a [u32],
    stretch: &'a [u32],
    behind: &'a [u32],
}

/// The kinds of the records in words that are found good: amounts are of kind 0.
fn kinds_in(words: &[u32]) -> impl DoubleEndedIterator<Item = u32> + '_ {
    let kinds = words.iter().map(|word| word >> 28);
    kinds.filter(|&kind| kind != kinds::AMOUNT)
}

/// The count of protections that the head has, good or not.
pub(super) fn protections(book: &[u32]) -> usize {
    book.first().map_or(0, |word| word & 0x0FFF_FFFF) as usize
}

impl Reached {
    /// Counts the answers for one book, by rising ordinals, in a register with these
    /// earlier contents. Of an accepted book the first ordinal without a set is
    /// among them.
    pub fn sets(&mut self, book: &[u32], register: &[Entry], answers: &[(usize, Shown)]) {
        let protections = protections(book);
        let further = register.len() > protections;
        let no_set = answers
            .iter()
            .find(|(_, shown)| shown.number == NO_SUCH_SET);
        let of = no_set.map_or(0, |(ordinal, _)| *ordinal);
        for (index, &(ordinal, shown)) in answers.iter().enumerate() {
            match shown.number {
                0 => {
                    let (before, rest) = book.split_at(shown.begin(book).unwrap_or_default());
                    let (stretch, behind) = rest.split_at(shown.stretch.len());
                    let set = Set {
                        ordinal,
                        of,
                        before,
                        stretch,
                        behind,
                    };
                    self.shown_set(&set);
                    self.words_of_set(&set, &answers[..index]);
                    self.pattern(further, "entries behind the protections stay, set shown");
                }
                NO_SUCH_SET => {
                    self.no_such_set(ordinal, of);
                    self.pattern(protections > 0, "15 with protections in the register");
                    self.pattern(further, "entries behind the protections stay, 15");
                }
                number => self.refused_book(number, ordinal, protections, register),
            }
        }
    }

    fn shown_set(&mut self, set: &Set) {
        let several = set.of > 1;
        let [first, last] = [set.ordinal == 0, set.ordinal + 1 == set.of];
        self.pattern(!several, "set shown, the only one");
        self.pattern(several && first, "set shown, the first of several");
        self.pattern(!first && !last, "set shown, one between others");
        self.pattern(several && last, "set shown, the last of several");
        let before = |kind| set.before.iter().any(|word| word >> 28 == kind);
        let both = before(kinds::DERIVATIVE_SET) && before(kinds::FINANCING_SET);
        self.pattern(both, "set shown behind sets of both kinds");

        let [before, words, behind] = [set.before, set.stretch, set.behind].map(<[u32]>::len);
        let full = before + words + behind == LONGEST_BOOK;
        let name = "set shown of a book with as many words as there may be";
        self.pattern(full, name);
        let head_and_protections = FIRST_RECORD + 4 * protections(set.before);
        let items = before - head_and_protections;
        self.came(ITEMS_BEFORE, [items as u32, 0, 0]);
        self.came(LENGTH, [words as u32, 0, 0]);
    }

    fn words_of_set(&mut self, set: &Set, earlier: &[(usize, Shown)]) {
        let kind = set.stretch[0] >> 28;
        let words = set.stretch.len() as u32;
        let mut members: Vec<u32> = kinds_in(set.stretch).skip(1).collect();
        let empty = members.is_empty();
        for (name, neighbour) in [
            (BEFORE, kinds_in(set.before).next_back()),
            (LAST_MEMBER, members.last().copied()),
            (BEHIND, kinds_in(set.behind).next()),
        ] {
            if let Some(neighbour) = neighbour {
                self.came(name, [kind, neighbour, 0]);
            }
        }
        members.sort_unstable();
        members.dedup();
        for member in members {
            self.came(MEMBER, [kind, member, 0]);
        }
        if empty {
            self.came(EMPTY, [kind, words, 0]);
        }
        let mut shown_earlier = earlier.iter().map(|(_, shown)| shown.stretch);
        if shown_earlier.any(|stretch| stretch == set.stretch) {
            self.came(EQUAL, [kind, empty.into(), 0]);
        }
    }

    fn no_such_set(&mut self, ordinal: usize, sets: usize) {
        self.pattern(sets == 0, "15 in a book without sets");
        let next = sets > 0 && ordinal == sets;
        self.pattern(next, "15 at the ordinal behind the last set's");
        self.pattern(ordinal == usize::MAX, "15 at the largest ordinal");
        let low_bits = ordinal & u32::MAX as usize;
        let cut_off = ordinal != low_bits && low_bits < sets;
        self.pattern(cut_off, "15 where the low 32 bits are a set's ordinal");
    }

    fn refused_book(
        &mut self,
        number: u32,
        ordinal: usize,
        protections: usize,
        register: &[Entry],
    ) {
        self.came(REFUSED, [number, 0, 0]);
        let largest = ordinal == usize::MAX;
        if matches!(number, 2..=4 | 16) {
            let name = "refused before the records, at the largest ordinal";
            self.pattern(largest, name);
            let one_short = number == 4 && register.len() + 1 == protections;
            self.pattern(one_short, "4 with one entry too few");
            return;
        }
        self.pattern(largest, "refused in the records, at the largest ordinal");
        let (lent, further) = register.split_at(protections);
        let contents = lent.iter().any(|entry| *entry != Entry::default());
        let name = "refused in the records, earlier contents cleared";
        self.pattern(contents, name);
        let name = "entries behind the protections stay, refused in the records";
        self.pattern(!further.is_empty(), name);
    }
}
