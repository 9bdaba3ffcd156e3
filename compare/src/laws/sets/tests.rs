//! That each law refuses an answer that is wrong, whatever made it so.

use super::{sets, shown};
use crate::model::{file, show, Answer, Entry, Shown, ROWS};
use crate::text::words;

/// Two sets that are equal, one with a cover, a financing set between two others,
/// and items before, between and behind them.
const BOOK: &str = "\
tier1 1
date 2096-03-01
protection entity=1 notional=9
asset carrying=1
financing
repo lent=5 received=3
financing
repo lent=5 received=3
set
sold entity=1 notional=8
cover protection=0 amount=2
commitment notional=3
financing
set netting
trade notional=7
asset carrying=1";

/// Where they stand.
const SETS: [[usize; 2]; 5] = [[11, 20], [20, 29], [29, 41], [43, 44], [44, 53]];

const DIRT: Entry = Entry {
    entity: 9,
    rank: 9,
    days: 9,
    left: 9,
};

fn book() -> Vec<u32> {
    words(BOOK).unwrap()
}

fn set(book: &[u32], [begin, end]: [usize; 2]) -> Shown<'_> {
    Shown {
        number: 0,
        place: 0,
        stretch: &book[begin..end],
    }
}

/// What is said of these stretches, for the ordinals from 0 on, and 15 behind them.
fn held(book: &[u32], stretches: &[[usize; 2]]) -> Result<(), String> {
    let stretches = stretches.iter().map(|&stretch| set(book, stretch));
    let behind = Shown::refused(book, 15, 0);
    let answers: Vec<(usize, Shown)> = stretches.chain([behind]).enumerate().collect();
    sets(book, &answers)
}

#[track_caller]
fn assert_refused(stretches: &[[usize; 2]], what: &str) {
    assert_eq!(held(&book(), stretches), Err(what.to_string()));
}

/// All sets, with another stretch for one of them.
fn with(ordinal: usize, stretch: [usize; 2]) -> Vec<[usize; 2]> {
    let mut stretches = SETS.to_vec();
    stretches[ordinal] = stretch;
    stretches
}

#[test]
fn the_sets_as_they_are() {
    let book = book();
    assert_eq!(held(&book, &SETS), Ok(()));
    for (ordinal, stretch) in SETS.into_iter().enumerate() {
        let model = show(&book, ordinal, &mut [DIRT]);
        assert_eq!(model, set(&book, stretch));
    }
    // Some of them alone, and ordinals far behind.
    let none = Shown::refused(&book, 15, 0);
    let some = [
        (1, set(&book, SETS[1])),
        (3, set(&book, SETS[3])),
        (9, none),
    ];
    assert_eq!(sets(&book, &some), Ok(()));
    assert_eq!(sets(&book, &[(5, none), (usize::MAX, none)]), Ok(()));
}

#[test]
fn stretches_that_are_off_by_one() {
    let ends_within = "a stretch that ends within its set";
    let beyond = "a stretch beyond its set";
    for (ordinal, [begin, end]) in SETS.into_iter().enumerate() {
        let shorter = with(ordinal, [begin, end - 1]);
        let what = match ordinal {
            3 => "an empty stretch for a set",
            _ => ends_within,
        };
        assert_refused(&shorter, what);
        assert_refused(&with(ordinal, [begin, end + 1]), beyond);
        let later = held(&book(), &with(ordinal, [begin + 1, end]));
        assert!(later.is_err(), "{ordinal}");
    }
    assert_refused(&with(0, [10, 20]), "a stretch that begins with no set");
    assert_refused(&with(1, [19, 29]), "not behind the sets before it");
}

#[test]
fn other_sets_than_those_asked_for() {
    // The first of two that are equal for the second, and the other way round.
    assert_refused(&with(1, SETS[0]), "not behind the sets before it");
    let counted = "another count of sets before it";
    assert_refused(&with(0, SETS[1]), counted);
    // Kind 4 alone counted, and kind 8 alone.
    assert_refused(&[SETS[2], SETS[4]], counted);
    assert_refused(&[SETS[0], SETS[1], SETS[3]], counted);
    assert_refused(&[SETS[1], SETS[2], SETS[3], SETS[4]], counted);
    // Two sets as one, and a member for a set.
    assert_refused(
        &[[11, 29], SETS[2], SETS[3], SETS[4]],
        "a stretch beyond its set",
    );
    assert_refused(&with(4, [48, 53]), counted);
    assert_refused(&SETS[..4], "15 for a set that is there");
    let book = book();
    let elsewhere = book.clone();
    let answers = [(0, set(&elsewhere, SETS[0]))];
    let what = "a stretch beside the book".to_string();
    assert_eq!(sets(&book, &answers), Err(what));
}

#[test]
fn counts_hold_with_sets_that_were_not_asked_for() {
    let book = book();
    let none = Shown::refused(&book, 15, 0);
    for (ordinal, stretch) in [(2, SETS[1]), (2, SETS[3]), (9, SETS[4])] {
        let failed = sets(&book, &[(ordinal, set(&book, stretch))]);
        assert_eq!(failed, Err("another count of sets before it".to_string()));
    }
    for ordinal in 0..SETS.len() {
        let failed = sets(&book, &[(ordinal, none)]);
        assert_eq!(failed, Err("15 for a set that is there".to_string()));
    }
}

#[test]
fn members_without_a_set() {
    // Such a book is refused, so that no answer for it comes here.
    let book = words("tier1 1\ndate 2096-03-01\nasset\nrepo").unwrap();
    let failed = sets(&book, &[(0, Shown::refused(&book, 15, 0))]);
    assert_eq!(failed, Err("a member outside of the stretches".to_string()));
}

/// A call beside the filing of the same book, which leaves this register.
struct Call {
    book: Vec<u32>,
    filed: Answer,
    left: [Entry; 2],
}

impl Call {
    fn new(book: Vec<u32>) -> Self {
        let mut left = [DIRT; 2];
        let filed = file(&book, &mut [0; ROWS], &mut left);
        Call { book, filed, left }
    }

    fn held(&self, answer: Shown, register: &[Entry]) -> Result<(), String> {
        shown(&self.book, &answer, register, &self.filed, &self.left)
    }

    fn refused(&self, number: u32, place: usize) -> Shown<'_> {
        Shown::refused(&self.book, number, place)
    }
}

#[test]
fn register_is_as_a_filing_leaves_it() {
    let call = Call::new(book());
    let [answer, none] = [set(&call.book, SETS[0]), call.refused(15, 0)];
    let what = Err("the register is not as a filing leaves it".to_string());
    let cleared = [Entry::default(), DIRT];
    for answer in [answer, none] {
        assert_eq!(call.held(answer, &call.left), Ok(()));
        let further = [call.left[0], Entry::default()];
        for register in [cleared, [DIRT; 2], further] {
            assert_eq!(call.held(answer, &register), what);
        }
    }
    let mut uncounted = book();
    uncounted.push(0);
    let call = Call::new(uncounted);
    let refused = call.refused(14, 57);
    assert_eq!(call.held(refused, &cleared), Ok(()));
    assert_eq!(call.held(refused, &[DIRT; 2]), what);
}

#[test]
fn refused_books_come_first() {
    let mut uncounted = book();
    uncounted.push(0);
    let call = Call::new(uncounted);
    let what = Err("not the book's own number and place".to_string());
    for answer in [
        call.refused(15, 0),
        call.refused(14, 0),
        call.refused(14, 58),
        call.refused(5, 57),
        set(&call.book, SETS[0]),
    ] {
        assert_eq!(call.held(answer, &call.left), what);
    }
}

#[test]
fn refusals_of_this_call_alone() {
    let call = Call::new(book());
    let what = Err("another refusal than 15 at 0".to_string());
    for (number, place) in [(15, 11), (14, 0), (1, 0)] {
        assert_eq!(call.held(call.refused(number, place), &call.left), what);
    }
    let place = Shown {
        place: 11,
        ..set(&call.book, SETS[0])
    };
    assert_eq!(call.held(place, &call.left), what);
    let what = Err("a refusal has no empty stretch at the first word".to_string());
    let one_word = &call.book[..1];
    let at_the_end = &call.book[call.book.len()..];
    for stretch in [one_word, at_the_end, &[]] {
        let refused = Shown {
            stretch,
            ..call.refused(15, 0)
        };
        assert_eq!(call.held(refused, &call.left), what);
    }
}
