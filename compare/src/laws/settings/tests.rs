//! That each law refuses an answer that is wrong, whatever made it so.

use super::{counted, counted_with_more_marks, counted_with_other_marks};
use crate::model::{self, file, verdicts, Answer, Counted, Entry, ROWS};
use crate::text::words;

/// A financing set, a derivative set with an exposure of 50 that netting brings down
/// to 36, margin to 31 and an exempt leg to 0, and an empty one. Tier 1 is enough for
/// 33 and a third.
const BOOK: &str = "\
tier1 1
date 2096-03-01
protection entity=1 notional=9
financing
set received=5
trade class=currency value=30 notional=1000 days=365
trade class=currency value=-10 notional=1000 days=365
set";

const FINANCING: usize = 0;
const DERIVATIVES: usize = 1;
const EMPTY: usize = 2;
const NONE: usize = 3;

/// With margin, with neither that nor an exempt leg, and with the latter.
const SPLIT: [u32; 3] = [1, 31, 32];

const DIRT: Entry = Entry {
    entity: 9,
    rank: 9,
    days: 9,
    left: 9,
};

fn book() -> Vec<u32> {
    words(BOOK).unwrap()
}

fn refused_book() -> Vec<u32> {
    let mut uncounted = book();
    uncounted.push(0);
    uncounted
}

fn accepted(counts: [u32; 3]) -> Counted {
    Counted {
        number: 0,
        place: 0,
        counts,
    }
}

/// A call beside the filing of the same book, which leaves this register.
struct Call {
    book: Vec<u32>,
    filed: Answer,
    left: [Entry; 2],
}

impl Call {
    fn new(book: Vec<u32>) -> Self {
        let mut left = [DIRT; 2];
        let filed = file(&book, &mut [0; ROWS], &mut left);
        Call { book, filed, left }
    }

    fn held(&self, ordinal: usize, answer: Counted) -> Result<(), String> {
        self.held_in(ordinal, answer, &self.left)
    }

    fn held_in(&self, ordinal: usize, answer: Counted, register: &[Entry]) -> Result<(), String> {
        let (filed, left) = (&self.filed, &self.left);
        counted(&self.book, ordinal, &answer, register, filed, left)
    }
}

fn refused(what: &str) -> Result<(), String> {
    Err(what.to_string())
}

#[test]
fn the_settings_as_they_are() {
    let call = Call::new(book());
    let none = Counted::refused(15, 0);
    for (ordinal, expected) in [
        (FINANCING, none),
        (DERIVATIVES, accepted(SPLIT)),
        (EMPTY, accepted([0, 64, 0])),
        (NONE, none),
        (usize::MAX, none),
    ] {
        let answer = model::counted(&verdicts(&call.book, ordinal, &mut [DIRT; 2]));
        assert_eq!(answer, expected);
        assert_eq!(call.held(ordinal, answer), Ok(()));
    }
    let call = Call::new(refused_book());
    let answer = Counted::refused(call.filed.number, call.filed.place);
    assert_eq!(call.held(DERIVATIVES, answer), Ok(()));
}

#[test]
fn sixty_four_settings() {
    let call = Call::new(book());
    let what = "counts that do not sum to 64";
    for counts in [
        [0, 31, 32],
        [1, 30, 32],
        [1, 31, 31],
        [0, 1, 0],
        [0, 0, 0],
        [1, 32, 32],
        [u32::MAX; 3],
        [65, 0, u32::MAX],
    ] {
        assert_eq!(call.held(DERIVATIVES, accepted(counts)), refused(what));
    }
}

#[test]
fn the_filed_setting_is_one_of_them() {
    let call = Call::new(book());
    assert_eq!(call.filed.verdict, 1);
    let what = "no setting with the filed verdict";
    for counts in [[64, 0, 0], [32, 0, 32], [0, 0, 64]] {
        assert_eq!(call.held(DERIVATIVES, accepted(counts)), refused(what));
    }
}

#[test]
fn counts_that_no_set_comes_to() {
    let call = Call::new(book());
    let what = "counts that no set comes to";
    // Verdicts 0 and 1 exchanged, 1 and 2 exchanged, margin without netting, and
    // margin wherever netting is.
    for counts in [[31, 1, 32], [1, 32, 31], [2, 30, 32], [16, 48, 0]] {
        assert_eq!(call.held(DERIVATIVES, accepted(counts)), refused(what));
    }
}

#[test]
fn sets_that_are_asked_for() {
    let call = Call::new(book());
    // As by an ordinal among derivative sets alone.
    let what = refused("counts for no derivative set");
    assert_eq!(call.held(FINANCING, accepted(SPLIT)), what);
    for ordinal in [NONE, usize::MAX, 1 << 32 | DERIVATIVES] {
        assert_eq!(call.held(ordinal, accepted(SPLIT)), what);
    }
    let what = refused("15 for a derivative set");
    for ordinal in [DERIVATIVES, EMPTY] {
        assert_eq!(call.held(ordinal, Counted::refused(15, 0)), what);
    }
}

#[test]
fn refusals_have_no_counts() {
    let what = refused("a refusal with counts");
    for counts in [SPLIT, [0, 64, 0], [0, 0, 1]] {
        let call = Call::new(book());
        let none = Counted {
            counts,
            ..Counted::refused(15, 0)
        };
        assert_eq!(call.held(FINANCING, none), what);
        let call = Call::new(refused_book());
        let own = Counted {
            counts,
            ..Counted::refused(call.filed.number, call.filed.place)
        };
        assert_eq!(call.held(DERIVATIVES, own), what);
    }
}

#[test]
fn refused_books_come_first() {
    let call = Call::new(refused_book());
    let place = call.filed.place;
    let what = refused("not the book's own number and place");
    for answer in [
        Counted::refused(15, 0),
        Counted::refused(14, 0),
        Counted::refused(5, place),
        accepted(SPLIT),
    ] {
        assert_eq!(call.held(DERIVATIVES, answer), what);
    }
    let call = Call::new(book());
    let what = refused("another refusal than 15 at 0");
    for (number, place) in [(15, 7), (14, 0), (1, 0)] {
        assert_eq!(call.held(NONE, Counted::refused(number, place)), what);
    }
}

#[test]
fn register_is_as_a_filing_leaves_it() {
    let call = Call::new(book());
    let what = refused("the register is not as a filing leaves it");
    let cleared = [Entry::default(), DIRT];
    let further = [call.left[0], Entry::default()];
    for (ordinal, answer) in [
        (DERIVATIVES, accepted(SPLIT)),
        (FINANCING, Counted::refused(15, 0)),
        (NONE, Counted::refused(15, 0)),
    ] {
        for register in [cleared, further, [DIRT; 2]] {
            assert_eq!(call.held_in(ordinal, answer, &register), what);
        }
    }
}

#[test]
fn more_marks_elsewhere() {
    let first = accepted(SPLIT);
    for counts in [SPLIT, [32, 0, 32], [0, 31, 33], [0, 0, 64]] {
        let held = counted_with_more_marks(&first, &accepted(counts));
        assert_eq!(held, Ok(()));
    }
    let what = refused("fewer settings without exposure");
    for counts in [[64, 0, 0], [48, 16, 0], [33, 31, 0]] {
        let held = counted_with_more_marks(&first, &accepted(counts));
        assert_eq!(held, what);
    }
    let what = refused("more settings too little");
    for counts in [[0, 32, 32], [0, 64, 0]] {
        let held = counted_with_more_marks(&first, &accepted(counts));
        assert_eq!(held, what);
    }
    let what = refused("another number or place");
    for second in [Counted::refused(15, 0), Counted::refused(0, 1)] {
        assert_eq!(counted_with_more_marks(&first, &second), what);
    }
}

#[test]
fn marks_of_the_set_itself() {
    let first = accepted(SPLIT);
    assert_eq!(counted_with_other_marks(&first, &first), Ok(()));
    let what = refused("another answer by the set's own marks");
    for second in [accepted([32, 0, 32]), Counted::refused(15, 0)] {
        assert_eq!(counted_with_other_marks(&first, &second), what);
    }
}
