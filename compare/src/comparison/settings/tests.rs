//! That an implementation which counts settings wrongly is found out.

mod counts;

use super::super::tests::{self, ANOTHER_ANSWER, ANOTHER_REGISTER, RIGHT};
use super::{laws, Filed, OtherMarks, Settings};
use crate::comparison::Peer;
use crate::fast::{settings, show};
use crate::filing::{Counting, Lengths};
use crate::model::{Counted, Entry, SETTINGS};
use crate::samples::SAMPLE_DATE;

#[track_caller]
fn assert_found_out(wrong: Counting, what: &str) {
    let peer = Peer {
        settings: wrong,
        ..RIGHT
    };
    tests::assert_found_out(peer, what);
}

/// The ordinal among all sets of that of a derivative set among these alone.
fn among_all(book: &[u32], ordinal: usize) -> usize {
    let kinds = book.iter().map(|word| word >> 28);
    let sets = kinds.filter(|kind| matches!(kind, 4 | 8)).enumerate();
    let mut derivatives = sets.filter(|(_, kind)| *kind == 4);
    derivatives
        .nth(ordinal)
        .map_or(usize::MAX, |(place, _)| place)
}

#[test]
fn another_set() {
    let wrong: Counting =
        |book, ordinal, register| settings(book, among_all(book, ordinal), register);
    assert_found_out(wrong, ANOTHER_ANSWER);
    let wrong: Counting =
        |book, ordinal, register| settings(book, ordinal.wrapping_add(1), register);
    assert_found_out(wrong, ANOTHER_ANSWER);
    let wrong: Counting =
        |book, ordinal, register| settings(book, ordinal as u32 as usize, register);
    assert_found_out(wrong, ANOTHER_ANSWER);
    // The derivative set behind a financing set.
    let wrong: Counting = |book, ordinal, register| {
        let mut next = ordinal;
        while show(book, next, register)
            .stretch
            .first()
            .map(|word| word >> 28)
            == Some(8)
        {
            next += 1;
        }
        settings(book, next, register)
    };
    assert_found_out(wrong, ANOTHER_ANSWER);
}

#[test]
fn another_refusal() {
    // 15 before the book's own, and at another place.
    let wrong: Counting = |book, ordinal, register| {
        let right = settings(book, ordinal, register);
        match among_all(book, 0) {
            usize::MAX => Counted::refused(15, 0),
            _ => right,
        }
    };
    assert_found_out(wrong, ANOTHER_ANSWER);
    let wrong: Counting = |book, ordinal, register| {
        let right = settings(book, ordinal, register);
        let place = match right.number {
            15 => book.len() - 1,
            _ => right.place,
        };
        Counted { place, ..right }
    };
    assert_found_out(wrong, ANOTHER_ANSWER);
    // Counts of a refused book, and of an ordinal without a derivative set.
    let wrong: Counting = |book, ordinal, register| {
        let right = settings(book, ordinal, register);
        let counts = match right.number {
            0 | 15 => right.counts,
            _ => [0, SETTINGS as u32, 0],
        };
        Counted { counts, ..right }
    };
    assert_found_out(wrong, ANOTHER_ANSWER);
    let wrong: Counting = |book, ordinal, register| {
        let right = settings(book, ordinal, register);
        let counts = match right.number {
            15 => [0, 0, SETTINGS as u32],
            _ => right.counts,
        };
        Counted { counts, ..right }
    };
    assert_found_out(wrong, ANOTHER_ANSWER);
}

#[test]
fn another_register() {
    let wrong: Counting = |book, ordinal, register| {
        let right = settings(book, ordinal, register);
        if right.number == 15 {
            let protections = (book[0] & 0x0FFF_FFFF) as usize;
            register[..protections].fill(Entry::default());
        }
        right
    };
    assert_found_out(wrong, ANOTHER_REGISTER);
    let wrong: Counting = |book, ordinal, register| {
        let mut other = register.to_vec();
        settings(book, ordinal, &mut other)
    };
    assert_found_out(wrong, ANOTHER_REGISTER);
    // Of all filings one after another, without a fresh register for each.
    let wrong: Counting = |book, ordinal, register| {
        let right = settings(book, ordinal, register);
        if let (0, Some(first)) = (right.number, register.first_mut()) {
            first.left = 0;
        }
        right
    };
    assert_found_out(wrong, ANOTHER_REGISTER);
    let wrong: Counting = |book, ordinal, register| {
        let right = settings(book, ordinal, register);
        if let (5.., Some(last)) = (right.number, register.last_mut()) {
            *last = Entry::default();
        }
        right
    };
    assert_found_out(wrong, ANOTHER_REGISTER);
}

/// Nothing of an exempt leg, and 7 otherwise.
const BOOK: [u32; 13] = [
    1 << 28,
    0,
    SAMPLE_DATE,
    4 << 28,
    0,
    0,
    0,
    5 << 28 | 1 << 3 | 6,
    7,
    0,
    0,
    0,
    15 << 28 | 12,
];

#[test]
fn pairs_are_held_to_their_laws() {
    let lengths = Lengths {
        rows: 0,
        register: 1,
    };
    let dirt = [Entry::default(); 2];
    let filed = Filed::new(&BOOK, lengths, &dirt);
    let first = settings(&BOOK, 0, &mut []);
    assert_eq!(first.counts, [0, 32, 32]);
    let mut side = Settings::new(RIGHT, 1);
    let laws: [OtherMarks; 2] = [
        laws::counted_with_more_marks,
        laws::counted_with_other_marks,
    ];
    for law in laws {
        assert_eq!(side.pair(&filed, 0, &first, &BOOK, law), Ok(()));
    }
    // As if the book before had been another one.
    let another = Counted {
        counts: [32, 0, 32],
        ..first
    };
    let told = [
        "more settings too little",
        "another answer by the set's own marks",
    ];
    for (law, told) in laws.into_iter().zip(told) {
        let failed = side.pair(&filed, 0, &another, &BOOK, law).unwrap_err();
        let expected = format!("right with other marks: {told}");
        assert_eq!(failed.lines().last(), Some(expected.as_str()));
    }
}
