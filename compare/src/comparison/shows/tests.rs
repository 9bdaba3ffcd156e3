//! That an implementation which shows sets wrongly is found out.

use super::super::tests::{self, ANOTHER_ANSWER, ANOTHER_REGISTER, RIGHT};
use crate::comparison::Peer;
use crate::fast::show;
use crate::filing::Showing;
use crate::model::{Entry, Shown};

#[track_caller]
fn assert_found_out(wrong: Showing, what: &str) {
    let peer = Peer {
        show: wrong,
        ..RIGHT
    };
    tests::assert_found_out(peer, what);
}

#[test]
fn another_count_of_sets() {
    // Those of kind 4 alone.
    let wrong: Showing = |book, ordinal, register| {
        let is_set = |kind: u32| matches!(kind, 4 | 8);
        let kinds = book
            .iter()
            .map(|word| word >> 28)
            .filter(|&kind| is_set(kind));
        let mut derivatives = kinds.enumerate().filter(|(_, kind)| *kind == 4);
        let ordinal = derivatives
            .nth(ordinal)
            .map_or(usize::MAX, |(place, _)| place);
        show(book, ordinal, register)
    };
    assert_found_out(wrong, ANOTHER_ANSWER);
    let wrong: Showing = |book, ordinal, register| show(book, ordinal.wrapping_add(1), register);
    assert_found_out(wrong, ANOTHER_ANSWER);
    let wrong: Showing = |book, ordinal, register| show(book, ordinal as u32 as usize, register);
    assert_found_out(wrong, ANOTHER_ANSWER);
}

#[test]
fn another_stretch() {
    let wrong: Showing = |book, ordinal, register| {
        let right = show(book, ordinal, register);
        let covers = right.stretch.iter().position(|word| word >> 28 == 7);
        let stretch = &right.stretch[..covers.unwrap_or(right.stretch.len())];
        Shown { stretch, ..right }
    };
    assert_found_out(wrong, ANOTHER_ANSWER);
    // Where the words first come, which may be an equal set.
    let wrong: Showing = |book, ordinal, register| {
        let right = show(book, ordinal, register);
        let mut stretches = book.windows(right.stretch.len().max(1));
        let stretch = stretches.find(|words| *words == right.stretch);
        Shown {
            stretch: stretch.unwrap_or(right.stretch),
            ..right
        }
    };
    assert_found_out(wrong, ANOTHER_ANSWER);
    // The same words, but not those of the book.
    let wrong: Showing = |book, ordinal, register| {
        let right = show(book, ordinal, register);
        let copy = right.stretch.to_vec();
        Shown {
            stretch: Vec::leak(copy),
            ..right
        }
    };
    assert_found_out(wrong, ANOTHER_ANSWER);
    let wrong: Showing = |book, ordinal, register| {
        let right = show(book, ordinal, register);
        let stretch = match right.number {
            15 => &book[book.len()..],
            _ => right.stretch,
        };
        Shown { stretch, ..right }
    };
    assert_found_out(wrong, ANOTHER_ANSWER);
}

#[test]
fn another_refusal() {
    // 15 before the book's own.
    let wrong: Showing = |book, ordinal, register| {
        let right = show(book, ordinal, register);
        let sets = book.iter().filter(|&word| matches!(word >> 28, 4 | 8));
        if sets.count() <= ordinal {
            return Shown::refused(book, 15, 0);
        }
        right
    };
    assert_found_out(wrong, ANOTHER_ANSWER);
    let wrong: Showing = |book, ordinal, register| {
        let right = show(book, ordinal, register);
        let place = match right.number {
            15 => book.len() - 1,
            _ => right.place,
        };
        Shown { place, ..right }
    };
    assert_found_out(wrong, ANOTHER_ANSWER);
}

#[test]
fn another_register() {
    let wrong: Showing = |book, ordinal, register| {
        let right = show(book, ordinal, register);
        if right.number == 15 {
            let protections = (book[0] & 0x0FFF_FFFF) as usize;
            register[..protections].fill(Entry::default());
        }
        right
    };
    assert_found_out(wrong, ANOTHER_REGISTER);
    let wrong: Showing = |book, ordinal, register| {
        let mut other = register.to_vec();
        show(book, ordinal, &mut other)
    };
    assert_found_out(wrong, ANOTHER_REGISTER);
    let wrong: Showing = |book, ordinal, register| {
        let right = show(book, ordinal, register);
        if let (5.., Some(last)) = (right.number, register.last_mut()) {
            *last = Entry::default();
        }
        right
    };
    assert_found_out(wrong, ANOTHER_REGISTER);
}
