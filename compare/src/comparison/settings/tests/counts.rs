//! Implementations that count other settings, or other verdicts of them.

use super::{assert_found_out, tests, Peer, ANOTHER_ANSWER, RIGHT};
use crate::fast::{self, settings, show};
use crate::filing::Counting;
use crate::model::{set_to, Counted, Entry, ROWS, SETTINGS};

const NETTING: u32 = 0b1;
const FOUR_OF_MARGIN: u32 = 0b1_1110;
const EXEMPT: u32 = 0b10_0000;

/// Where the head of a set stands.
fn head(book: &[u32], ordinal: usize) -> usize {
    show(book, ordinal, &mut vec![Entry::default(); 4_200])
        .begin(book)
        .unwrap()
}

/// The right refusal, or what is counted where each book with a setting is written
/// and judged by these two.
fn counted_by(
    book: &[u32],
    ordinal: usize,
    register: &mut [Entry],
    write: impl Fn(&mut [u32], usize, u32),
    judge: impl Fn(&[i64], u32) -> u32,
) -> Counted {
    let mut counted = settings(book, ordinal, register);
    if counted.number != 0 {
        return counted;
    }
    let head = head(book, ordinal);
    counted.counts = [0; 3];
    for marks in 0..SETTINGS as u32 {
        let mut other = book.to_vec();
        write(&mut other, head, marks);
        let mut rows = [0; ROWS];
        let answer = fast::file(&other, &mut rows, &mut register.to_vec());
        counted.counts[judge(&rows, answer.verdict) as usize] += 1;
    }
    counted
}

/// The same where only the marks are not those that they should be.
fn counted_with(
    book: &[u32],
    ordinal: usize,
    register: &mut [Entry],
    marks: impl Fn(u32) -> u32,
) -> Counted {
    let write = |other: &mut [u32], head: usize, setting| {
        other[head] = set_to(other[head], marks(setting));
    };
    counted_by(book, ordinal, register, write, |_, verdict| verdict)
}

#[test]
fn nothing_is_found_by_the_definition() {
    let right: Counting =
        |book, ordinal, register| counted_with(book, ordinal, register, |marks| marks);
    let peer = Peer {
        settings: right,
        ..RIGHT
    };
    tests::assert_not_found_out(peer);
}

/// The right refusal, or what is made of the right counts and the filed verdict.
fn recounted(
    book: &[u32],
    ordinal: usize,
    register: &mut [Entry],
    recount: impl Fn(&mut [u32; 3], usize),
) -> Counted {
    let mut counted = settings(book, ordinal, register);
    if counted.number == 0 {
        let filed = fast::file(book, &mut [0; ROWS], &mut register.to_vec());
        recount(&mut counted.counts, filed.verdict as usize);
    }
    counted
}

#[test]
fn another_number_of_settings() {
    // All but the filed one, and all but one with another verdict, if there is any.
    let wrong: Counting = |book, ordinal, register| {
        recounted(book, ordinal, register, |counts, filed| counts[filed] -= 1)
    };
    assert_found_out(wrong, ANOTHER_ANSWER);
    let wrong: Counting = |book, ordinal, register| {
        recounted(book, ordinal, register, |counts, filed| {
            let other = (0..3).find(|&verdict| verdict != filed && counts[verdict] > 0);
            counts[other.unwrap_or(filed)] -= 1;
        })
    };
    assert_found_out(wrong, ANOTHER_ANSWER);
    // The filed one for all, and the filed one with more marks.
    let wrong: Counting = |book, ordinal, register| {
        recounted(book, ordinal, register, |counts, filed| {
            *counts = [0; 3];
            counts[filed] = SETTINGS as u32;
        })
    };
    assert_found_out(wrong, ANOTHER_ANSWER);
    let wrong: Counting = |book, ordinal, register| {
        let write = |other: &mut [u32], head: usize, marks| other[head] |= marks;
        counted_by(book, ordinal, register, write, |_, verdict| verdict)
    };
    assert_found_out(wrong, ANOTHER_ANSWER);
}

#[test]
fn marks_weighed_otherwise() {
    // The margin's marks ignored; all of them where netting is; margin without netting.
    let wrong: Counting = |book, ordinal, register| {
        counted_with(book, ordinal, register, |marks| marks & !FOUR_OF_MARGIN)
    };
    assert_found_out(wrong, ANOTHER_ANSWER);
    let wrong: Counting = |book, ordinal, register| {
        counted_with(book, ordinal, register, |marks| match marks & NETTING {
            0 => marks,
            _ => marks | FOUR_OF_MARGIN,
        })
    };
    assert_found_out(wrong, ANOTHER_ANSWER);
    let wrong: Counting = |book, ordinal, register| {
        counted_with(book, ordinal, register, |marks| {
            let margin = marks & FOUR_OF_MARGIN == FOUR_OF_MARGIN;
            marks | u32::from(margin)
        })
    };
    assert_found_out(wrong, ANOTHER_ANSWER);
    // An exempt leg that is left in.
    let wrong: Counting =
        |book, ordinal, register| counted_with(book, ordinal, register, |marks| marks & !EXEMPT);
    assert_found_out(wrong, ANOTHER_ANSWER);
    // The marks of all derivative sets at once.
    let wrong: Counting = |book, ordinal, register| {
        let write = |other: &mut [u32], _: usize, marks| {
            for word in other.iter_mut().filter(|word| **word >> 28 == 4) {
                *word = set_to(*word, marks);
            }
        };
        counted_by(book, ordinal, register, write, |_, verdict| verdict)
    };
    assert_found_out(wrong, ANOTHER_ANSWER);
}

#[test]
fn another_verdict() {
    let exchanged: Counting =
        |book, ordinal, register| recounted(book, ordinal, register, |counts, _| counts.swap(0, 1));
    assert_found_out(exchanged, ANOTHER_ANSWER);
    // No exposure taken for enough, and for too little.
    let wrong: Counting = |book, ordinal, register| {
        recounted(book, ordinal, register, |counts, _| {
            *counts = [counts[0] + counts[2], counts[1], 0];
        })
    };
    assert_found_out(wrong, ANOTHER_ANSWER);
    let wrong: Counting = |book, ordinal, register| {
        recounted(book, ordinal, register, |counts, _| {
            *counts = [counts[0], counts[1] + counts[2], 0];
        })
    };
    assert_found_out(wrong, ANOTHER_ANSWER);
    // Just 3 for every 100 taken for too little.
    let wrong: Counting = |book, ordinal, register| {
        let write =
            |other: &mut [u32], head: usize, marks| other[head] = set_to(other[head], marks);
        counted_by(book, ordinal, register, write, |rows, verdict| {
            match 100 * rows[19] == 3 * rows[20] {
                true if verdict == 0 => 1,
                _ => verdict,
            }
        })
    };
    assert_found_out(wrong, ANOTHER_ANSWER);
}
