//! The second desk's book: some recognition marks more, nothing else.

use super::Random;

/// The recognition marks of a word, told by its kind alone.
fn marks_of(kind: u32) -> u32 {
    match kind {
        2 | 8 | 9 => 0b1,
        4 => 0b11_1111,
        _ => 0,
    }
}

pub fn more_marks(book: &[u32], random: &mut Random) -> Vec<u32> {
    // Now and then all marks, otherwise about half of them.
    let all = random.one_in(8);
    let more = |&word: &u32| {
        let chosen = if all { u32::MAX } else { random.word() };
        word | marks_of(word >> 28) & chosen
    };
    book.iter().map(more).collect()
}
