//! What the printing program is to write for the bytes of its input.

use crate::model::{self, Entry, ROWS};

/// What the program holds of its own.
const WORDS: usize = 16_384;
const ENTRIES: usize = 1_024;

pub fn printed(bytes: &[u8]) -> String {
    if bytes.len() > 4 * WORDS {
        return "input 2\n".to_string();
    }
    let words = bytes.chunks_exact(4);
    if !words.remainder().is_empty() {
        return "input 1\n".to_string();
    }
    let word = |bytes: &[u8]| {
        bytes
            .iter()
            .rev()
            .fold(0, |word, &byte| word << 8 | u32::from(byte))
    };
    let book: Vec<u32> = words.map(word).collect();
    let mut rows = [0; ROWS];
    let answer = model::file(&book, &mut rows, &mut [Entry::default(); ENTRIES]);
    if answer.number != 0 {
        return format!("refused {} at {}\n", answer.number, answer.place);
    }
    let lines: String = (1..)
        .zip(rows)
        .map(|(number, row)| format!("{number} {row}\n"))
        .collect();
    format!("{lines}verdict {}\n", answer.verdict)
}
