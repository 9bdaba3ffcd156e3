//! A set that is shown, for a person to read: a record to a line.

#[cfg(test)]
mod tests;

use super::forms::{Form, List, FORMS};
use crate::model::Shown;

/// The lines for a call that was asked for the set with this ordinal.
pub fn lines(book: &[u32], ordinal: usize, shown: &Shown) -> String {
    let (number, place) = (shown.number, shown.place);
    if number != 0 {
        return format!("refused {number} at {place}\n");
    }
    let begin = shown.begin(book).expect("a stretch of this book");
    let count = match shown.stretch.len() {
        1 => "1 word".to_string(),
        words => format!("{words} words"),
    };
    let mut lines = format!("set {ordinal}: {count} from {begin} on\n");
    let mut rest = shown.stretch;
    while let [head, behind @ ..] = rest {
        let place = begin + shown.stretch.len() - rest.len();
        let form = FORMS.iter().find(|form| form.kind == head >> 28);
        let (keyword, amounts) = form.map_or(("word", 0), |form| (form.keyword, form.count(*head)));
        let (amounts, next) = behind.split_at(amounts.min(behind.len()));
        lines.push_str(&format!("{place} {keyword} 0x{head:08X}"));
        for amount in amounts {
            lines.push_str(&format!(" {}", signed(*amount)));
        }
        lines.push('\n');
        rest = next;
    }
    lines
}

/// An amount with its sign, which is bit 27.
fn signed(word: u32) -> i64 {
    let size = i64::from(word & ((1 << 27) - 1));
    match word >> 27 & 1 {
        0 => size,
        _ => -size,
    }
}

impl Form {
    /// How many amounts a record with this word has, those of its list included.
    fn count(&self, word: u32) -> usize {
        let counted = |list: &List| word >> list.low & ((1 << list.width) - 1);
        let listed = self.list.as_ref().map_or(0, counted);
        self.amounts.len() + listed as usize
    }
}
