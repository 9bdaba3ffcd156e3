//! The call that counts settings, by six filings: the margin marks weigh nothing
//! without netting and only all together with it, so that the settings fall into
//! six groups that are alike.

use super::{file, show};
use crate::filing::NO_SUCH_SET;
use crate::model::{Counted, Entry, ROWS, VERDICTS};

const NETTING: u32 = 1;
/// Netting and the four margin marks.
const MARGIN: u32 = 0x1F;
const EXEMPT: u32 = 0x20;

/// One setting of each group, and how many the group has.
const GROUPS: [(u32, u32); 6] = [
    (0, 16),
    (NETTING, 15),
    (MARGIN, 1),
    (EXEMPT, 16),
    (EXEMPT | NETTING, 15),
    (EXEMPT | MARGIN, 1),
];

pub fn settings(book: &[u32], ordinal: usize, register: &mut [Entry]) -> Counted {
    let shown = show(book, ordinal, register);
    let head = match (shown.number, shown.begin(book)) {
        (0, Some(head)) if book[head] >> 28 == 4 => head,
        (0, _) => return Counted::refused(NO_SUCH_SET, 0),
        (number, _) => return Counted::refused(number, shown.place),
    };
    let mut other = book.to_vec();
    let mut scratch = register.to_vec();
    let mut counts = [0; VERDICTS];
    for (marks, settings) in GROUPS {
        other[head] = 4 << 28 | marks;
        let answer = file(&other, &mut [0; ROWS], &mut scratch);
        counts[answer.verdict as usize] += settings;
    }
    Counted {
        number: 0,
        place: 0,
        counts,
    }
}
