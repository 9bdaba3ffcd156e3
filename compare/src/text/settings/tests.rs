//! The lines of settings, and of refusals.

use super::lines;
use crate::model::{counted, verdicts, Entry};
use crate::text::words;

fn lines_of(source: &str, ordinal: usize) -> String {
    let book = words(source).unwrap();
    let mut register = [Entry::default(); 4];
    lines(&counted(&verdicts(&book, ordinal, &mut register)))
}

const SAMPLE: &str = include_str!("../../../books/sample.txt");

#[test]
fn a_verdict_to_a_line() {
    let marks = include_str!("../../../books/marks.txt");
    let expected = "\
1 setting leads to verdict 0, Tier 1 is enough
31 settings lead to verdict 1, Tier 1 is too little
32 settings lead to verdict 2, no exposure
";
    assert_eq!(lines_of(marks, 0), expected);
}

#[test]
fn all_settings_of_the_sample_are_enough() {
    let expected = "\
64 settings lead to verdict 0, Tier 1 is enough
0 settings lead to verdict 1, Tier 1 is too little
0 settings lead to verdict 2, no exposure
";
    for ordinal in 0..3 {
        assert_eq!(lines_of(SAMPLE, ordinal), expected);
    }
}

#[test]
fn refusals_are_told_as_by_the_printing_program() {
    // A financing set, and none.
    for ordinal in [3, 5] {
        assert_eq!(lines_of(SAMPLE, ordinal), "refused 15 at 0\n");
    }
    let senior = include_str!("../../../books/cover_senior.txt");
    assert_eq!(lines_of(senior, 0), "refused 12 at 17\n");
}
