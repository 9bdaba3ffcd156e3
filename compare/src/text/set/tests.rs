//! The lines of sets, and of refusals.

use super::lines;
use crate::model::{show, Entry};
use crate::text::words;

fn lines_of(source: &str, ordinal: usize) -> String {
    let book = words(source).unwrap();
    let mut register = [Entry::default(); 4];
    lines(&book, ordinal, &show(&book, ordinal, &mut register))
}

const SAMPLE: &str = include_str!("../../../books/sample.txt");

#[test]
fn derivative_set_with_a_basket() {
    let expected = "\
set 0: 35 words from 19 on
19 set 0x4000001F 5 12 3
23 trade 0x50000009 30 1000 365 365
28 trade 0x50000009 -10 1000 365 365
33 trade 0x50000820 2 800 2000 30
38 trade 0x5000100D -1 100 700 700
43 trade 0x5000000E 1 5000 1000 1000
48 basket 0xB00000C2 -5 300 9 10 12
";
    assert_eq!(lines_of(SAMPLE, 0), expected);
}

#[test]
fn covers_stand_behind_their_credit() {
    let expected = "\
set 1: 20 words from 54 on
54 set 0x40000000 0 0 0
58 sold 0x60520011 -4 400 15 1825 3
64 cover 0x70000000 200
66 cover 0x70000001 100
68 sold 0x60200028 6 50 0 400 0
";
    assert_eq!(lines_of(SAMPLE, 1), expected);
}

#[test]
fn financing_sets() {
    let expected = "\
set 4: 9 words from 108 on
108 financing 0x80000006
109 repo 0x90000000 0 0 0 0 30 28 1
";
    assert_eq!(lines_of(SAMPLE, 4), expected);
    let empty = "tier1 1\ndate 2096-03-01\nfinancing netting\nset";
    let expected = "set 0: 1 word from 3 on\n3 financing 0x80000001\n";
    assert_eq!(lines_of(empty, 0), expected);
    let expected = "set 1: 4 words from 4 on\n4 set 0x40000000 0 0 0\n";
    assert_eq!(lines_of(empty, 1), expected);
}

#[test]
fn refusals_are_told_as_by_the_printing_program() {
    assert_eq!(lines_of(SAMPLE, 5), "refused 15 at 0\n");
    let senior = include_str!("../../../books/cover_senior.txt");
    assert_eq!(lines_of(senior, 0), "refused 12 at 17\n");
}
