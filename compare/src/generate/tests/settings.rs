//! Books with Tier 1 where the marks of a set decide.

use super::super::settings::{exposure_with, nothing_stays, on_an_edge, stretch, values};
use super::super::{protections_end, word};
use super::{number, valid, Random};
use crate::model::{counted, kinds, show, verdicts, Entry, SETTINGS};

fn register() -> Vec<Entry> {
    vec![Entry::default(); 4_096]
}

#[test]
fn settings_are_split_on_an_edge() {
    let mut random = Random::new(33);
    // By how many verdicts there are; and settings with just 3 for every 100.
    let mut split = [0; 4];
    let mut just_enough = 0;
    for _ in 0..2_000 {
        let book = valid::book(&mut random).words;
        if book.len() > 2_000 {
            continue;
        }
        let Some(edge) = on_an_edge(&book, &mut random) else {
            assert!(book.iter().all(|word| word >> 28 != kinds::DERIVATIVE_SET));
            continue;
        };
        assert_eq!(number(&edge.book), 0);
        let items = protections_end(&book);
        assert_eq!(edge.book[2..items], book[2..items]);
        let set = show(&edge.book, edge.ordinal, &mut register());
        assert_eq!(set.stretch, &edge.book[stretch(&edge.book, edge.head)]);
        let verdicts = verdicts(&edge.book, edge.ordinal, &mut register());
        let counts = counted(&verdicts).counts;
        split[counts.iter().filter(|&&count| count > 0).count()] += 1;
        let tier1 = 100_000 * u64::from(edge.book[1]);
        let just = |marks| tier1 > 0 && tier1 == 3 * exposure_with(&edge.book, edge.head, marks);
        just_enough += u32::from((0..SETTINGS as u32).any(just));
    }
    let [_, one, two, three] = split;
    assert!(one > 200 && two > 300 && three > 50, "{split:?}");
    assert!(just_enough > 50, "{just_enough}");
}

#[test]
fn nothing_stays_of_an_exempt_leg() {
    let mut random = Random::new(34);
    let mut sets = 0;
    for _ in 0..2_000 {
        let mut book = valid::book(&mut random).words;
        let heads = (0..book.len()).filter(|&place| book[place] >> 28 == kinds::DERIVATIVE_SET);
        let heads: Vec<usize> = heads.collect();
        for head in heads {
            sets += 1;
            let before = exposure_with(&book, head, 0b11_1111);
            nothing_stays(&mut book, head, &mut random);
            let stays = exposure_with(&book, head, 0b11_1111);
            assert!(stays <= before);
            // What an empty set in its place would bring.
            let set = stretch(&book, head);
            let mut without = book.clone();
            without.splice(set, [word(kinds::DERIVATIVE_SET, 0), 0, 0, 0]);
            let end = without.len() - 1;
            without[end] = word(kinds::END, end as u32);
            assert_eq!(exposure_with(&without, head, 0), stays);
        }
    }
    assert!(sets > 1_000, "{sets}");
}

#[test]
fn values_are_those_of_the_members() {
    // A trade of -6, a written credit of 10 with a cover of 8, and a basket of 3.
    let mut book = vec![word(1, 0), 0, 0, word(4, 0), 1, 2, 3];
    book.extend([word(5, 9), 1 << 27 | 6, 1_000, 365, 365]);
    book.extend([word(6, 1), 10, 100, 20, 100, 3, word(7, 0), 8]);
    book.extend([word(11, 1 | 1 << 6), 3, 500, 9]);
    book.extend([word(8, 0), word(15, 25)]);
    let found: Vec<i64> = values(&book, 3).collect();
    assert_eq!(found, [-6, 10, 3]);
    assert_eq!(stretch(&book, 3), 3..24);
}
