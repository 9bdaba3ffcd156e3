//! That a correction changes one amount and nothing else, that it is one of those
//! that can be corrected, and that each of them comes.

use std::collections::{BTreeMap, BTreeSet};

use super::super::{corrections, valid, word, Amount, Correction, Random, AMOUNT_LIMIT};
use super::{number, records};
use crate::text;

const LARGEST: i64 = AMOUNT_LIMIT as i64 - 1;

/// Many corrections of the same book.
fn corrected(book: &[u32]) -> Vec<Correction> {
    let mut random = Random::new(18);
    let drawn = (0..5_000).flat_map(|_| corrections(book, &mut random));
    drawn.collect()
}

fn lines(records: &str) -> Vec<u32> {
    text::words(&format!("tier1 7\ndate 2096-03-01\n{records}")).unwrap()
}

/// Where a book and its correction differ.
fn changed(book: &[u32], correction: &Correction) -> Vec<usize> {
    assert_eq!(book.len(), correction.book.len());
    let differ = |&place: &usize| book[place] != correction.book[place];
    (0..book.len()).filter(differ).collect()
}

fn amount(word: u32) -> i64 {
    let size = i64::from(word % AMOUNT_LIMIT);
    match word / AMOUNT_LIMIT {
        0 => size,
        _ => -size,
    }
}

#[test]
fn corrections_change_one_amount() {
    let mut random = Random::new(19);
    let mut pairs = [0, 0];
    for _ in 0..10_000 {
        let book = valid::book(&mut random).words;
        for correction in corrections(&book, &mut random) {
            let [place] = changed(&book, &correction)[..] else {
                panic!("not one word in which they differ");
            };
            let words = [book[place], correction.book[place]];
            assert_eq!(words.map(|word| word >> 28), [0, 0]);
            let [before, after] = words.map(amount);
            assert_eq!((correction.before, correction.after), (before, after));
            assert_eq!(correction.raised(), after - before);
            assert_eq!(number(&correction.book), 0);
            pairs[usize::from(correction.amount.ceiling().is_some())] += 1;
        }
    }
    assert!(pairs[0] > 1_000 && pairs[1] > 5_000, "{pairs:?}");
}

const EVERY_RECORD: &str = "\
protection notional=50 days=400
asset carrying=10 provision=2 deducted=3
asset fiduciary carrying=10 provision=2
set margin received=1 paid=2 posted=3
trade class=currency value=5 notional=6 days=7
sold value=-5 notional=20 days=30
cover protection=0 amount=4
basket value=0 notional=9 grades=9,10
set exempt
trade value=-1
asset carrying=1
set netting
trade value=2 notional=9
basket grades=1
set netting exempt
sold value=3
financing
repo settles-net gross=9 securities=1 receivable=2 payable=3 lent=4 received=5 days=6
commitment class=long to=cancellable notional=8
financing netting
repo lent=4
financing agent
repo received=4
financing netting agent further
repo lent=3 received=3";

#[test]
fn just_these_amounts_are_corrected() {
    let book = lines(EVERY_RECORD);
    let value = |netted, exempt| Amount::Value { netted, exempt };
    let lent = |agent, further| Amount::Lent { agent, further };
    let carrying = |fiduciary| Amount::Carrying { fiduciary };
    let (class, committed) = (1, 2 + 1);
    let commitment = Amount::OffBalance { class, committed };
    // By the record, counted from the head on, and the place in it.
    let expected = BTreeMap::from([
        ((2, 1), carrying(false)),
        ((3, 1), carrying(true)),
        ((5, 1), value(false, false)),
        ((6, 1), value(false, false)),
        ((8, 1), value(false, false)),
        ((10, 1), value(false, true)),
        ((11, 1), carrying(false)),
        ((13, 1), value(true, false)),
        ((14, 1), value(true, false)),
        ((16, 1), value(true, true)),
        ((18, 5), lent(false, false)),
        ((19, 1), commitment),
        ((21, 5), lent(false, false)),
        ((23, 5), lent(true, false)),
        ((25, 5), lent(true, true)),
    ]);
    let places: Vec<(usize, usize)> = records(&book)
        .iter()
        .enumerate()
        .flat_map(|(number, record)| (0..record.len()).map(move |place| (number, place)))
        .collect();
    let mut came = BTreeMap::new();
    for correction in corrected(&book) {
        let place = places[changed(&book, &correction)[0]];
        came.insert(place, correction.amount);
    }
    assert_eq!(came, expected);
}

/// The amounts to which the one of a book that can be corrected is.
fn amounts_after(records: &str) -> BTreeSet<i64> {
    let after = |correction: &Correction| correction.after;
    corrected(&lines(records)).iter().map(after).collect()
}

#[test]
fn amounts_stay_good_and_reach_their_ends() {
    for (records, before, least) in [
        ("asset carrying=10 provision=2 deducted=3", 10, 5),
        ("asset carrying=5 provision=5", 5, 5),
        ("asset fiduciary carrying=10", 10, 0),
        ("commitment notional=3", 3, 0),
        ("financing\nrepo lent=0", 0, 0),
        ("set\ntrade value=-5", -5, -LARGEST),
        ("set\nsold value=1", 1, -LARGEST),
        ("set netting\nbasket value=-1 grades=1", -1, -LARGEST),
    ] {
        let came = amounts_after(records);
        let ends = (came.first(), came.last());
        // The amount itself never comes, though it be the least.
        let first = least + i64::from(before == least);
        assert_eq!(ends, (Some(&first), Some(&LARGEST)), "{records}");
        assert!(!came.contains(&before), "{records}");
        for next in [before - 1, before + 1, 0, -before] {
            let good = next >= least && next != before;
            assert_eq!(came.contains(&next), good, "{records} to {next}");
        }
        assert!(came.len() > 50, "{records}");
    }
    let used_up = format!(
        "asset carrying={LARGEST} provision=1 deducted={}",
        LARGEST - 1
    );
    assert!(amounts_after(&used_up).is_empty());
}

#[test]
fn signed_amounts_are_raised() {
    let raised = |records: &str, after: i64| {
        let all = corrected(&lines(records));
        let found = all.iter().find(|correction| correction.after == after);
        found.map(Correction::raised)
    };
    assert_eq!(raised("set\ntrade value=-5", 5), Some(10));
    assert_eq!(raised("set\ntrade value=5", -5), Some(-10));
    assert_eq!(raised("set\ntrade value=-5", 0), Some(5));
    assert_eq!(raised("set\ntrade value=-5", -4), Some(1));
}

#[test]
fn many_of_one_sort_leave_room_for_others() {
    let mut book = lines("financing agent\nrepo lent=3");
    let end = book.len() - 1;
    book.truncate(end);
    for _ in 0..1_000 {
        book.extend([word(2, 0), 10, 0, 0]);
    }
    book.push(word(15, book.len() as u32));
    let all = corrected(&book);
    let lent = |correction: &&Correction| matches!(correction.amount, Amount::Lent { .. });
    let share = all.iter().filter(lent).count() * 10 / all.len();
    assert!((4..6).contains(&share), "{share}");
}
